"""From a matrix and a feed to the figure of a map."""

from dataclasses import dataclass, field, replace
from typing import Any

import numpy as np

from ..core.console import say
from ..core.errors import InputError
from ..core.text import display_text, quantity, rounded
from ..core.walking import Walking
from ..gtfs.projection import Projection
from ..gtfs.stops import Stops
from ..ground.contents import Ground
from ..matrices import Matrix
from . import drawing, map_content
from .classes import BANDS
from .drawn_lines import DrawnLines
from .isochrone_map import Bands, draw_bands
from .isochrones import StopGeometry
from .lines import Planned, lines_of_edits, lines_of_plan
from .map_content import Picture, PictureOptions
from .map_lines import MapLines
from .nearest import Nearest, picture_of_nearest, picture_of_nearest_difference


@dataclass(frozen=True)
class Sheet:
    """What stands around a picture."""

    title: str | None = None
    note: str = ""
    width: int = 1350  # pixels
    edits: list[str] = field(default_factory=list)  # scenario files, named as their scenarios are
    planned: Planned | None = None  # of scenarios of a plan, instead of `edits`
    ground: Ground | None = None


@dataclass(frozen=True)
class Areas:
    """Isochrones to draw: their origin, how travellers walk on, and the positions of the matrix' stops."""

    origin: str
    options: PictureOptions
    ground: StopGeometry
    walking: Walking


def picture_of(
    kind: str, matrix: Matrix, stops: Stops, origin: str | None, options: PictureOptions, what: Nearest | None = None
) -> Picture:
    """The picture of a map: times, access, nearest, or difference; a difference may be that of the nearest."""
    if origin is not None and origin not in stops.places:
        raise InputError(stops.path, f"no stop {origin}")
    if what is not None and kind == "nearest":
        picture = picture_of_nearest(matrix, options, what)
    elif what is not None:
        picture = picture_of_nearest_difference(matrix, stops, options, what)
    elif kind == "access":
        picture = map_content.picture_of_access(matrix, stops, options)
    elif origin is None:
        picture = map_content.picture_of_access_difference(matrix, stops, options)
    elif kind == "times":
        picture = map_content.picture_of_times(matrix, stops, origin, options)
    else:
        picture = map_content.picture_of_time_difference(matrix, stops, origin, options)
    return replace(picture, what=options.what)


def figure_of(picture: Picture, matrix: Matrix, stops: Stops, folder: str, sheet: Sheet, base: str | None) -> Any:
    """The figure of a picture over the lines of a feed, in a difference from a base with what a scenario changes."""
    shown_stops = stops.of(picture.drawn or matrix.stops)
    lost = int((~shown_stops.placed).sum())
    if lost == len(shown_stops.identifiers):
        raise InputError(stops.path, "no stop has stop_lat and stop_lon, so there is nothing to draw")
    say_unplaced(lost, picture.what)
    projection = Projection(shown_stops.latitudes, shown_stops.longitudes)
    lines, note = lines_below(folder, stops, projection, sheet, base)
    if sheet.title:
        picture = replace(picture, title=sheet.title, is_titled=True)
    return drawing.draw(picture, shown_stops, lines, note, sheet.width, sheet.ground)


def say_unplaced(count: int, what: str) -> None:
    """Reports how many stops or points a map leaves out, since nothing says where they are."""
    if count:
        has, are = ("has", "is") if count == 1 else ("have", "are")
        say(f"{quantity(count, what.removesuffix('s'))} {has} no stop_lat and stop_lon and {are} not drawn")


def lines_below(
    folder: str, stops: Stops, projection: Projection, sheet: Sheet, base: str | None
) -> tuple[list[MapLines], str]:
    """The lines on which vehicles run, and what is said of them."""
    drawn = DrawnLines(folder, stops, projection)
    if sheet.planned is None:
        lines = lines_of_edits(drawn, sheet.edits, base)
    else:
        lines = lines_of_plan(drawn, sheet.planned)
    drawn_from = "Lines as in shapes.txt." if drawn.shaped else "Lines drawn straight from stop to stop."
    ground = sheet.ground.attribution if sheet.ground else ""
    return lines, " ".join(filter(None, (drawn_from, as_sentence(ground), as_sentence(sheet.note))))


def as_sentence(text: str) -> str:
    """A text that another sentence may follow: with a full stop, unless it ends in a sign of its own."""
    text = text.rstrip()
    return text if not text or text.endswith((".", "!", "?", ":", ";", "\u2026", "\u3002")) else f"{text}."


def figure_of_isochrones(matrix: Matrix, stops: Stops, folder: str, sheet: Sheet, areas: Areas) -> Any:
    """The areas that are reached from an origin in a scenario, over the lines of a feed."""
    there, share = stops.of(matrix.stops), matrix.share(areas.options.share)
    scenario = matrix.scenario(areas.options.scenario or areas.options.base)
    seconds = matrix.seconds(scenario, share, areas.origin).astype(np.float64)
    limits, ground = areas.options.breaks or BANDS, areas.ground.around(areas.origin)
    shapes = ground.shapes_within(seconds, [round(60 * minutes) for minutes in limits], areas.walking)
    bands = list(zip(limits, shapes))
    say_unplaced(int((~ground.placed).sum()), areas.options.what)
    title = sheet.title or f"Areas reached from {stops.of([areas.origin]).name_of(areas.origin)}"
    subtitle = f"{rounded(bands[-1][1].area, 1)} km² within {bands[-1][0]:g} minutes"
    source, place = map_content.source_of(display_text(scenario), share, matrix), there.places.get(areas.origin)
    picture = Picture(title, subtitle, "Reached within", [], np.zeros(0, np.intp), source, place)
    picture = replace(picture, is_titled=bool(sheet.title))
    lines, note = lines_below(folder, stops, ground.projection, sheet, None)
    return draw_bands(picture, ground, lines, note, sheet.width, Bands(bands, sheet.ground))
