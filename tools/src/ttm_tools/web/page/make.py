"""From a matrix and a feed to a page, and what is reported of it."""

import math
import os
from dataclasses import dataclass, replace
from typing import BinaryIO

from ...core.console import say
from ...core.errors import InputError
from ...core.text import display_text, quantity
from ...gtfs.stops import read_list
from ...matrices import Matrix, Share
from ...places.selection import points_in, select_points
from . import sources
from .content import Content, MOST_CELLS, PageOptions, PagePlaces, content_of, origins_of
from .document import Frame, write_page
from .ground import page_ground
from .lines import Lines, page_lines, scenario_files
from .settings import PageSettings
from .streets import MOST_NODES, page_streets

MINUTES, MOST_MINUTES = 30, 120  # of the slider: where it begins, and its maximum


@dataclass(frozen=True)
class Page:
    content: Content
    lines: Lines
    frame: Frame

    def write(self, out: BinaryIO) -> None:
        write_page(out, self.content, self.lines, self.frame)


def options_of(matrix: Matrix, what: str, settings: PageSettings) -> PageOptions:
    """The scenarios and percentiles to show, of stops or points; refuses those that the matrix lacks."""
    base = matrix.scenario(settings.base or matrix.base)
    others = [matrix.scenario(name) for name in settings.scenarios or matrix.compared]
    scenarios = list(dict.fromkeys([base, *others]))
    shares: list[Share] = matrix.shares if settings.share is None else [matrix.share(settings.share)]
    options = PageOptions(settings, what, scenarios, shares, MOST_CELLS)
    if settings.origins is None:
        return options
    named = read_list(settings.origins, origins_of(matrix, options), "origin")
    cells = len(named) * len(matrix.stops) * len(scenarios) * len(shares)
    if cells > MOST_CELLS:
        raise InputError(
            settings.origins, f"travel times from its stops are {cells:,}, and a page takes {MOST_CELLS:,}"
        )
    return replace(options, origins=named)


def page_of(matrix: Matrix, settings: PageSettings) -> Page:
    chosen, stops = select_points(matrix, settings.feed, settings.points)
    assert stops is not None  # there is a feed
    options = options_of(chosen, "stops" if chosen is matrix else "points", settings)
    content = content_of(matrix, chosen, stops, options)
    files = scenario_files(settings.feed, options.scenarios, settings.edits)
    lines = page_lines(settings.feed, stops, options.scenarios, files)
    frame = frame_of(matrix, content, options, replace(settings, edits=list(files.values())))
    return Page(content, lines, with_streets(frame, content.ground, settings))


def with_streets(frame: Frame, ground: PagePlaces, settings: PageSettings) -> Frame:
    """Adds the streets of the settings; if they are more than a page takes, this is reported."""
    if settings.streets is None:
        return frame
    columns = ground.at(ground.columns)
    found = page_streets(settings.streets, ground.places, columns, settings.walking, settings.near)
    if found is not None and len(found.degrees) > MOST_NODES:
        sentence = f"The streets have {len(found.degrees):,} nodes, and a page takes {MOST_NODES:,}: areas are circles."
        return replace(frame, sentences=[*frame.sentences, sentence])
    return replace(frame, streets=found)


def frame_of(matrix: Matrix, content: Content, options: PageOptions, settings: PageSettings) -> Frame:
    """What stands around the numbers."""
    arguments = sources.RunArguments(settings.arguments or "")
    name = display_text(os.path.basename(os.path.abspath(settings.feed)))
    most = matrix.greatest_stated
    end = f" {most[0].upper()}{most[1:]}." if most else ""  # if travel times have a maximum
    files = {
        "Matrix": [matrix.path, *matrix.files],
        "Points": [path for path in [settings.points or points_in(settings.feed)] if path is not None],
        "Opportunities": settings.opportunities,
        "People": settings.people,
        "Scenario": settings.edits,
        "Streets": [settings.streets] if settings.streets else [],
        "Ground": [settings.ground] if settings.ground else [],
    }
    return Frame(
        settings.title or f"Travel times and access: {name}",
        " ".join(text for text in (settings.note, f"{matrix.heading}." if matrix.heading else "") if text),
        options.scenarios,
        options.shares,
        [sources.meaning(share, arguments) + end for share in options.shares],
        sources.table(files, settings.feed, arguments),
        rows_stated(content, options),
        first_minutes(matrix, settings.within),
        settings.walking,
        settings.tiles,
        settings.attribution or "",
        settings.leaflet,
        ground=page_ground(settings.ground, content.ground.places),
    )


def first_minutes(matrix: Matrix, within: int | None) -> int:
    """Where the slider stands first: at the limit that is named, or the first one of the matrix, where it has one."""
    limit = within or next(iter(matrix.layout.limits), None)
    return MINUTES if limit is None else min(max(1, math.ceil(limit / 60)), MOST_MINUTES)


def rows_stated(content: Content, options: PageOptions) -> list[str]:
    """What is reported where the page hasn't the travel times from all origins, or can't draw all places."""
    ground, sentences = content.ground, []
    if len(ground.rows) < len(ground.origins):
        how = "named" if options.origins is not None else f"chosen at random with the seed {options.settings.seed}"
        origins = quantity(len(ground.origins), "origin")
        sentences.append(
            f"The page has the travel times from {len(ground.rows):,} of {origins}, which were {how}, and access "
            "from all."
        )
    if content.hidden:
        names = ", ".join(content.hidden)
        sentences.append(
            f"{names}: part of them is at stops that aren't shown; access counts all of them, the slider none."
        )
    lost = sum(1 for latitude in ground.places.latitudes if math.isnan(latitude))
    if lost:
        places = "1 place has" if lost == 1 else f"{lost:,} places have"
        which = "it by name, but it isn't" if lost == 1 else "them by name, but they aren't"
        sentences.append(f"{places} no coordinates: you can find {which} on the map.")
    return sentences


def tell(path: str, page: Page) -> None:
    """Says on the standard error what was written."""
    ground = page.content.ground
    count, rows = len(ground.places.identifiers), len(ground.rows)
    say(f"{path}: {quantity(count, 'place')}, travel times from {rows:,} of them", *page.frame.sentences)
