"""The lines on which vehicles run, and those that scenarios take out, change or add, as pieces in degrees."""

import os
from dataclasses import dataclass
from typing import Sequence

import numpy as np

from ...core.errors import InputError
from ...core.scenarios import TODAY, scenario_name
from ...core.text import display_text
from ...gtfs.projection import Projection
from ...gtfs.shapes import GRID, pieces
from ...gtfs.stops import Stops
from ...views.drawn_lines import DrawnLines, LineChange, OnGrid, Pieces, on_grid, plan_files
from .places import MICRO

STRAIGHT = "Lines are drawn straight from stop to stop."


@dataclass(frozen=True)
class Lines:
    """Pieces of lines; those of each scenario as they differ from the base."""

    running: Pieces
    changes: list[LineChange]
    source: str


def change_of(before: OnGrid, after: OnGrid, projection: Projection) -> LineChange:
    """What differs between the pieces of the grid before and after, in degrees."""
    found = on_grid(before, after)
    return LineChange(*(in_degrees(some, projection) for some in (found.taken, found.changed, found.added)))


def scenario_files(folder: str, scenarios: Sequence[str], edits: Sequence[str]) -> dict[str, str]:
    """Scenario files by the scenarios of a page: those that are named, and a plan's in the feed's folder."""
    beside = plan_files(folder, scenarios if scenarios[0] == TODAY else ())
    files = {name: path for name, path in beside.items() if os.path.isfile(path)}
    for path in edits:
        name = scenario_name(path)
        if name not in scenarios:
            raise InputError(
                path, f"no scenario {display_text(name)} on the page; it has {', '.join(map(display_text, scenarios))}"
            )
        files[name] = path
    return files


def page_lines(folder: str, stops: Stops, scenarios: Sequence[str], files: dict[str, str]) -> Lines:
    """The lines of a feed, but for those that none of the scenarios has, and by their files what each scenario takes
    out of the base, which is the first of them, and what it adds to it.
    """
    projection = Projection(stops.latitudes, stops.longitudes)
    drawn = DrawnLines(folder, stops, projection)
    removed = {name: drawn.removed(path) for name, path in files.items()}
    base = removed.get(scenarios[0], set())
    each = [removed.get(name, base) for name in scenarios]
    hidden = set.intersection(*each)
    running = drawn.pieces(set(drawn.trips.trips) - hidden) if hidden else pieces(drawn.points)
    changes = [change_of(drawn.pieces(own - base), drawn.pieces(base - own), projection) for own in each]
    source = "Lines are those of shapes.txt." if drawn.shaped else STRAIGHT
    return Lines(in_degrees(running, projection), changes, source)


def in_degrees(found: OnGrid, projection: Projection) -> Pieces:
    """Pieces on the grid in kilometres as pieces in degrees."""
    kilometres = found.reshape(-1, 2).astype(np.float64) * GRID
    longitudes, latitudes = projection.degrees(*kilometres.T)
    corners: Pieces = np.rint(np.stack([latitudes, longitudes], axis=1) * MICRO).astype(np.int32).reshape(-1, 4)
    return corners
