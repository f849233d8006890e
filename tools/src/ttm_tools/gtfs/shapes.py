"""The lines on which the vehicles of an unpacked feed run, as a map has them."""

from dataclasses import dataclass

import numpy as np
import numpy.typing as npt

from ..core.arrays import Floats
from ..core.errors import InputError
from ..core.tables import rows
from ..core.text import display_text
from .columns import Codes, is_group_start, numbers_of, positions_of
from .projection import Projection
from .reading import columns
from .stops import Stops, has_file, in_folder

GRID = 0.01  # kilometres on which the ends of pieces of lines are laid


@dataclass(frozen=True)
class LinePoints:
    """Points of the lines on which vehicles run, in kilometres: of which line, and where on it."""

    lines: list[str]  # the lines' names, a trip's or a shape's
    line: Codes  # for each point, the place of its line among them
    sequence: Floats
    x: Floats
    y: Floats

    def of_lines(self, chosen: set[str]) -> "LinePoints":
        """The points of some lines alone."""
        kept = np.array([name in chosen for name in self.lines], dtype=np.bool_)[self.line]
        return LinePoints(self.lines, self.line[kept], self.sequence[kept], self.x[kept], self.y[kept])


def lines_of(folder: str, stops: Stops, projection: Projection) -> LinePoints:
    """The points of the lines of shapes.txt, or of the trips from stop to stop where the folder has none."""
    if has_file(folder, "shapes.txt"):
        return shape_points(folder, projection)
    return stop_points(folder, stops, projection)


def shape_points(folder: str, projection: Projection) -> LinePoints:
    path = in_folder(folder, "shapes.txt")
    names = ("shape_pt_sequence", "shape_pt_lat", "shape_pt_lon")
    table = columns(path, ("shape_id", *names))
    sequence, latitudes, longitudes = (numbers_of(table[name], path, name) for name in names)
    line = table["shape_id"]
    east, north = projection.kilometres(longitudes, latitudes)
    return LinePoints(line.categories.tolist(), line.codes, sequence, east, north)


def stop_points(folder: str, stops: Stops, projection: Projection) -> LinePoints:
    path = in_folder(folder, "stop_times.txt")
    table = columns(path, ("trip_id", "stop_sequence", "stop_id"))
    line, called = table["trip_id"], table["stop_id"]
    sequence = numbers_of(table["stop_sequence"], path, "stop_sequence")
    chosen = positions_of(called, stops.places)
    kept = (chosen >= 0) & np.append(stops.placed, False)[chosen]
    chosen = chosen[kept]
    x, y = projection.kilometres(stops.longitudes[chosen], stops.latitudes[chosen])
    return LinePoints(line.categories.tolist(), line.codes[kept], sequence[kept], x, y)


def pieces(points: LinePoints) -> npt.NDArray[np.int32]:
    """What lies between neighbours on a line, each once, whichever way it is run: x, y, x, y on the grid."""
    order = np.lexsort((points.sequence, points.line.astype(np.float64)))
    line = points.line[order]
    ends = np.stack([np.rint(part[order] / GRID).astype(np.int32) for part in (points.x, points.y)], axis=1)
    found = np.concatenate([ends[:-1], ends[1:]], axis=1)[line[:-1] == line[1:]]
    found = found[(found[:, 0] != found[:, 2]) | (found[:, 1] != found[:, 3])]
    back = (found[:, 0] > found[:, 2]) | ((found[:, 0] == found[:, 2]) & (found[:, 1] > found[:, 3]))
    found[back] = found[back][:, [2, 3, 0, 1]]
    return unique_rows(found)


def unique_rows(table: npt.NDArray[np.int32]) -> npt.NDArray[np.int32]:
    """The rows of a table, each once, quicker than numpy's own where there are many."""
    order = np.lexsort(table.T)
    table = table[order]
    return table[is_group_start(*table.T)]


@dataclass(frozen=True)
class Trips:
    """The trips of a feed, with their routes and the shapes along which they run."""

    path: str
    trips: list[str]
    routes: list[str]
    shapes: list[str]  # "" where none is named

    def lines(self, chosen: set[str], shaped: bool) -> set[str]:
        """The lines on which some trips run: their shapes, or the trips themselves."""
        return {shape for trip, shape in zip(self.trips, self.shapes) if trip in chosen} if shaped else chosen


def read_trips(folder: str, shaped: bool) -> Trips:
    path = in_folder(folder, "trips.txt")
    needed = ("trip_id", "route_id", "shape_id") if shaped else ("trip_id", "route_id")
    table = {name: list(column) for name, column in zip(needed, zip(*(fields for _, fields in rows(path, needed))))}
    trips = table.get("trip_id", [])
    return Trips(path, trips, table.get("route_id", []), table.get("shape_id", [""] * len(trips)))


def removed_trips(trips: Trips, edits: str) -> set[str]:
    """The trips that a scenario file takes out, by trip or by route."""
    by_route: dict[str, list[str]] = {}
    for trip, route in zip(trips.trips, trips.routes):
        by_route.setdefault(route, []).append(trip)
    by_trip = {trip: [trip] for trip in trips.trips}
    gone: set[str] = set()
    for number, (action, name) in rows(edits, ["action", "id"]):
        if action in ("remove_route", "remove_trip"):
            found = (by_route if action == "remove_route" else by_trip).get(name)
            if found is None:
                raise InputError(edits, f"{display_text(name)} isn't in trips.txt", record=number)
            gone.update(found)
    return gone
