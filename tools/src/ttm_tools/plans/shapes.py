"""Shapes of trips that go another way than the feed's, if it has shapes.

A shape is cut where the trip ends earlier, and goes straight from stop to stop where the trip is new.
"""

import math
from dataclasses import dataclass, field
from pathlib import Path

import numpy as np

from ..core.tables import number_of
from ..gtfs.tables import Table, read_table, table_of
from .base import Base, free
from .state import Trip

NAME = "shapes.txt"
COLUMNS = ("shape_id", "shape_pt_lat", "shape_pt_lon", "shape_pt_sequence")
Coordinates = list[tuple[float, float]]  # latitude and longitude


@dataclass
class Shapes:
    """The shapes of a feed, and those that scenarios add."""

    base: Base
    old: dict[str, Coordinates]
    new: dict[str, Coordinates] = field(default_factory=dict)
    known: dict[tuple[str, str, tuple[int, ...]], str] = field(default_factory=dict)

    def of(self, trip: Trip, route: str) -> str:
        """The name of a trip's new shape; "" if the trip keeps that of the feed, or has too few places."""
        if not trip.redrawn:
            return ""
        source = self.base.shapes[trip.source] if trip.source >= 0 else ""
        key = (route, source, tuple(trip.stop.tolist()))
        if key not in self.known:
            points = self.points_of(trip, self.old.get(source, []))
            name = free(f"{route}-{len([key for key in self.known if key[0] == route]) + 1}", self.old)
            self.known[key] = name if len(points) > 1 else ""
            if len(points) > 1:
                self.new[name] = points
        return self.known[key]

    def places(self, stops: list[int]) -> Coordinates:
        where = self.base.places
        found = [(float(where.latitudes[stop]), float(where.longitudes[stop])) for stop in stops]
        return [point for point in found if not math.isnan(point[0])]

    def points_of(self, trip: Trip, old: Coordinates) -> Coordinates:
        """The line of a trip: that of its source along the stops of the source, straight lines beyond them."""
        stops = trip.stop.tolist()
        before = self.base.stops_of(trip.source) if trip.source >= 0 else []
        common = [place for place, stop in enumerate(stops) if stop in set(before)]
        if not old or len(common) < 2:
            return self.places(stops)
        first, last = common[0], common[-1]
        begin, end = self.places([stops[first]]), self.places([stops[last]])
        start = nearest(old, begin[0]) if begin and stops[first] != before[0] else 0
        stop = nearest(old, end[0]) if end and stops[last] != before[-1] else len(old) - 1
        return [*self.places(stops[:first]), *old[start : max(start, stop) + 1], *self.places(stops[last + 1 :])]

    def table(self, columns: list[str]) -> Table:
        rows = [
            dict(zip(COLUMNS, (name, f"{north:.6f}", f"{east:.6f}", str(number))))
            for name, points in self.new.items()
            for number, (north, east) in enumerate(points, 1)
        ]
        return table_of(NAME, list(dict.fromkeys((*columns, *(COLUMNS if rows else ())))), rows)


def nearest(points: Coordinates, place: tuple[float, float]) -> int:
    narrow = math.cos(math.radians(place[0]))
    found = np.array(points)
    away = (found[:, 0] - place[0]) ** 2 + ((found[:, 1] - place[1]) * narrow) ** 2
    return int(np.argmin(away))


def read_shapes(base: Base, path: Path) -> Shapes:
    """The shapes of a feed that the sources of trips run along."""
    table = read_table(NAME, path)
    columns = [table.texts(name) for name in COLUMNS]
    found: dict[str, list[tuple[float, float, float]]] = {}
    for name, north, east, number in zip(*columns):
        point = (number_of(number), number_of(north), number_of(east))
        if not any(map(math.isnan, point)):
            found.setdefault(name, []).append(point)
    return Shapes(base, {name: [(north, east) for _, north, east in sorted(points)] for name, points in found.items()})
