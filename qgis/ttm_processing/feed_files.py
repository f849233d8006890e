"""The files of a prepared feed that layers are drawn from: stops, routes, and the lines of their trips."""

from __future__ import annotations

import csv
from collections import defaultdict
from dataclasses import dataclass, field
from pathlib import Path
from typing import Iterator, Mapping

Position = tuple[float, float]  # longitude, latitude
Key = tuple[str, str]  # route and direction; "" as the direction of both together


@dataclass(frozen=True)
class Stop:
    """A record of stops.txt."""

    name: str
    station: str
    position: Position | None


@dataclass
class Lines:
    """Where routes run.

    Attributes
    ----------
    ways
        For each route and direction its ways: names of shapes, or the stops of trips in order.
    routes
        For each stop the routes and directions whose trips call there.
    """

    ways: dict[Key, dict[tuple[str, ...], None]] = field(default_factory=lambda: defaultdict(dict))
    routes: dict[str, dict[Key, None]] = field(default_factory=lambda: defaultdict(dict))


def rows(folder: Path, name: str) -> Iterator[dict[str, str]]:
    """Yield the records of a file, none if the feed lacks it."""
    path = folder / name
    if path.is_file():
        with path.open(newline="", encoding="utf-8-sig") as file:
            yield from csv.DictReader(file)


def position_of(row: Mapping[str, str], latitude: str, longitude: str) -> Position | None:
    """Return the position of a record, or None if it has none."""
    try:
        return float(row[longitude]), float(row[latitude])
    except (KeyError, TypeError, ValueError):
        return None


def read_stops(folder: Path) -> dict[str, Stop]:
    """Return the stops of a feed by identifier."""
    return {
        row["stop_id"]: Stop(
            row.get("stop_name") or "", row.get("parent_station") or "", position_of(row, "stop_lat", "stop_lon")
        )
        for row in rows(folder, "stops.txt")
    }


def read_lines(folder: Path, by_direction: bool) -> Lines:
    """Return where routes run: along shapes if all trips of a feed have one, else from stop to stop."""
    trips = {
        row["trip_id"]: (
            (row["route_id"], (row.get("direction_id") or "") if by_direction else ""),
            row.get("shape_id"),
        )
        for row in rows(folder, "trips.txt")
    }
    has_shapes = (folder / "shapes.txt").is_file()
    found = Lines()
    for trip, stops in calls_by_trip(folder):
        if trip not in trips:
            continue
        key, shape = trips[trip]
        found.ways[key][(shape,) if has_shapes and shape else stops] = None
        for stop in stops:
            found.routes[stop][key] = None
    return found


def calls_by_trip(folder: Path) -> Iterator[tuple[str, tuple[str, ...]]]:
    """Yield each trip with its stops in order."""
    parts: dict[str, list[tuple[int, str]]] = defaultdict(list)
    with (folder / "stop_times.txt").open(newline="", encoding="utf-8-sig") as file:
        reader = csv.reader(file)  # a third of the time of a DictReader, which counts in this file alone
        header = next(reader)
        trip_at, number_at, stop_at = (header.index(name) for name in ("trip_id", "stop_sequence", "stop_id"))
        for row in reader:
            if row:
                parts[row[trip_at]].append((int(row[number_at]), row[stop_at]))
    for trip, calls in parts.items():
        yield trip, tuple(stop for _, stop in sorted(calls))


def read_shapes(folder: Path) -> dict[str, list[Position]]:
    """Return the points of each shape, in order."""
    parts: dict[str, list[tuple[int, Position]]] = defaultdict(list)
    for row in rows(folder, "shapes.txt"):
        position = position_of(row, "shape_pt_lat", "shape_pt_lon")
        if position is not None:
            parts[row["shape_id"]].append((int(row["shape_pt_sequence"]), position))
    return {name: [position for _, position in sorted(points)] for name, points in parts.items()}


def positions_along(
    way: tuple[str, ...], shapes: Mapping[str, list[Position]], stops: Mapping[str, Stop]
) -> list[Position]:
    """Return the positions along a way: those of its shape, or of its stops that have one."""
    if len(way) == 1 and way[0] in shapes:
        return shapes[way[0]]
    found = [stops[name].position for name in way if name in stops]
    return [position for position in found if position is not None]
