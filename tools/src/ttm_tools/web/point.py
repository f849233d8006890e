"""A point of the map that is no stop: the walks from there to stops, and a feed that has it as one more stop.

Nobody walks to the point, so it brings no two stops nearer: all other travel times are those without it.
"""

import itertools
import os
from dataclasses import dataclass
from pathlib import Path

import numpy as np

from ..core.stop_lists import FOOTPATH_COLUMNS
from ..core.tables import column_positions, records, write_rows
from ..core.walking import Walking
from ..gtfs.stops import Stops, read_stops
from ..places.folder import spread, stops_with
from ..places.read import Points
from ..streets.osm import Streets
from ..streets.straight import distances, points_of, straight_walks
from ..streets.walks import NEAR

NAME, FEED, WALKS = "point", "feed", "footpaths.csv"
Walk = tuple[str, int]  # a stop, and seconds


@dataclass(frozen=True)
class Point:
    """A point of the map, in degrees."""

    latitude: float
    longitude: float

    def name_among(self, stops: Stops) -> str:
        """An identifier that no stop has."""
        name = NAME
        while name in stops.places:
            name += "_"
        return name

    def as_points(self, name: str) -> Points:
        place = (np.array([self.latitude]), np.array([self.longitude]))
        return Points(NAME, [name], [name], *place, np.full(1, np.nan), [], np.zeros((1, 0)))


def walks_from(point: Point, stops: Stops, walking: Walking, streets: Streets | None) -> list[Walk]:
    """The stops within a walk of a point, along streets if there are any, else in straight lines."""
    metres = walking.max_seconds * walking.speed
    near = stops_near(point, stops, walking.max_straight_metres if streets is None else metres)
    alone = with_point(near, point)
    if streets is None:
        walks = straight_walks(alone, walking, 1)
    else:
        from ..streets.router import Endpoints
        from ..streets.street_walks import street_walks

        first = np.arange(len(alone.identifiers)) == 0
        around = streets_around(point, streets, metres + NEAR)
        walks = street_walks(alone, walking, around, NEAR, 1, Endpoints(first, ~first))
    ends = zip(walks.origins.tolist(), walks.destinations.tolist(), walks.seconds.tolist())
    return [(alone.identifiers[end], seconds) for begin, end, seconds in ends if begin == 0]


def stops_near(point: Point, stops: Stops, metres: float) -> Stops:
    """The stops within a distance in metres of a point, with the entrances of their stations."""
    here = points_of(np.array([point.latitude]), np.array([point.longitude]))
    placed = np.flatnonzero(stops.placed)
    away = distances(np.repeat(here, len(placed), axis=0), points_of(stops.latitudes[placed], stops.longitudes[placed]))
    near = placed[(away <= metres) & (stops.kinds[placed] == 0)].tolist()
    stations = {stops.stations[stop] for stop in near} - {""}
    entrances = [stop for stop in placed.tolist() if stops.kinds[stop] == 2 and stops.stations[stop] in stations]
    return stops.of([stops.identifiers[stop] for stop in near + entrances])


def with_point(stops: Stops, point: Point) -> Stops:
    """The point, and these stops behind it."""

    identifiers, names = [point.name_among(stops), *stops.identifiers], ["", *stops.names]
    places = np.append(point.latitude, stops.latitudes), np.append(point.longitude, stops.longitudes)
    return Stops(stops.path, identifiers, names, *places, np.append(np.int8(0), stops.kinds), ["", *stops.stations])


def streets_around(point: Point, streets: Streets, metres: float) -> Streets:
    """The pieces of streets with a part within a distance of a point to the north, south, east or west."""
    up = np.degrees(metres / 6_371_000) * 1.01
    right = up / max(np.cos(np.radians(point.latitude)), 1e-6)
    kept = np.ones(len(streets.begin), dtype=np.bool_)
    north, east = (streets.latitudes, point.latitude, up), (streets.longitudes, point.longitude, right)
    for degrees, middle, reach in (north, east):
        one, other = degrees[streets.begin], degrees[streets.end]
        kept &= (np.minimum(one, other) <= middle + reach) & (np.maximum(one, other) >= middle - reach)
    nodes, ends = np.unique(np.stack([streets.begin[kept], streets.end[kept]]), return_inverse=True)
    begin, end = ends.reshape(2, -1)
    ways = (streets.forward[kept], streets.backward[kept])
    return Streets(streets.path, streets.latitudes[nodes], streets.longitudes[nodes], begin, end, *ways)


def laid_out(folder: Path, feed: str, footpaths: str | None, point: Point, walks: list[Walk]) -> tuple[str, Path, Path]:
    """Writes the feed with the point behind its stops, and its walks in addition to those of a file; returns its name,
    and where both are. Other files of the feed are links.
    """
    name = point.name_among(read_stops(feed))
    (folder / FEED).mkdir()
    for file in Path(feed).resolve().iterdir():
        if file.name != "stops.txt":
            os.symlink(file, folder / FEED / file.name)
    with open(folder / FEED / "stops.txt", "wb") as out:
        write_rows(out, *stops_with(Path(feed) / "stops.txt", point.as_points(name)))
    write_walks(folder / WALKS, footpaths, name, walks)
    return name, folder / FEED, folder / WALKS


def write_walks(path: Path, footpaths: str | None, name: str, walks: list[Walk]) -> None:
    """The walks of a file, and those from the point."""
    columns = list(FOOTPATH_COLUMNS)
    lines = iter([(1, columns)]) if footpaths is None else records(footpaths)
    _, header = next(lines, (1, columns))
    places = column_positions(header, footpaths or path, columns)
    chosen = [places[column] for column in columns]
    own = (spread([name, stop, str(seconds)], chosen, len(header)) for stop, seconds in walks)
    with open(path, "wb") as out:
        write_rows(out, header, itertools.chain((fields for _, fields in lines), own))
