"""A little town for tests of r5py's names: two streets, two buses, and places whose travel times are found by hand.

One walks a metre a second, as r5py does, and seconds are rounded up. T1 leaves A at 08:00 for B (08:10), T2 leaves B at
08:15 for C (08:30). Home is 360 seconds from A, and the clinic 100 seconds from C.
"""

import datetime
from pathlib import Path
from typing import Any, Sequence

import geopandas
from shapely.geometry import Point, box

from helpers import CALENDAR, METRE, STOP_TIMES, Room
from streets import write_osm

NODES = {1: (0.0, -500.0), 2: (0.0, 0.0), 3: (0.0, 2000.0), 4: (2000.0, 2000.0), 5: (2000.0, 2500.0)}
STREET = {"highway": "residential"}
HOME, CLINIC, FAR = (59.4, -300.0), (2000.0, 2099.3), (2000.0, 2500.0)  # metres north and east
SEVEN_45 = datetime.datetime(2026, 5, 4, 7, 45)  # ten minutes from there on, 07:54 is the last to catch T1
MINUTE = datetime.timedelta(minutes=1)


def degrees(place: tuple[float, float]) -> Point:
    north, east = place
    return Point(1 + east * METRE, north * METRE)


def frame(places: Sequence[tuple[float, float]], ids: Sequence[object]) -> Any:
    """A frame of points by metres north and east."""
    return geopandas.GeoDataFrame({"id": list(ids)}, geometry=[degrees(place) for place in places], crs="EPSG:4326")


def square(place: tuple[float, float], side: float) -> Any:
    """A square around a place, in degrees."""
    point, half = degrees(place), side * METRE / 2
    return box(point.x - half, point.y - half, point.x + half, point.y + half)


def write_streets(room: Room) -> str:
    return write_osm(Path(room.path("streets.osm")), NODES, [([1, 2, 3], STREET), ([3, 4, 5], STREET)])


def write_feed(room: Room) -> str:
    """The feed, in a folder of its own."""
    feed = Room(room.folder / "feed", room.captured)
    feed.folder.mkdir()
    feed.stops(["A", 0, 0], ["B", 0, 2000], ["C", 2000, 2000])
    feed.write("agency.txt", "agency_id,agency_name", [["W", "Works"]])
    feed.write("routes.txt", "route_id,agency_id,route_type", [["R1", "W", 3], ["R2", "W", 0]])
    feed.write("calendar.txt", *CALENDAR)
    feed.write("trips.txt", "route_id,service_id,trip_id", [["R1", "M", "T1"], ["R2", "M", "T2"]])
    first = [["T1", "08:00:00", "08:00:00", "A", 1], ["T1", "08:10:00", "08:10:00", "B", 2]]
    second = [["T2", "08:15:00", "08:15:00", "B", 1], ["T2", "08:30:00", "08:30:00", "C", 2]]
    feed.write("stop_times.txt", STOP_TIMES, first + second)
    return str(feed.folder)
