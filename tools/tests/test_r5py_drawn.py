"""Travel times by r5py's names compared with `ttm`'s own for the same points, minute by minute, in drawn towns."""

import csv
import datetime
import math
import random
from pathlib import Path
from typing import Any

import numpy as np
import pytest

from helpers import CALENDAR, STOP_TIMES, Room
from streets import Way, write_osm

for package in ("geopandas", "osmium", "scipy", "pyproj"):
    pytest.importorskip(package)

import ttm_tools  # noqa: E402
from r5py_town import MINUTE, degrees, frame  # noqa: E402
from ttm_tools import r5py  # noqa: E402

SIDE, COUNT = 350, 6  # metres of a block, and streets each way
BEGIN = datetime.datetime(2026, 5, 4, 7, 30)
MINUTES, LIMIT = 12, 900  # departures, and seconds of the longest walk
PERCENTILES = [1, 25, 50, 75, 100]
Place = tuple[float, float]


def draw_streets(room: Room, drawn: random.Random) -> str:
    """A grid whose crossings are a little off their places, and of whose pieces some are missing or one-way."""
    nodes: dict[int, Place] = {}
    for number in range(COUNT * COUNT):
        north, east = divmod(number, COUNT)
        nodes[number + 1] = (north * SIDE + drawn.uniform(-60, 60), east * SIDE + drawn.uniform(-60, 60))
    pieces = [(node, node + 1) for node in nodes if node % COUNT] + [
        (node, node + COUNT) for node in nodes if node + COUNT in nodes
    ]
    ways: list[Way] = []
    for piece in pieces:
        tags = {"highway": drawn.choice(["footway", "residential", "steps"])}
        if drawn.random() < 1 / 16:
            tags["oneway:foot"] = "yes"
        if drawn.random() < 0.92:
            ways.append((list(piece), tags))
    return write_osm(room.folder / "streets.osm", nodes, ways)


def draw_place(drawn: random.Random) -> Place:
    return drawn.uniform(-80, COUNT * SIDE), drawn.uniform(-80, COUNT * SIDE)


def draw_feed(room: Room, drawn: random.Random) -> str:
    """Stops anywhere, and lines whose trips leave every few minutes."""
    feed = Room(room.folder / "feed", room.captured)
    feed.folder.mkdir()
    places = {f"S{number}": draw_place(drawn) for number in range(14)}
    feed.stops(*[[name, *place] for name, place in places.items()])
    feed.write("calendar.txt", *CALENDAR)
    trips, times = list[list[Any]](), list[list[Any]]()
    for line in range(8):
        stops, at = drawn.sample(list(places), drawn.randint(3, 6)), drawn.randint(25_000, 27_500)
        for number in range(drawn.randint(6, 12)):
            trips.append([f"R{line}", "M", f"T{line}-{number}"])
            clock = at + number * drawn.randint(240, 700)
            for sequence, (stop, before) in enumerate(zip(stops, [stops[0], *stops])):
                clock += int(math.dist(places[stop], places[before]) / 7) + 20
                text = str(datetime.timedelta(seconds=clock)).rjust(8, "0")
                times.append([trips[-1][2], text, text, stop, sequence])
    feed.write("routes.txt", "route_id,route_type", [[f"R{line}", line % 4] for line in range(8)])
    feed.write("trips.txt", "route_id,service_id,trip_id", trips)
    feed.write("stop_times.txt", STOP_TIMES, times)
    return str(feed.folder)


def write_points(room: Room, name: str, places: list[Place]) -> str:
    rows = [[f"{name}{number}", degrees(place).y, degrees(place).x] for number, place in enumerate(places)]
    return room.write(f"{name}.csv", "id,lat,lon", rows)


def minute_by_minute(room: Room, program: str, feed: str, streets: str, ends: tuple[str, str]) -> Any:
    """The seconds that `ttm` has for the points of two files, for each departure by itself."""
    pace = ["--limit", str(LIMIT), "--speed", "1", "--detour", "1.3", "--near", "1600", "--streets", streets]
    _, errors, status = room.ran(
        "points", feed, "--origins", ends[0], "--destinations", ends[1], "--out", room.path("doors"), *pace
    )
    assert status == 0, errors
    doors, result = Path(room.path("doors")), []
    files: Any = {name: doors / f"{name}.csv" for name in ("origins", "destinations", "footpaths")}
    for minute in range(MINUTES):
        at = (BEGIN + minute * MINUTE).strftime("%H:%M")
        found = ttm_tools.matrix(doors / "feed", BEGIN.date(), (at, at), walk=LIMIT, program=program, **files)
        with open(files["origins"], newline="") as file:
            assert found.origins == [row["stop_id"] for row in csv.DictReader(file)]
        result.append(found.array("base", 50).ravel())
    return np.array(result, np.float64)


def nearest_rank(seconds: list[float], percentile: int) -> float | None:
    """The minutes of the least time that this percentage of all departures attain, below two hours."""
    ordered = sorted(math.inf if math.isnan(second) else second for second in seconds)
    found = ordered[math.ceil(percentile * len(ordered) / 100) - 1]
    return found // 60 if found < 7200 else None


def listed(column: Any) -> list[float | None]:
    return [None if math.isnan(item) else item for item in column.tolist()]


@pytest.mark.parametrize("seed", range(6))
def test_each_minute_and_each_percentile_are_those_of_ttm(
    room: Room, program: str, monkeypatch: pytest.MonkeyPatch, seed: int
) -> None:
    monkeypatch.setenv("TTM_CACHE", room.path("cache"))
    drawn = random.Random(seed)
    streets, feed = draw_streets(room, drawn), draw_feed(room, drawn)
    places = [draw_place(drawn) for _ in range(5)], [draw_place(drawn) for _ in range(6)]
    files = write_points(room, "o", places[0]), write_points(room, "d", places[1])
    expected = minute_by_minute(room, program, feed, streets, files)
    ends: Any = {"origins": frame(places[0], range(5)), "destinations": frame(places[1], range(6))}
    more: Any = {"max_time_walking": datetime.timedelta(seconds=LIMIT), "max_public_transport_rides": 4}
    with r5py.TransportNetwork(streets, feed, program=program) as network:
        window: Any = {"departure": BEGIN, "departure_time_window": MINUTES * MINUTE, "percentiles": PERCENTILES}
        whole = r5py.TravelTimeMatrix(network, **ends, **more, **window)
        for minute in range(MINUTES):
            one: Any = {"departure": BEGIN + minute * MINUTE, "departure_time_window": MINUTE}
            found = r5py.TravelTimeMatrix(network, **ends, **more, **one).travel_time
            assert listed(found) == [nearest_rank([item], 50) for item in expected[minute].tolist()]
    for percentile in PERCENTILES:
        found = listed(whole[f"travel_time_p{percentile}"])
        assert found == [nearest_rank(pair, percentile) for pair in expected.T.tolist()]
    assert 8 < (expected < 7200).any(axis=0).sum() and len(np.unique(expected)) > 40
