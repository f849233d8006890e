"""Walks of hours by r5py's names: a split feed with the walks that journeys need has the travel times of all walks."""

import datetime
import math
import random
from pathlib import Path
from typing import Any

import numpy as np
import pytest

from helpers import CALENDAR, STOP_TIMES, Room

for package in ("geopandas", "osmium", "scipy", "pyproj"):
    pytest.importorskip(package)

from r5py_town import MINUTE, degrees, frame  # noqa: E402
from test_r5py_drawn import draw_place, draw_streets  # noqa: E402
from ttm_tools import r5py  # noqa: E402
from ttm_tools.core.limits import MOST_FOOT_SECONDS  # noqa: E402
from ttm_tools.gtfs.footpaths import read_walks  # noqa: E402
from ttm_tools.gtfs.stops import read_stops  # noqa: E402
from ttm_tools.gtfs.timetable import Edits, Events, read_timetable, runs_of  # noqa: E402
from ttm_tools.journeys.network import NEVER, Schedule  # noqa: E402
from ttm_tools.journeys.search import Search  # noqa: E402
from ttm_tools.places.doors import stops_in, write_whole  # noqa: E402
from ttm_tools.places.long_walks import LongWalks, reached_directly  # noqa: E402
from ttm_tools.places.read import Points  # noqa: E402
from ttm_tools.streets.needed import needed_walks  # noqa: E402
from ttm_tools.streets.osm import read_streets  # noqa: E402
from ttm_tools.streets.table import NONE, WalkTable  # noqa: E402
from ttm_tools.core.walking import Walking  # noqa: E402

DATE = datetime.date(2026, 5, 4)
BEGIN = datetime.datetime(2026, 5, 4, 7, 30)
WALK = 5400  # seconds from end to end of the town and more
RIDES = 3


def draw_feed(room: Room, drawn: random.Random) -> str:
    """Lines along rows of stops, both ways and some by headways, a station with entrances, changes that take time, and
    calls at which you may only board, or only alight.
    """
    feed = Room(room.folder / "feed", room.captured)
    feed.folder.mkdir()
    places = {f"S{number}": draw_place(drawn) for number in range(20)}
    stops = [[name, *degrees(place).coords[0][::-1], 0, ""] for name, place in places.items()]
    stops[3][-1] = stops[4][-1] = "X"
    extra = [
        ["X", "", "", 1, ""],
        *[[f"E{number}", *degrees(draw_place(drawn)).coords[0][::-1], 2, "X"] for number in (1, 2)],
    ]
    feed.write("stops.txt", "stop_id,stop_lat,stop_lon,location_type,parent_station", [*stops, *extra])
    feed.write("calendar.txt", *CALENDAR)
    transfers = [["S0", "S1", 2, 30], ["S1", "S7", 2, 90], ["S5", "S5", 2, 200], ["X", "X", 2, 100]]
    feed.write("transfers.txt", "from_stop_id,to_stop_id,transfer_type,min_transfer_time", transfers)
    trips, times, headways = list[list[Any]](), list[list[Any]](), list[list[Any]]()
    for line in range(10):
        corner = draw_place(drawn)
        called = sorted(drawn.sample(list(places), 9), key=lambda name: math.dist(corner, places[name]))
        for number in range(drawn.randint(2, 5)):
            trip, clock = f"T{line}-{number}", drawn.randint(27_000, 29_000)
            trips.append([f"R{line}", "M", trip])
            if number == 0 and line % 3 == 0:
                headways.append([trip, "07:20:00", "08:40:00", drawn.randint(400, 1500)])
            for sequence, (stop, before) in enumerate(zip(called, [called[0], *called])):
                clock += int(math.dist(places[stop], places[before]) / drawn.choice([3, 6, 9]))
                at = [str(datetime.timedelta(seconds=item)).rjust(8, "0") for item in (clock, clock + 15)]
                times.append([trip, *at, stop, sequence, *(int(drawn.random() < 0.1) for _ in range(2))])
                clock += 15
    feed.write("routes.txt", "route_id,route_type", [[f"R{line}", 3] for line in range(10)])
    feed.write("trips.txt", "route_id,service_id,trip_id", trips)
    feed.write("stop_times.txt", f"{STOP_TIMES},pickup_type,drop_off_type", times)
    feed.write("frequencies.txt", "trip_id,start_time,end_time,headway_secs", headways)
    return str(feed.folder)


def points_at(name: str, places: list[tuple[float, float]]) -> Points:
    where = np.array([degrees(place).coords[0] for place in places])
    names = [f"{name}{number}" for number in range(len(places))]
    return Points(
        name, names, names, where[:, 1], where[:, 0], np.full(len(names), np.nan), [], np.zeros((len(names), 0))
    )


def durations(folder: Path, limit: int) -> Any:
    """The seconds from each origin to each destination of a folder, for each of some departures."""
    timetable = read_timetable(read_stops(str(folder / "feed")))
    walks, changes = read_walks(timetable, str(folder / "footpaths.csv"), limit)
    runs = runs_of(timetable, DATE, (0, 0), Edits(set(), set(), {}))
    schedule = Schedule(timetable.events, runs, walks, changes, 0)
    network = schedule.within(0, NEVER)
    origins, ends = (
        [timetable.stops.index(name) for name in stops_in(folder / f"{end}.csv")] for end in ("origins", "destinations")
    )
    result = np.full((4, len(origins), len(ends)), np.inf)
    for minute in range(4):
        at = 27_000 + 900 * minute
        for row, origin in enumerate(origins):
            found = Search(network, origin, at, RIDES)
            arrivals = [found.arrival(end) for end in ends]
            result[minute, row] = [math.inf if arrival is None else arrival - at for arrival in arrivals]
    direct = reached_directly(folder)
    return result if direct is None else np.fmin(result, direct)


@pytest.mark.parametrize("seed", range(8))
@pytest.mark.parametrize("longest", [3600, WALK])
def test_a_split_feed_has_the_durations_of_all_walks(room: Room, seed: int, longest: int) -> None:
    drawn = random.Random(seed)
    streets, feed = read_streets(draw_streets(room, drawn)), draw_feed(room, drawn)
    files = [points_at(name, [draw_place(drawn) for _ in range(5)]) for name in ("from", "to")]
    walk = WALK if longest == WALK else 1200
    for same in (False, True):
        walks = LongWalks(feed, files[: 2 - same], streets, Walking(1.8, 1.3, walk), 1600.0)
        every, split = room.folder / f"every{same}", room.folder / f"split{same}"
        write_whole(every, walks)
        walks.write(split, merges=walk >= longest)
        expected, found = durations(every, walk), durations(split, MOST_FOOT_SECONDS)
        assert np.array_equal(np.where(expected < longest, expected, 0), np.where(found < longest, found, 0))
        counts = [len((folder / "footpaths.csv").read_text().splitlines()) for folder in (every, split)]
        assert walk < longest or counts[1] < 0.9 * counts[0], counts
        direct = reached_directly(split)
        assert direct is not None
        assert walk < longest or (expected < np.where(np.isnan(direct), longest, direct)).any()


def draw_events(drawn: np.random.Generator, where: Any) -> Events:
    """Trips along stops that lie on the plane, most from one to one nearby, some to and fro."""
    calls: Any = []
    for trip in range(12):
        stop, clock = int(drawn.integers(len(where))), int(drawn.integers(1500))
        for _ in range(int(drawn.integers(2, 7))):
            wait = int(drawn.choice([0, 20]))
            calls.append([trip, stop, clock, clock + wait, *(drawn.random(2) < 0.65)])
            near = np.argsort(np.linalg.norm(where - where[stop], axis=1))[1:5]
            after = int(drawn.choice(near))
            clock += wait + int(np.linalg.norm(where[after] - where[stop]) / drawn.choice([1.5, 4, 10]))
            stop = after
    trips, stops, arrive, depart, board, alight = (np.array(column) for column in zip(*calls))
    begins = np.searchsorted(trips, np.arange(13))
    return Events(begins, stops, arrive, depart, board, alight)


def least_ends(events: Events, walks: Any, changes: Any, origin: int, departure: int) -> Any:
    """The least durations of journeys with one to three rides from a row of a table of walks to its destinations."""
    stops = len(changes)
    ready, end = departure + walks[origin, :stops], np.full(walks.shape[1] - stops, np.inf)
    for _ in range(3):
        ridden = np.full(stops, np.inf)
        for first, last in zip(events.begins, events.begins[1:]):
            is_aboard = False
            for place in range(first, last):
                stop = events.stop[place]
                if is_aboard and events.alight[place]:
                    ridden[stop] = min(ridden[stop], events.arrive[place])
                is_aboard |= events.board[place] and ready[stop] <= events.depart[place]
        end = np.minimum(end, (ridden[:, None] + walks[:stops, stops:]).min(axis=0))
        ready = np.minimum(ready, np.minimum((ridden[:, None] + walks[:stops, :stops]).min(axis=0), ridden + changes))
    return end - departure


@pytest.mark.parametrize("seed", range(120))
def test_journeys_need_no_walks_but_the_needed_ones(seed: int) -> None:
    drawn = np.random.default_rng(seed)
    stops, origins, destinations, longest = 7, 4, 12, 3600
    limit = longest if seed % 2 else 700
    where, corners = drawn.choice(11, (stops, 2)), drawn.choice(11, (origins + destinations, 2))
    events, changes = draw_events(drawn, 250 * where), drawn.choice([0, 60, 400], stops)
    begins, ends = np.concatenate([where, corners[:origins]]), np.concatenate([where, corners[origins:]])
    whole = np.ceil(250 * np.linalg.norm(begins[:, None] - ends, axis=2))
    every, needed = np.where(whole <= limit, whole, np.inf), np.full(whole.shape, np.inf)
    np.fill_diagonal(every[:stops, :stops], np.inf)
    seconds = np.where(whole <= limit, whole, NONE).astype(np.uint16)
    table = WalkTable(np.arange(len(begins)), np.arange(len(ends)), seconds, limit)
    for row, column in needed_walks(table, events, changes, merges=limit >= longest):
        needed[row, column] = whole[row, column]
    for origin in range(stops, stops + origins):
        for departure in range(0, 1500, 100):
            expected, found = (least_ends(events, item, changes, origin, departure) for item in (every, needed))
            expected, found = (np.minimum(item, every[origin, stops:]) for item in (expected, found))
            assert np.array_equal(expected[expected < longest], found[expected < longest])
            assert (found >= expected).all()
    assert np.isfinite(needed).sum() <= np.isfinite(every).sum() * (0.9 if limit == longest else 1)


def answers(room: Room, program: str, ends: tuple[Any, Any]) -> list[Any]:
    """A matrix, one from places to themselves, areas and journeys, with r5py's usual limits."""
    more: Any = {"departure": BEGIN, "speed_walking": 1.8}
    with r5py.TransportNetwork(room.path("streets.osm"), room.path("feed"), program=program) as network:
        window: Any = {"departure_time_window": 20 * MINUTE, "percentiles": [5, 50, 95]}
        return [
            r5py.TravelTimeMatrix(network, ends[0], ends[1], **more, **window),
            r5py.TravelTimeMatrix(network, ends[0], **more, max_time=50 * MINUTE),
            r5py.TravelTimeMatrix(network, ends[0], ends[1], **more, max_time_walking=25 * MINUTE),
            r5py.Isochrones(network, ends[0], [20, 40], 300, **more),
            r5py.DetailedItineraries(network, ends[0], ends[1], force_all_to_all=True, **more),
        ]


@pytest.mark.parametrize("seed", range(3))
def test_answers_are_the_same_where_walks_are_too_many(
    room: Room, program: str, monkeypatch: pytest.MonkeyPatch, seed: int
) -> None:
    drawn = random.Random(seed)
    draw_streets(room, drawn)
    draw_feed(room, drawn)
    ends = [
        frame([draw_place(drawn) for _ in range(6)], [f"{name}{number}" for number in range(6)]) for name in ("o", "d")
    ]
    monkeypatch.setenv("TTM_CACHE", room.path("usual"))
    usual = answers(room, program, (ends[0], ends[1]))
    monkeypatch.setenv("TTM_CACHE", room.path("split"))
    monkeypatch.setattr(LongWalks, "are_many", lambda _: True)
    split = answers(room, program, (ends[0], ends[1]))
    assert list(Path(room.path("split")).glob("places/*/places/direct.npy"))
    for one, other in zip(usual[:-1], split[:-1]):
        assert one.equals(other), (one, other)
    assert usual[0].travel_time_p95.max() > 40 and usual[1].travel_time.max() < 50
    assert durations_of(usual[-1]) == durations_of(split[-1])
    named = {*split[-1].start_stop_id, *split[-1].end_stop_id}
    assert len(usual[-1]) > 40 and named - {None} <= set(read_stops(room.path("feed")).identifiers)


def durations_of(legs: Any) -> Any:
    """The duration of the fastest journey between two places: journeys that take as long may differ."""
    whole = (legs.travel_time + legs.wait_time).groupby([legs.from_id, legs.to_id, legs.option]).sum()
    return whole.groupby(["from_id", "to_id"]).min().to_dict()
