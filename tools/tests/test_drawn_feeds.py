"""Drawn feeds that are clipped and merged, and drawn walks, next to plain formulas that share no code with the tools.
"""

import datetime
import itertools
import math
import random
from collections import Counter
from dataclasses import dataclass, field
from pathlib import Path

import pytest

from drawn_feeds import FIRST, TABLES, Row, contents, rows_of, runs_on, seconds_of, write_drawn_feed
from helpers import METRE, Room
from ttm_tools.core.walking import Walking
from ttm_tools.gtfs.stops import read_stops
from ttm_tools.streets.walks import straight_walks

GLOBE = 180 / (math.pi * METRE)  # metres from its middle


@dataclass(frozen=True)
class DrawnClip:
    """Options of `prepare` that clip, and what they mean."""

    box: tuple[str, str, str, str] | None = None
    routes: frozenset[str] = frozenset()
    days: list[datetime.date] = field(default_factory=list)

    def words(self) -> list[str]:
        words = [f"--box={','.join(self.box)}"] if self.box else []
        words += [word for route in sorted(self.routes) for word in ("--routes", route)]
        if self.days:
            words += ["--date", f"{self.days[0]:%Y%m%d}", "--back", "0", "--ahead", str(len(self.days) - 1)]
        return words


def eastwards(text: str) -> float:
    """Degrees in an order without an edge at the date line."""
    return float(text) % 360


def draw_clip(draw: random.Random, folder: Path) -> DrawnClip:
    """A box whose edges are coordinates of stops, some routes, some days, or several of these."""
    box, routes, days = None, frozenset[str](), list[datetime.date]()
    chosen = draw.choice((["box"], ["box"], ["box", "days"], ["box", "routes"], ["routes"], ["days"]))
    if "box" in chosen:
        placed = draw.sample([row for row in rows_of(folder, "stops") if row["stop_lat"]], 6)
        north, east = (sorted((row[name] for row in placed), key=eastwards) for name in ("stop_lat", "stop_lon"))
        box = east[0], north[0], east[-1], north[-1]
        box = box if draw.random() < 0.8 else (east[-1], north[0], east[0], north[-1])  # the other way around the earth
    if "routes" in chosen:
        routes = frozenset(f"R{number}" for number in draw.sample(range(3), draw.randrange(1, 3)))
    if "days" in chosen:
        first = FIRST + datetime.timedelta(draw.randrange(35))
        days = [first + datetime.timedelta(number) for number in range(draw.randrange(1, 4))]
    return DrawnClip(box, routes, days)


def is_inside(stop: Row, stops: dict[str, Row], box: tuple[str, str, str, str]) -> bool:
    """Whether a location is in a box, which may cross the date line; one without a place is where its station is."""
    at = stop if stop["stop_lat"] else stops[stop["parent_station"]]
    west, south, east, north = map(float, box)
    latitude, longitude = float(at["stop_lat"]), float(at["stop_lon"])
    across = west <= longitude <= east if west <= east else longitude >= west or longitude <= east
    return across and south <= latitude <= north


def with_stations(called: set[str], stations: set[str], stops: dict[str, Row]) -> set[str]:
    """Some stops and stations with the stations of the stops, and the entrances of all of these stations."""
    kept = stations | {stops[stop]["parent_station"] for stop in called if stops[stop]["parent_station"]}
    doors = {name for name, row in stops.items() if row["location_type"] == "2" and row["parent_station"] in kept}
    return called | kept | doors


def in_region(stops: dict[str, Row], clip: DrawnClip) -> tuple[set[str], set[str]]:
    """The stops of a region, and all its locations."""
    inside = {name for name, row in stops.items() if clip.box is None or is_inside(row, stops, clip.box)}
    called, stations = ({name for name in inside if stops[name]["location_type"] == kind} for kind in ("", "1"))
    return called, with_stations(called, stations, stops) if clip.box else set(stops)


def clipped_by_hand(folder: Path, clip: DrawnClip) -> dict[str, list[Row]]:
    """The records that stay, by the page on clipping."""
    feed = {name: rows_of(folder, name) for name in TABLES}
    stops = {row["stop_id"]: row for row in feed["stops"]}
    trips = {
        row["trip_id"]: row
        for row in feed["trips"]
        if (not clip.routes or row["route_id"] in clip.routes)
        and (not clip.days or any(runs_on(folder, row["service_id"], day) for day in clip.days))
    }
    called, kept = in_region(stops, clip)
    by_trip = {trip: [row for row in feed["stop_times"] if row["trip_id"] == trip] for trip in trips}
    calls = {trip: [row for row in rows if row["stop_id"] in called] for trip, rows in by_trip.items()}
    calls = {trip: rows for trip, rows in calls.items() if len(rows) > 1}
    if clip.routes:
        kept &= with_stations({row["stop_id"] for rows in calls.values() for row in rows}, set(), stops)
    services = {trips[trip]["service_id"] for trip in calls}
    routes = {trips[trip]["route_id"] for trip in calls} if clip.box or clip.routes else {"R0", "R1", "R2"}
    moved = [row | shifted(row, by_trip, calls) for row in feed["frequencies"] if row["trip_id"] in calls]
    return {
        "stops": [row for row in feed["stops"] if row["stop_id"] in kept],
        "routes": [row for row in feed["routes"] if row["route_id"] in routes],
        "trips": [row for row in feed["trips"] if row["trip_id"] in calls],
        "stop_times": [row for row in feed["stop_times"] if any(row is own for own in calls.get(row["trip_id"], []))],
        "frequencies": moved,
        "calendar": [row for row in feed["calendar"] if row["service_id"] in services],
        "calendar_dates": [row for row in feed["calendar_dates"] if row["service_id"] in services],
        "transfers": [row for row in feed["transfers"] if {row["from_stop_id"], row["to_stop_id"]} <= kept],
    }


def shifted(row: Row, before: dict[str, list[Row]], after: dict[str, list[Row]]) -> Row:
    """The times of headways, which hold for the first call that stays."""
    first, now = (seconds_of(calls[row["trip_id"]][0]["departure_time"]) for calls in (before, after))
    times = {name: seconds_of(row[name]) + now - first for name in ("start_time", "end_time")}
    return {name: f"{time // 3600:02}:{time // 60 % 60:02}:{time % 60:02}" for name, time in times.items()}


@pytest.mark.parametrize("seed", range(30))
def test_a_drawn_feed_is_clipped_as_plain_loops_say(room: Room, seed: int) -> None:
    draw = random.Random(seed)
    folder = write_drawn_feed(room, draw, "in", at_date_line=seed % 3 == 0)
    clip = draw_clip(draw, folder)
    wanted = clipped_by_hand(folder, clip)
    out = room.path("out")
    _, errors, status = room.ran("prepare", "--allow-loss", *clip.words(), "--out", out, str(folder))
    if not in_region({row["stop_id"]: row for row in rows_of(folder, "stops")}, clip)[1]:
        assert status == 1 and "no stop of the feed lies in it" in errors, (clip, errors)
        return
    assert status == 0, (clip, errors)
    assert {name: rows_of(Path(out), name) for name in wanted} == wanted, clip


def test_clips_are_drawn_of_each_kind(room: Room) -> None:
    kinds, lost = Counter[str](), Counter[str]()
    for seed in range(30):
        draw = random.Random(seed)
        folder = write_drawn_feed(room, draw, f"in{seed}", at_date_line=seed % 3 == 0)
        clip = draw_clip(draw, folder)
        wanted = clipped_by_hand(folder, clip)
        kinds.update(word.split("=")[0] for word in clip.words())
        lost.update(name for name, rows in wanted.items() if len(rows) < len(rows_of(folder, name)))
    assert min(kinds[word] for word in ("--box", "--routes", "--date")) >= 5
    assert min(lost[name] for name in lost) >= 5 and len(lost) == 8


@pytest.mark.parametrize("seed", range(12))
def test_drawn_feeds_have_the_same_contents_when_they_are_merged(room: Room, seed: int) -> None:
    draw = random.Random(seed)
    folders = [write_drawn_feed(room, draw, name) for name in ("one", "two", "three")[: 2 + seed % 2]]
    out = room.path("out")
    _, errors, status = room.ran("prepare", "--out", out, *map(str, folders))
    assert status == 0, errors
    wanted = [contents(folder) for folder in folders]
    found = contents(Path(out))
    for kind, counts in found.items():
        assert counts == sum((own[kind] for own in wanted), Counter()), kind
    assert sum(found["trips"].values()) == 10 * len(folders)


def metres_between(one: tuple[float, float], other: tuple[float, float]) -> float:
    """The length of the great circle between two places in degrees."""
    (lat, lon), (to_lat, to_lon) = (tuple(map(math.radians, place)) for place in (one, other))
    cross = math.hypot(
        math.cos(to_lat) * math.sin(to_lon - lon),
        math.cos(lat) * math.sin(to_lat) - math.sin(lat) * math.cos(to_lat) * math.cos(to_lon - lon),
    )
    along = math.sin(lat) * math.sin(to_lat) + math.cos(lat) * math.cos(to_lat) * math.cos(to_lon - lon)
    return GLOBE * math.atan2(cross, along)


def walk_of(one: Row, other: Row, doors: dict[str, list[tuple[float, float]]]) -> float:
    """The metres of the shortest walk between two stops: by entrances of their stations, but directly within one."""
    places = [(float(row["stop_lat"]), float(row["stop_lon"])) for row in (one, other)]
    stations = [row["parent_station"] for row in (one, other)]
    if stations[0] == stations[1] and stations[0] in doors:
        return metres_between(*places)
    ways = [doors.get(station, [place]) for station, place in zip(stations, places)]
    return min(
        metres_between(places[0], begin) + metres_between(begin, end) + metres_between(end, places[1])
        for begin, end in itertools.product(*ways)
    )


@pytest.mark.parametrize("seed", range(10))
def test_drawn_walks_are_those_of_plain_loops(room: Room, seed: int) -> None:
    draw = random.Random(seed)
    middle = draw.choice([(0.5, 12.0), (50.0, 8.0), (-33.9, 180.0), (78.2, -179.999)])

    def place() -> tuple[float, float]:
        north, east = draw.gauss(0, 400) * METRE, draw.gauss(0, 400) * METRE / math.cos(math.radians(middle[0]))
        return middle[0] + north, (middle[1] + east + 180) % 360 - 180

    stations = [f"S{number}" for number in range(4)]
    rows = [[name, *place(), 1, ""] for name in stations]
    rows += [[f"E{number}", *place(), 2, draw.choice(stations[:3])] for number in range(6)]
    rows += [[f"P{number}", *place(), 0, draw.choice(["", *stations])] for number in range(40)]
    room.write("stops.txt", "stop_id,stop_lat,stop_lon,location_type,parent_station", rows)
    stops = rows_of(room.folder, "stops")
    doors = dict[str, list[tuple[float, float]]]()
    for row in stops:
        if row["location_type"] == "2":
            doors.setdefault(row["parent_station"], []).append((float(row["stop_lat"]), float(row["stop_lon"])))
    limit, speed, detour = draw.choice([300, 600]), draw.choice([1.0, 1.33]), draw.choice([1.0, 1.3])
    platforms = [row for row in stops if row["location_type"] == "0"]
    wanted = {
        (one["stop_id"], other["stop_id"]): math.ceil(round(walk_of(one, other, doors) * detour / speed, 6))
        for one, other in itertools.permutations(platforms, 2)
    }
    found = straight_walks(read_stops(str(room.folder)), Walking(3.6 * speed, detour, limit)).rows()
    assert {(one, other): seconds for one, other, seconds in found} == {
        pair: seconds for pair, seconds in wanted.items() if seconds <= limit
    }
    assert len(found) == len({pair[:2] for pair in found}) > 20
