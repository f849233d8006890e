"""Drawn days of service, with headways, loops, directions, periods and scenarios, next to plain loops.

The loops follow "What runs" in docs/reference/measures.md and share no code with the tools.
"""

import datetime
import itertools
import math
import random
import statistics
from dataclasses import dataclass
from typing import Callable, Iterator, Sequence

import pytest
from pyproj import Geod

from drawn_feeds import clock, date_of, rows_of, runs_on, seconds_of
from helpers import STOP_TIMES, Room, Table, read

WGS84 = Geod(ellps="WGS84")
STOPS, TRIPS = 7, 16
DAY = datetime.date(2026, 5, 6)  # a Wednesday
Key = tuple[str, str]  # a route and a direction, "" for all of them


@dataclass(frozen=True)
class Run:
    """A trip that runs on the day: its calls as stop, arrival and departure."""

    route: str
    direction: str
    calls: list[tuple[str, int, int]]
    kilometres: float

    @property
    def start(self) -> int:
        return self.calls[0][2]

    @property
    def end(self) -> int:
        return self.calls[-1][1]


def write_feed(room: Room, draw: random.Random) -> None:
    """Two routes whose trips overlap, some of them loops, some after midnight, two of them by headways."""
    spots = [[f"{48 + draw.randrange(200) / 1000}", f"{9 + draw.randrange(200) / 1000}"] for _ in range(STOPS)]
    spots[draw.randrange(STOPS)] = ["", ""]
    stops: Table = [[f"P{n}", f"Stop {n}", *spot] for n, spot in enumerate(spots)]
    room.write("stops.txt", "stop_id,stop_name,stop_lat,stop_lon", stops)
    room.write("routes.txt", "route_id,route_short_name", [["R0", "7"], ["R1", ""]])
    days: Table = [["M0", 1, 1, 1, 1, 1, 0, 0, date_of(0), date_of(30)], ["M1", *[0] * 7, date_of(0), date_of(30)]]
    days.append(["M2", *[1] * 7, date_of(0), date_of(draw.randrange(3, 8))])
    week = "monday,tuesday,wednesday,thursday,friday,saturday,sunday"
    room.write("calendar.txt", f"service_id,{week},start_date,end_date", days)
    room.write("calendar_dates.txt", "service_id,date,exception_type", [["M1", f"{DAY:%Y%m%d}", draw.randrange(1, 3)]])
    ways = [[draw.randrange(STOPS) for _ in range(draw.randrange(2, 7))] for _ in range(4)]
    unit = draw.choice([1, 60, 300])  # seconds; with larger ones a run often begins when another ends, or a period
    trips, calls = list[list[object]](), list[list[object]]()
    for number in range(TRIPS):
        kind, name = draw.randrange(4), f"T{number}"
        trips.append([f"R{kind % 2}", draw.choice(["M0", "M0", "M1", "M2"]), name, draw.choice(["", "0", "1", "1"])])
        second = draw.choice([8, 9, 23, 24]) * 3600 + draw.randrange(0, 3600, unit)
        for order, stop in enumerate(ways[kind]):
            arrival, second = second, second + draw.choice([0, 0, 0, 60, 75 if unit == 1 else 300])
            calls.append([name, clock(arrival), clock(second), f"P{stop}", order])
            second += draw.randrange(unit, 1500, unit)
    room.write("trips.txt", "route_id,service_id,trip_id,direction_id", trips)
    room.write("stop_times.txt", STOP_TIMES, calls)
    headways: Table = [["T0", "08:10:00", "09:40:00", 900], ["T0", "22:00:00", "22:00:01", 60]]
    headways.append(["T1", "08:00:00", "10:00:00", draw.randrange(300, 900, unit)])
    room.write("frequencies.txt", "trip_id,start_time,end_time,headway_secs", headways)


def kilometres_of(stops: Sequence[str], places: dict[str, dict[str, str]]) -> float:
    """Straight from stop to stop; a stop without a place is passed over."""
    spots = [(float(places[it]["stop_lon"]), float(places[it]["stop_lat"])) for it in stops if places[it]["stop_lat"]]
    return math.fsum(WGS84.inv(*one, *other)[2] / 1000 for one, other in zip(spots, spots[1:]))


def runs_of(room: Room, edits: Table) -> list[Run]:
    """What runs on the day after the edits of a scenario."""
    gone = {(action, name) for action, name, _ in edits}
    shifts = [(name, int(seconds)) for action, name, seconds in edits if action == "shift_trip"]
    places = {row["stop_id"]: row for row in rows_of(room.folder, "stops")}
    found = list[Run]()
    for trip in rows_of(room.folder, "trips"):
        name, route = trip["trip_id"], trip["route_id"]
        if {("remove_trip", name), ("remove_route", route)} & gone or not runs_on(room.folder, trip["service_id"], DAY):
            continue
        calls = [row for row in rows_of(room.folder, "stop_times") if row["trip_id"] == name]
        times = [(row["stop_id"], seconds_of(row["arrival_time"]), seconds_of(row["departure_time"])) for row in calls]
        headways = [row for row in rows_of(room.folder, "frequencies") if row["trip_id"] == name]
        starts = [times[0][2]] if not headways else []
        for row in headways:
            time = seconds_of(row["start_time"])
            while time < seconds_of(row["end_time"]):
                starts.append(time)
                time += int(row["headway_secs"])
        for start in starts:
            more = start - times[0][2] + sum(seconds for shifted, seconds in shifts if shifted == name)
            moved = [(stop, arrival + more, departure + more) for stop, arrival, departure in times]
            length = kilometres_of([stop for stop, *_ in times], places)
            found.append(Run(route, trip["direction_id"], moved, length))
    return found


def headway_stops(runs: Sequence[Run]) -> list[str]:
    """The stops that most of some runs leave; of several those that are reached first, on average."""
    first_at = dict[str, list[int]]()
    for run in runs:
        leaves = [stop for stop, *_ in run.calls[:-1]]
        for stop in set(leaves):
            first_at.setdefault(stop, []).append(leaves.index(stop))
    most = max(map(len, first_at.values()), default=0)
    means = {stop: statistics.mean(places) for stop, places in first_at.items() if len(places) == most}
    return [stop for stop, mean in means.items() if mean == min(means.values())]


def gaps_at(runs: Sequence[Run], stop: str, begin: int, end: int) -> list[float]:
    """Minutes between departures from a stop in a period, each run with its first one there."""
    firsts = [next((time for at, _, time in run.calls[:-1] if at == stop), -1) for run in runs]
    times = sorted(time for time in firsts if begin <= time < end)
    return [(later - earlier) / 60 for earlier, later in zip(times, times[1:])]


def vehicles_at_once(runs: Sequence[Run], begin: int, end: int) -> int:
    """The most runs that are under way at a second of a period; more can begin only when a run or the period does."""
    moments = [second for second in [begin, *(run.start for run in runs)] if begin <= second < end]
    return max(sum(run.start <= second < run.end for run in runs) for second in moments)


def check_row(row: dict[str, str], runs: Sequence[Run], begin: int, end: int, has_headway: bool) -> None:
    """Compares all numbers of a line of the table."""
    inside = [run for run in runs if begin <= run.start < end]
    hours = sum(run.end - run.start for run in inside) / 3600
    kilometres = sum(run.kilometres for run in inside)
    assert row["departures"] == str(len(inside))
    assert row["first_departure"] == (clock(min(run.start for run in inside)) if inside else "")
    assert row["last_arrival"] == (clock(max(run.end for run in inside)) if inside else "")
    assert row["vehicles"] == str(vehicles_at_once(runs, begin, end))
    assert float(row["vehicle_hours"]) == pytest.approx(hours, abs=0.00501)
    assert float(row["vehicle_kilometres"]) == pytest.approx(kilometres, abs=0.00501)
    speed = kilometres / hours if hours else math.nan
    assert float(row["kilometres_an_hour"] or "nan") == pytest.approx(speed, abs=0.00501, nan_ok=True)
    allowed = list[tuple[float, float]]()
    for stop in (headway_stops(runs) if has_headway else []) or [""]:
        gaps = gaps_at(runs, stop, begin, end)
        allowed.append((statistics.median(gaps), max(gaps)) if gaps else (math.nan, math.nan))
    found = [float(row[name] or "nan") for name in ("headway_minutes", "greatest_gap_minutes")]
    assert any(found == pytest.approx(own, abs=5.01e-5, nan_ok=True) for own in allowed), (found, allowed)


@dataclass(frozen=True)
class DrawnService:
    """The runs of each scenario of a drawn feed, the arguments that name it, and its periods."""

    runs: dict[str, list[Run]]
    arguments: list[str]
    times: list[int]

    @property
    def periods(self) -> list[tuple[int, int]]:
        return list(zip(self.times, self.times[1:]))


def draw_service(room: Room, seed: int) -> DrawnService:
    draw = random.Random(seed)
    write_feed(room, draw)
    edits: dict[str, Table] = {"base": [], "cut": [["remove_trip", f"T{draw.randrange(TRIPS)}", ""] for _ in range(3)]}
    edits["late"] = [["shift_trip", f"T{draw.randrange(4)}", draw.choice([-250, 400])] for _ in range(4)]
    edits["gone"] = [["remove_route", "R1", ""]]
    files = [room.write(f"{name}.csv", "action,id,seconds", rows) for name, rows in edits.items() if rows]
    minutes = sorted(draw.sample([*range(510, 620, 5), *range(1390, 1560, 5)], draw.randrange(1, 4)))
    minutes = [470 + draw.randrange(0, 30, 5), *minutes, 48 * 60][: len(minutes) + draw.randrange(1, 3)]
    times = [60 * minute for minute in minutes]
    shown = ",".join(clock(time)[:5] for time in times)
    arguments = ["service", str(room.folder), *files, "--date", f"{DAY:%Y%m%d}", "--periods", shown]
    return DrawnService({name: runs_of(room, rows) for name, rows in edits.items()}, arguments, times)


def lines_wanted(drawn: DrawnService, key_of: Callable[[Run], Key], order: Sequence[Key]) -> Iterator[tuple[str, ...]]:
    """The first columns of all lines: none where nothing leaves in any scenario."""
    for key, (begin, end) in itertools.product(order, drawn.periods):
        every = [run for runs in drawn.runs.values() for run in runs if key_of(run) == key]
        if any(begin <= run.start < end for run in every):
            for name in drawn.runs:
                yield name, *key, f"{clock(begin)[:5]} to {clock(end)[:5]}"


@pytest.mark.parametrize("by", ["direction", "route", "all"])
@pytest.mark.parametrize("seed", range(10))
def test_drawn_service_is_that_of_plain_loops(room: Room, seed: int, by: str) -> None:
    drawn = draw_service(room, seed)

    def key_of(run: Run) -> Key:
        return "" if by == "all" else run.route, run.direction if by == "direction" else ""

    trips = rows_of(room.folder, "trips")
    order = list(dict.fromkeys(key_of(Run(row["route_id"], row["direction_id"], [], 0)) for row in trips))
    out, _, status = room.ran(*drawn.arguments, "--by", by)
    rows = read(out)
    heads = [tuple(row[name] for name in ("scenario", "route", "direction", "period")) for row in rows]
    assert (heads, status) == (list(lines_wanted(drawn, key_of, order)), 0) and rows
    for row in rows:
        runs = [run for run in drawn.runs[row["scenario"]] if key_of(run) == (row["route"], row["direction"])]
        begin, end = (seconds_of(f"{time}:00") for time in row["period"].split(" to "))
        check_row(row, runs, begin, end, by == "direction")
        assert row["route_name"] == {"R0": "7", "R1": "R1", "": ""}[row["route"]]


@pytest.mark.parametrize("seed", range(10))
def test_drawn_departures_by_stop_are_those_of_plain_loops(room: Room, seed: int) -> None:
    drawn, wanted = draw_service(room, seed), list[list[object]]()
    for (begin, end), number in itertools.product(drawn.periods, list(range(STOPS))):
        counts = {
            name: sum(stop == f"P{number}" and begin <= time < end for run in runs for stop, _, time in run.calls[:-1])
            for name, runs in drawn.runs.items()
        }
        period = f"{clock(begin)[:5]} to {clock(end)[:5]}"
        for name, count in counts.items() if any(counts.values()) else ():
            rate = pytest.approx(count / min(24, (end - begin) / 3600), abs=5.01e-5, rel=6e-4)
            wanted.append([name, f"P{number}", f"Stop {number}", period, str(count), rate])
    out, _, status = room.ran(*drawn.arguments, "--by", "stop")
    rows = [list(row.values())[:5] + [float(row["departures_an_hour"])] for row in read(out)]
    assert (rows, status) == (wanted, 0) and rows
