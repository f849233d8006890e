"""Journeys behind cells: by hand on the small feed, and on drawn feeds compared with `tests/program/plain.py`."""

import argparse
import datetime
import importlib
import random
import stat
import sys
from pathlib import Path
from typing import Any

import numpy as np
import pytest

from helpers import CALENDAR, STOP_TIMES, Room
from test_damages import damaged
from ttm_tools.gtfs.stops import read_stops
from ttm_tools.journeys.found import ExplainOptions, found_by
from ttm_tools.journeys.legs import calls_of_ride
from ttm_tools.journeys.search import Leg, Search, cell, durations, journey
from ttm_tools.journeys.network import NEVER, Schedule
from ttm_tools.gtfs.footpaths import read_walks
from ttm_tools.gtfs.timetable import Events, read_edits, read_timetable, runs_of
from ttm_tools.views.itineraries import parts_of
from ttm_tools.web.journeys import Shown

ROOT = Path(__file__).resolve().parents[2]
WORDS = "--origin A --destination C --date 20260504 --from 07:58 --to 08:01 --trips 2 --walk 120 --ahead 0".split()


@pytest.fixture
def small(room: Room) -> Room:
    """The small feed, with a change time of three minutes at B, a walk from C to D, and scenarios: T2 comes later, or
    not at all.
    """
    room.write("stops.txt", "stop_id,stop_name", [["A", "Alpha"], ["B", ""], ["C", ""], ["D", ""]])
    room.write("routes.txt", "route_id,route_short_name", [["R1", "1"], ["R2", ""]])
    room.write("trips.txt", "route_id,service_id,trip_id", [["R1", "M", "T1"], ["R2", "M", "T2"]])
    room.write("calendar.txt", *CALENDAR)
    times = [["T1", "8:00:00", "8:00:00", "A", 1], ["T1", "8:10:00", "8:10:00", "B", 2]]
    times += [["T2", "8:15:00", "8:15:00", "B", 1], ["T2", "8:30:00", "8:30:00", "C", 2]]
    room.write("stop_times.txt", STOP_TIMES, times)
    room.write("transfers.txt", "from_stop_id,to_stop_id,transfer_type,min_transfer_time", [["B", "B", 2, 180]])
    room.write("walks.csv", "from_stop_id,to_stop_id,seconds", [["C", "D", 90]])
    room.write("late.csv", "action,id,seconds", [["shift_trip", "T2", 300]])
    room.write("cut.csv", "action,id,seconds", [["remove_route", "R2", ""]])
    return room


def explained(room: Room, program: str, *arguments: str) -> list[str]:
    out, errors, status = room.ran("explain", *arguments, "--program", program)
    assert (errors, status) == ("", 0)
    return out.splitlines()


def test_the_small_feed_by_hand(small: Room, program: str) -> None:
    """At 07:58 it takes 32 minutes, at 07:59 31, at 08:00 30, and from 08:01 on it never arrives: half attain 31."""
    lines = explained(small, program, str(small.folder), small.path("late.csv"), *WORDS)
    assert lines == [
        "From Alpha (A) to C: the travel time that 50 % of 4 departures achieve",
        "2026-05-04, service days: 1 before and 0 after; departures 07:58 to 08:01, "
        "at most 2 rides, walks up to 120 seconds",
        "Found by a second search, in Python, which isn't proved.",
        "",
        "base: 1860 seconds               late: 2160 seconds",
        "07:59:00 Alpha (A)               07:59:00 Alpha (A)",
        "  wait 1:00                        wait 1:00",
        "08:00:00 route 1 (R1), trip T1   08:00:00 route 1 (R1), trip T1",
        "  ride 10:00                       ride 10:00",
        "08:10:00 B                       08:10:00 B",
        "  change 3:00                      change 3:00",
        "  wait 2:00                        wait 7:00",
        "08:15:00 route R2, trip T2       08:20:00 route R2, trip T2",
        "  ride 15:00                       ride 15:00",
        "08:30:00 C                       08:35:00 C",
        "",
        "departure    base     late",
        "07:58       32:00    37:00",
        "07:59       31:00*   36:00*",
        "08:00       30:00    35:00",
        "08:01           -        -",
    ]


def test_a_walk_at_the_end_and_what_is_not_reached(small: Room, program: str) -> None:
    arguments = [*WORDS[:3], "D", *WORDS[4:], "--footpaths", small.path("walks.csv")]
    lines = explained(small, program, str(small.folder), small.path("cut.csv"), *arguments)
    assert [line.split("   ")[0].rstrip() for line in lines[13:18]] == [
        "  ride 15:00",
        "08:30:00 C",
        "  walk 1:30",
        "08:31:30 D",
        "",
    ]
    assert lines[4].split() == ["base:", "1950", "seconds", "cut:", "not", "reached"]
    assert lines[-1].split() == ["08:01", "-", "-"]


HEAD = "scenario,origin,destination,percentile,seconds,departure,access_seconds,wait_seconds,ride_seconds"
PAIR_WORDS = WORDS[4:]


def test_many_pairs_make_a_table_of_parts(small: Room, program: str) -> None:
    pairs = small.write("pairs.csv", "origin,destination", [["A", "C"], ["C", "D"], ["A", "D"], ["A", "C"]])
    arguments = [small.path("late.csv"), *PAIR_WORDS, "--footpaths", small.path("walks.csv"), "--pairs", pairs]
    assert explained(small, program, str(small.folder), *arguments) == [
        f"{HEAD},change_seconds,walk_seconds,egress_seconds,rides,routes,trips",
        # waits of 1 minute at A and 2 (7 where T2 is later) at B, rides of 10 and 15 minutes, a change of 3
        "base,A,C,50,1860,07:59:00,0,180,1500,180,0,0,2,R1 R2,T1 T2",
        "late,A,C,50,2160,07:59:00,0,480,1500,180,0,0,2,R1 R2,T1 T2",
        "base,C,D,50,90,07:58:00,90,0,0,0,0,0,0,,",
        "late,C,D,50,90,07:58:00,90,0,0,0,0,0,0,,",
        "base,A,D,50,1950,07:59:00,0,180,1500,180,0,90,2,R1 R2,T1 T2",
        "late,A,D,50,2250,07:59:00,0,480,1500,180,0,90,2,R1 R2,T1 T2",
    ]


def test_a_pair_that_is_not_reached_has_no_parts(small: Room, program: str) -> None:
    pairs = small.write("pairs.csv", "origin,destination", [["C", "A"]])
    lines = explained(small, program, str(small.folder), *PAIR_WORDS, "--pairs", pairs)
    assert lines[1] == "base,C,A,50" + "," * 11


def test_walks_between_rides_are_apart_from_those_at_the_ends() -> None:
    walk, ride = (0, 1, 100, 160, None, 0), (1, 2, 200, 500, 3, 0)
    legs = [
        Leg(*walk),
        Leg(*ride),
        Leg(2, 3, 500, 530, None, 0),
        Leg(3, 4, 600, 700, 4, 30),
        Leg(4, 5, 700, 707, None, 0),
    ]
    parts = parts_of(legs, 100)
    assert (parts.access, parts.wait, parts.ride, parts.change, parts.walk, parts.egress) == (60, 80, 400, 30, 30, 7)
    assert sum(vars(parts).values()) == 607


def test_pairs_go_with_no_ends(small: Room) -> None:
    pairs, none = small.write("pairs.csv", "origin,destination", [["A", "C"]]), small.write(
        "no.csv", "origin,destination", []
    )
    arguments = ["explain", str(small.folder), *PAIR_WORDS]
    both, picture = ["--pairs", pairs, "--origin", "A"], ["--pairs", pairs, "--picture", "x.png"]
    wrongs: list[list[str]] = [[], ["--origin", "A"], both, picture]
    for wrong in wrongs:
        assert small.ran(*arguments, *wrong)[2] == 2
    small.refused(f"{none}: no pairs", *arguments, "--pairs", none)


def test_the_numbers_of_both_are_told_where_they_differ(small: Room) -> None:
    program = small.folder / "ttm"
    matrix = "scenario,origin,share,access_1800,A,B,C,D\nbase,A,50,3,0,600,1800,\n"
    program.write_text(f"#!/bin/sh\ncat << END\n{matrix}END\n")
    program.chmod(program.stat().st_mode | stat.S_IXUSR)
    arguments = ["explain", str(small.folder), *WORDS, "--program", str(program)]
    message = "the travel times differ: from A to C, base: ttm has 1800 seconds, and this search, which isn't proved"
    small.refused(f"{message}, has 1860 seconds", *arguments)


def test_a_cell_of_a_matrix_is_taken_in_place_of_a_run(small: Room) -> None:
    matrix = small.write(
        "matrix.csv", "scenario,origin,share,access_1800,A,B,C,D", [["base", "A", 50, 2, 0, 600, 1860, ""]]
    )
    arguments = ["explain", str(small.folder), *WORDS, "--within", "1800", "--workers", "4", "--matrix", matrix]
    out, errors, status = small.ran(*arguments)
    assert (errors, status) == ("", 0) and out.splitlines()[4] == "base: 1860 seconds"
    small.refused(f"{matrix}: no scenario late; it has base", *arguments[:2], small.path("late.csv"), *arguments[2:])


def test_a_picture_shows_the_duration_of_each_departure(small: Room, monkeypatch: pytest.MonkeyPatch) -> None:
    """By the cells of a matrix: 1,860 seconds at 07:59, 2,160 where T2 comes later; none from 08:01 on."""
    figures: list[Any] = []
    matplotlib = pytest.importorskip("matplotlib.figure")
    monkeypatch.setattr(matplotlib.Figure, "savefig", lambda figure, *_, **__: figures.append(figure))
    rows = [["base", "A", 50, 0, 0, 600, 1860, ""], ["late", "A", 50, 0, 0, 600, 2160, ""]]
    matrix = small.write("m.csv", "scenario,origin,share,access_60,A,B,C,D", rows)
    arguments = ["--matrix", matrix, "--picture", small.path("p.png"), "--out", small.path("why.txt")]
    assert small.ran("explain", str(small.folder), small.path("late.csv"), *WORDS, *arguments) == ("", "", 0)
    (axes,) = figures[0].axes
    base, late = (line for line in axes.lines if len(line.get_ydata()) == 4)
    assert base.get_ydata()[:3].tolist() == [32, 31, 30] and late.get_ydata()[:3].tolist() == [37, 36, 35]
    assert np.isnan(base.get_ydata()[3])
    printed = [text.get_text() for text in axes.get_legend().get_texts()]
    assert printed == ["base: 50 % achieve 31.0 minutes", "late: 50 % achieve 36.0 minutes"]
    assert [text.get_text() for text in axes.get_xticklabels()] == ["07:58", "07:59", "08:00", "08:01"]


def test_wrong_words_are_told(small: Room) -> None:
    arguments = ["explain", str(small.folder), *WORDS]
    message = f"{small.path('stops.txt')}: no stop X at which vehicles call"
    small.refused(message, *arguments, "--origin", "X")
    for more in (["--from", "08:02"], ["--date", "20260230"], ["--to", "24:00"], ["--trips", "9"]):
        out, line, status = small.ran(*arguments, *more)
        assert (out, status) == ("", 2) and line.splitlines()[-1].startswith("ttm-tools explain: "), more


def asked_of(plain: Any, arguments: list[str]) -> argparse.Namespace:
    args = plain.options(arguments)
    assert isinstance(args, argparse.Namespace)
    return args


class Second:
    """The other program's feed, walks and runs of the words of a drawn feed."""

    def __init__(self, plain: Any, args: argparse.Namespace, scenario: str | None) -> None:
        self.feed = plain.Feed(args.feed)
        direct = self.feed.direct_footpaths(args.footpaths)
        self.feet = plain.closed_footpaths(len(self.feed.stops), direct, args.walk)
        self.changes = self.feed.change_times()
        self.runs = plain.network(self.feed, args, scenario)

    def rides(self, leg: Leg) -> bool:
        """Whether some run has this ride."""
        return any(
            before.stop == leg.start
            and before.depart == leg.begin
            and before.board
            and after.stop == leg.end
            and after.arrive == leg.finish
            and after.alight
            for run in self.runs
            for place, before in enumerate(run)
            for after in run[place + 1 :]
        )

    def end_of(self, legs: list[Leg], origin: int, departure: int) -> tuple[int, int]:
        """Where and when a journey ends, each of whose legs the definitions allow."""
        at, time, last = origin, departure, "start"
        for leg in legs:
            assert leg.start == at and leg.begin >= time
            if leg.run is None:
                assert last != "walk" and leg.begin == time
                assert (leg.end, leg.finish - leg.begin) in self.feet[at]
            else:
                assert self.rides(leg)
                assert leg.change == (self.changes[at] if last == "ride" else 0)
                assert leg.begin >= time + leg.change
            at, time, last = leg.end, leg.finish, "walk" if leg.run is None else "ride"
        return at, time


def others() -> tuple[Any, Any]:
    """The other program, and what draws feeds."""
    if not (ROOT / "tests/program/random_feeds.py").is_file():
        pytest.skip("without the tests of the program")
    for folder in ("bench", "tests/program"):
        if str(ROOT / folder) not in sys.path:
            sys.path.append(str(ROOT / folder))
    return importlib.import_module("plain"), importlib.import_module("random_feeds")


def compare(room: Room, plain: Any, arguments: list[str]) -> int:
    """Durations between all stops are those of the other program and of the journeys; returns how many changes
    they have.
    """
    args, changed = asked_of(plain, arguments), 0
    timetable = read_timetable(read_stops(str(room.folder)))
    walks, changes = read_walks(timetable, args.footpaths, args.walk)
    departures = args.departures[:: max(1, len(args.departures) // 4)]
    count = range(len(timetable.stops))
    for scenario in [None, *args.scenario]:
        second = Second(plain, args, scenario)
        runs = runs_of(timetable, args.date, (args.back, args.ahead), read_edits(scenario))
        schedule = Schedule(timetable.events, runs, walks, changes, departures[0])
        network = schedule.within(departures[0], NEVER)
        for origin in count:
            ways = (second.runs, second.feet, second.changes, origin)
            table = [plain.durations(*ways, departure, args.trips) for departure in departures]
            for stop in count:
                found = durations(schedule, origin, stop, departures, args.trips)
                assert found == [times[stop] for times in table]
                for departure, time in zip(departures, found):
                    legs = journey(Search(network, origin, departure, args.trips), stop)
                    changed += sum(leg.change > 0 for leg in legs)
                    assert sum(leg.run is not None for leg in legs) <= args.trips
                    if time is not None:
                        assert second.end_of(legs, origin, departure) == (stop, departure + time)
    return changed


@pytest.mark.parametrize("seed", range(1, 31))
def test_drawn_feeds_have_the_durations_of_the_other_program_and_journeys_that_last_so_long(
    room: Room, seed: int
) -> None:
    plain, random_feeds = others()
    drawn = random_feeds.Drawn(seed)
    drawn.put_into(room.folder)
    compare(room, plain, drawn.words(room.folder))


def clock(seconds: int) -> str:
    return f"{seconds // 3600}:{seconds // 60 % 60:02}:{seconds % 60:02}"


def draw_town(room: Room, draw: random.Random) -> list[str]:
    """A town where much runs and most change: its files, and words of a run."""
    stops = [f"S{number}" for number in range(7)]
    room.write(
        "stops.txt", "stop_id,location_type,parent_station", [["G", 1, ""], *[[stop, "", ""] for stop in stops[:5]]]
    )
    with open(room.path("stops.txt"), "a") as file:
        file.write("S5,0,G\nS6,0,G\n")
    room.write("routes.txt", "route_id", [["R0"], ["R1"]])
    room.write("calendar.txt", *CALENDAR)
    trips = [f"T{number}" for number in range(24)]
    room.write("trips.txt", "route_id,service_id,trip_id", [[draw.choice(["R0", "R1"]), "M", trip] for trip in trips])
    calls = []
    for trip in trips:
        time = 8 * 3600 + 60 * draw.randrange(30)
        for place, stop in enumerate(draw.choices(stops, k=draw.randrange(2, 6))):
            arrive, time = time, time + draw.choice([0, 0, 30])
            calls.append([trip, clock(arrive), clock(time), stop, place, *draw.choices(["", 0, 1], [5, 5, 1], k=2)])
            time += draw.choice([60, 90, 240])
    room.write("stop_times.txt", f"{STOP_TIMES},pickup_type,drop_off_type", calls)
    headways = [[trip, "8:05:00", "8:40:00", draw.choice([300, 433])] for trip in draw.sample(trips, 3)]
    room.write("frequencies.txt", "trip_id,start_time,end_time,headway_secs", headways)
    changes = [[item, item, 2, draw.choice([60, 120, 300])] for item in [*stops[:4], "G"]]
    room.write("transfers.txt", "from_stop_id,to_stop_id,transfer_type,min_transfer_time", changes)
    walks = [[*draw.sample(stops, 2), draw.choice([30, 100, 200])] for _ in range(5)]
    path = room.write("walks.csv", "from_stop_id,to_stop_id,seconds", walks)
    cut = room.write("cut.csv", "action,id,seconds", [["remove_trip", trips[0], ""], ["shift_trip", trips[1], 60]])
    window = ["--from", "08:00", "--to", "08:25", "--trips", str(draw.randrange(1, 5)), "--walk", "250"]
    own = ["--date", "20260506", "--back", "0", "--ahead", "0", "--share", "50", "--within", "600"]
    return ["--feed", str(room.folder), *window, *own, "--footpaths", path, cut]


def test_drawn_towns_have_the_durations_of_the_other_program(room: Room, monkeypatch: pytest.MonkeyPatch) -> None:
    plain, _ = others()
    monkeypatch.setattr("ttm_tools.journeys.search.AT_ONCE", 3)
    changed = sum(compare(room, plain, draw_town(room, random.Random(seed))) for seed in range(12))
    assert changed > 100


def test_a_cell_is_the_least_duration_that_enough_departures_attain() -> None:
    times: list[int | None] = [720, 660, 600, None]
    assert [cell(times, share) for share in (25, 50, 75, 100)] == [600, 660, 720, None]


@pytest.mark.parametrize("seed", range(4))
def test_whatever_is_damaged_is_told_in_a_line(small: Room, program: str, seed: int) -> None:
    draw = random.Random(seed)
    small.write("frequencies.txt", "trip_id,start_time,end_time,headway_secs", [["T1", "08:00:00", "08:01:00", 30]])
    names = [path.name for path in small.folder.iterdir() if path.suffix in (".txt", ".csv")]
    arguments = ["explain", str(small.folder), small.path("cut.csv"), small.path("late.csv"), *WORDS]
    arguments += ["--footpaths", small.path("walks.csv"), "--program", program]
    for _ in range(15):
        path = small.folder / draw.choice(names)
        whole = path.read_bytes()
        path.write_bytes(damaged(draw, whole))
        _, errors, status = small.ran(*arguments)
        assert (status, len(errors.splitlines())) in ((0, 0), (1, 1)), (path, path.read_bytes(), errors)
        path.write_bytes(whole)


def test_drawn_feeds_are_explained_as_ttm_counts(room: Room, program: str) -> None:
    plain, random_feeds = others()
    for seed in range(100, 112):
        drawn = random_feeds.Drawn(seed)
        drawn.put_into(room.folder)
        arguments = drawn.words(room.folder)
        kept = [arguments.index(f"--{name}") for name in ("date", "from", "to", "trips", "walk")]
        some = [word for place in kept for word in arguments[place : place + 2]]
        ends = ["--origin", drawn.stops[0], "--destination", drawn.stops[-1]]
        files = [str(room.folder), room.path("cut.csv"), room.path("late.csv")]
        lines = explained(room, program, *files, *ends, *some, "--footpaths", room.path("footpaths.csv"))
        assert lines[2] == "Found by a second search, in Python, which isn't proved."


@pytest.mark.parametrize(
    "leg, calls",
    [
        (Leg(7, 8, 3620, 3900, 0, 0), (3, 5)),  # from the second call at 7
        (Leg(6, 7, 3600, 3620, 0, 0), (2, 4)),
        (Leg(7, 7, 3540, 3620, 0, 0), (1, 4)),  # a loop
    ],
)
def test_a_ride_has_the_calls_from_where_one_boards_to_where_one_alights(leg: Leg, calls: tuple[int, int]) -> None:
    stops, times = np.array([5, 7, 6, 7, 8], np.int32), np.array([0, 0, 60, 80, 360], np.int32)
    events = Events(np.array([0, 1, 5]), stops, times, times, *[np.ones(5, np.bool_)] * 2)
    assert calls_of_ride(events, 1, 3540, leg) == slice(*calls)


def test_the_page_draws_a_ride_from_where_one_boards(room: Room) -> None:
    """T leaves A and B in the same second."""
    room.write("stops.txt", "stop_id", [["A"], ["B"], ["C"]])
    room.write("routes.txt", "route_id,route_short_name", [["R", "1"]])
    room.write("trips.txt", "route_id,service_id,trip_id", [["R", "M", "T"]])
    room.write("calendar.txt", *CALENDAR)
    times = [["T", "8:00:00", "8:00:00", name, place] for place, name in enumerate("AB")]
    room.write("stop_times.txt", STOP_TIMES, [*times, ["T", "8:10:00", "8:10:00", "C", 3]])
    timetable, date = read_timetable(read_stops(str(room.folder))), datetime.date(2026, 5, 4)
    a, b, c = map(timetable.stops.index, "ABC")
    runs, departure = runs_of(timetable, date, (0, 0), read_edits(None)), 8 * 3600 - 60
    schedule = Schedule(timetable.events, runs, *read_walks(timetable, None, 0), departure)
    options = ExplainOptions(timetable, b, c, [departure], 0, 50, "")
    found = found_by(options, "base", 1, schedule)
    places = {a: 10, b: 11, c: 12}
    shown = Shown(options, found, [(timetable, runs)], {"R": "1"}, [places[stop] for stop in range(3)]).as_json()
    (ride,) = shown["legs"]
    assert (ride["from"], ride["to"], ride["via"], ride["wait"]) == (11, 12, [11, 12], 60)
