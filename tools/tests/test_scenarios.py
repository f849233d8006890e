"""Plans and their feeds: each action with numbers by hand, what is reported, and what is refused."""

import csv
import random
import shutil
import warnings
from pathlib import Path
from typing import Any

import numpy as np
import pytest

import helpers
import ttm_tools
from helpers import Cell, Room, Town, read, town_matrix
from test_damages import damaged
from ttm_tools.plans.action_list import LISTED, help_table, markdown_table
from ttm_tools.streets.walks import Walks

STOPS = [["A", "Alpha", 50.0, 8.0], ["B", "Beta", 50.0, 8.014], ["C", "", 50.0, 8.028], ["D", "Delta", 50.0, 8.042]]
CALENDAR = "service_id,monday,tuesday,wednesday,thursday,friday,saturday,sunday,start_date,end_date"
NEW_STOP = '[[stop]]\nid = "N"\nname = "New"\nlat = 50.01\nlon = 8.014\n'


def clock(minutes: float) -> str:
    seconds = round(minutes * 60)
    return f"{seconds // 3600:02}:{seconds // 60 % 60:02}:{seconds % 60:02}"


@pytest.fixture
def small(room: Room) -> Room:
    """Route R runs from A to D in 20 minutes at 8:00, 8:20 (in 21) and 9:00, and back at 8:10; half a minute's stand at
    B and C. Route Q runs from A to D at 8:00 in half an hour. Weekdays have service M, and Mondays W too.
    """
    (room.folder / "feed").mkdir()
    room.write("feed/stops.txt", "stop_id,stop_name,stop_lat,stop_lon", STOPS)
    room.write("feed/routes.txt", "route_id,route_short_name,route_type", [["R", "13", 3], ["Q", "14", 3]])
    days = [["M", 1, 1, 1, 1, 1, 0, 0, 20260504, 20260510], ["W", 1, 0, 0, 0, 0, 0, 0, 20260504, 20260510]]
    room.write("feed/calendar.txt", CALENDAR, days)
    trips = [["R", "M", "R1", 0], ["R", "M", "R2", 0], ["R", "W", "R3", 0], ["R", "M", "S1", 1], ["Q", "M", "Q1", 0]]
    room.write("feed/trips.txt", "route_id,service_id,trip_id,direction_id", trips)
    rows = [["Q1", clock(480), clock(480), "A", 1, 0, 1], ["Q1", clock(510), clock(510), "D", 2, 1, 0]]
    for trip, start, last in (("R1", 480, 20), ("R2", 500, 21), ("R3", 540, 20)):
        for number, (stop, minutes, stand) in enumerate((("A", 0, 0), ("B", 5, 0.5), ("C", 11, 0.5), ("D", last, 0))):
            rows.append([trip, clock(start + minutes), clock(start + minutes + stand), stop, number, 0, 0])
    for number, (stop, minutes, stand) in enumerate((("D", 0, 0), ("C", 9, 0.5), ("B", 15, 0.5), ("A", 20, 0))):
        rows.append(["S1", clock(490 + minutes), clock(490 + minutes + stand), stop, number, 0, 0])
    heads = "trip_id,arrival_time,departure_time,stop_id,stop_sequence,pickup_type,drop_off_type"
    room.write("feed/stop_times.txt", heads, rows)
    return room


def plan_of(room: Room, *actions: str, before: str = "") -> str:
    """A plan of one scenario, `new`."""
    text = before + '[[scenario]]\nname = "new"\n' + "".join(f"[[scenario.action]]\n{action}\n" for action in actions)
    (room.folder / "plan.toml").write_text(text)
    return room.path("plan.toml")


def made(room: Room, *actions: str, before: str = "") -> tuple[dict[str, list[str]], list[str]]:
    """The calls of each trip of the feed with nothing but the actions carried out, and what was reported."""
    plan = plan_of(room, *actions, before=before)
    out, errors, status = room.ran("scenarios", room.path("feed"), plan, "--only", "new", "--out", room.path("out"))
    assert (out, status) == ("", 0), errors
    return calls(room, "out"), errors.splitlines()


def calls(room: Room, folder: str) -> dict[str, list[str]]:
    """The calls of each trip of a feed: stop, arrival, and departure if that is another time."""
    found: dict[str, list[str]] = {}
    with open(room.folder / folder / "stop_times.txt", newline="") as file:
        for row in csv.DictReader(file):
            times = list(dict.fromkeys((row["arrival_time"], row["departure_time"])))
            found.setdefault(row["trip_id"], []).append(" ".join([row["stop_id"], *times]))
    return found


def rows(room: Room, name: str) -> list[dict[str, str]]:
    return read((room.folder / name).read_text())


R1 = ["A 08:00:00", "B 08:05:00 08:05:30", "C 08:11:00 08:11:30", "D 08:20:00"]


def test_routes_and_trips_are_taken_out_and_shifted(small: Room) -> None:
    feed, message = made(
        small,
        'do = "remove_route"\nroute = "Q"',
        'do = "remove_trip"\ntrip = ["R2", "R3"]',
        'do = "shift_route"\nroute = "R"\nseconds = 90',
        'do = "shift_trip"\ntrip = "S1"\nseconds = -30',
    )
    assert feed == {
        "R1": ["A 08:01:30", "B 08:06:30 08:07:00", "C 08:12:30 08:13:00", "D 08:21:30"],
        "S1": ["D 08:11:00", "C 08:20:00 08:20:30", "B 08:26:00 08:26:30", "A 08:31:00"],
    }
    assert message[:4] == [
        "new: 1 remove_route Q: trips 1 taken out; trips 5 to 4, stops 4, stop times 18 to 16",
        "new: 2 remove_trip R2, R3: trips 2 taken out; trips 4 to 2, stops 4, stop times 16 to 8",
        "new: 3 shift_route R: trips 2 shifted; trips 2, stops 4, stop times 8",
        "new: 4 shift_trip S1: trips 1 shifted; trips 2, stops 4, stop times 8",
    ]


def test_trips_no_longer_call_at_a_stop(small: Room) -> None:
    feed, printed = made(small, 'do = "remove_stop"\nstop = ["A", "B"]')
    assert feed["R1"] == R1[2:] and feed["S1"] == ["D 08:10:00", "C 08:19:00 08:19:30"] and "Q1" not in feed
    assert printed[1] == "  1 trip removed because only one call was left"
    (small.folder / "out").rename(small.folder / "before")
    feed, _ = made(small, 'do = "remove_stop"\nstop = "A"\nroute = "Q"\n', 'do = "remove_stop"\nstop = "C"')
    assert "Q1" not in feed and feed["R1"] == [R1[0], R1[1], R1[3]]


def test_a_new_line_runs_both_ways(small: Room) -> None:
    action = """do = "add_line"
route = "T"
name = "Tram"
type = 0
stops = ["A", "N", "D"]
seconds = [120, 180]
dwell = 20
departures = [{ first = "08:00", last = "08:20", every = 600 }, { first = 08:10:00, last = "08:20:00", every = 300 }]
days = ["saturday", "sunday"]"""
    feed, printed = made(small, action, before=NEW_STOP)
    assert len(feed) == 5 + 2 * 4  # at 8:00, 8:10, 8:15 and 8:20
    assert feed["T-0#3"] == ["A 08:15:00", "N 08:17:00 08:17:20", "D 08:20:20"]
    assert feed["T-1#1"] == ["D 08:00:00", "N 08:03:00 08:03:20", "A 08:05:20"]
    assert printed[:2] == [
        "new: 1 add_line T: trips 8 added; trips 5 to 13, stops 4 to 5, stop times 18 to 42",
        "  route T: 3 stops in 00:05:20; 4 departures from each end",
    ]
    assert rows(small, "out/stops.txt")[-1] == dict(stop_id="N", stop_name="New", stop_lat="50.01", stop_lon="8.014")
    assert rows(small, "out/routes.txt")[-1] == {"route_id": "T", "route_short_name": "Tram", "route_type": "0"}
    days = [[row["date"], row["exception_type"]] for row in rows(small, "out/calendar_dates.txt")]
    assert days == [["20260509", "1"], ["20260510", "1"]]  # those that the feed's calendars know


def test_a_new_line_by_its_speed_in_one_direction(small: Room) -> None:
    """From A to N are 1,496 metres: 1,001 east (0.014 degrees at 50 degrees north) and 1,112 north."""
    arguments = 'stops = ["A", "N"]\nspeed = 36\nboth = false\nservice = "M"'
    times = 'departures = [{ first = "08:00", last = "08:09", every = 600 }]'
    feed, _ = made(small, f'do = "add_line"\nroute = "T"\n{arguments}\n{times}', before=NEW_STOP)
    assert feed["T-0#1"] == ["A 08:00:00", "N 08:02:30"] and "T-1#1" not in feed


def test_departures_are_added_between_those_that_are_there(small: Room) -> None:
    # R1 leaves at 08:00 and R2 at 08:20; behind R2 the next departure on a Monday is that of R3, of another service
    feed, message = made(small, 'do = "headway"\nroute = "R"\ntimes = 2\nfrom = "08:00"\nto = "09:00"')
    assert [line for name, line in feed.items() if "#" in name] == [
        ["A 08:10:00", "B 08:15:00 08:15:30", "C 08:21:00 08:21:30", "D 08:30:00"],
        ["A 08:40:00", "B 08:45:00 08:45:30", "C 08:51:00 08:51:30", "D 09:01:00"],
    ]
    assert {"R1", "R2", "R3", "S1", "Q1"} <= feed.keys()
    assert [line for line in message if "added to" in line] == [
        "  route R, A to D: 2 departures added to 2",
        "  route R, D to A: 0 departures added to 1",
    ]
    services = {row["trip_id"]: row["service_id"] for row in rows(small, "out/trips.txt")}
    assert [service for name, service in services.items() if "#" in name] == ["M", "W"]


def test_three_times_as_often_is_two_more_in_each_gap(small: Room) -> None:
    arguments = 'route = "R"\ndirection = 0\ntimes = 3\nfrom = "08:00"\nto = "08:13"'
    feed, _ = made(small, f'do = "headway"\n{arguments}')
    # a third and two thirds of 20 minutes behind 08:00, the latter past the end
    assert [line[0] for name, line in feed.items() if "#" in name] == ["A 08:06:40"]


def test_copies_of_a_typical_trip_run_every_so_often(small: Room) -> None:
    """From A to D three trips leave from 8:00 to 9:00, in 20, 21 and 20 minutes: the median is 20, first R1."""
    feed, message = made(small, 'do = "headway"\nroute = "R"\nevery = 1200\nfrom = "08:00"\nto = "09:01"')
    assert sorted(feed) == ["Q1", "R1#1", "R1#2", "R1#3", "R1#4", "S1#1", "S1#2", "S1#3", "S1#4"]
    assert feed["R1#2"] == ["A 08:20:00", "B 08:25:00 08:25:30", "C 08:31:00 08:31:30", "D 08:40:00"]
    assert message[1:3] == [
        "  route R, A to D: 3 departures replaced by 4, copies of trip R1 (4 calls, 00:20:00)",
        "  route R, D to A: 1 departure replaced by 4, copies of trip S1 (4 calls, 00:20:00)",
    ]
    services = {row["trip_id"]: row["service_id"] for row in rows(small, "out/trips.txt")}
    assert services["R1#4"] == "M"  # whose days are those of W too


def test_only_the_trips_of_a_period_and_of_a_direction_give_way(small: Room) -> None:
    arguments = 'route = "R"\ndirection = 0\nservice = "M"\nevery = 900\nfrom = "08:20"\nto = "09:00"'
    feed, _ = made(small, f'do = "headway"\n{arguments}')
    assert sorted(feed) == ["Q1", "R1", "R2#1", "R2#2", "R2#3", "R3", "S1"]
    assert [feed[f"R2#{number}"][0] for number in (1, 2, 3)] == ["A 08:20:00", "A 08:35:00", "A 08:50:00"]


def test_departures_by_headways_give_way_too(small: Room) -> None:
    """Q1 leaves at 7:40, 7:50, .. 8:50 by its headways; from 8:00 to 8:30 three of them give way to two."""
    small.write("feed/frequencies.txt", "trip_id,start_time,end_time,headway_secs", [["Q1", "7:40:00", "8:55:00", 600]])
    feed, message = made(small, 'do = "headway"\nroute = "Q"\nevery = 900\nfrom = "08:00"\nto = "08:30"')
    assert feed["Q1#2"] == ["A 08:15:00", "D 08:45:00"] and "Q1" in feed
    found = [[row["trip_id"], row["start_time"], row["end_time"]] for row in rows(small, "out/frequencies.txt")]
    assert found == [["Q1", "07:40:00", "07:50:01"], ["Q1", "08:30:00", "08:50:01"]]
    assert "3 departures replaced by 2, copies of trip Q1" in message[1]


def test_run_times_by_a_factor_add_up_without_drift(small: Room) -> None:
    """Run times 300, 330 and 510 seconds: times 0.855 they add up to 256.5, 538.65 and 974.7, so 257, 539 and 975."""
    feed, _ = made(small, 'do = "speed"\nroute = "R"\nfactor = 0.855')
    assert feed["R1"] == ["A 08:00:00", "B 08:04:17 08:04:47", "C 08:09:29 08:09:59", "D 08:17:15"]
    assert feed["Q1"] == ["A 08:00:00", "D 08:30:00"]


def test_run_times_between_two_stops_and_dwell_times(small: Room) -> None:
    """From B to C 330 seconds become 165; all later times move along."""
    feed, printed = made(small, 'do = "speed"\nroute = "R"\nfrom_stop = "B"\nto_stop = "C"\nfactor = 0.5')
    assert feed["R1"] == ["A 08:00:00", "B 08:05:00 08:05:30", "C 08:08:15 08:08:45", "D 08:17:15"]
    assert feed["S1"][1] == "C 08:19:00 08:19:30" and printed[0].startswith("new: 1 speed R: trips 3 changed;")
    (small.folder / "out").rename(small.folder / "before")
    feed, _ = made(small, 'do = "speed"\nroute = "R"\ndwell = -20')
    assert feed["R1"] == ["A 08:00:00", "B 08:05:00 08:05:10", "C 08:10:40 08:10:50", "D 08:19:20"]


def test_a_route_goes_on_and_begins_earlier(small: Room) -> None:
    actions = [
        'do = "extend"\nroute = "Q"\nafter = "D"\nstops = ["C", "N"]\nseconds = [100, 200]\ndwell = 15',
        'do = "extend"\nroute = "Q"\nbefore = "A"\nstops = ["C", "B"]\nseconds = [60, 90]\ndwell = 10',
    ]
    feed, _ = made(small, *actions, before=NEW_STOP)
    assert feed["Q1"] == [
        "C 07:57:10",
        "B 07:58:10 07:58:20",
        "A 07:59:50 08:00:00",
        "D 08:30:00 08:30:15",
        "C 08:31:55 08:32:10",
        "N 08:35:30",
    ]
    found = [row for row in rows(small, "out/stop_times.txt") if row["trip_id"] == "Q1"]
    assert {(row["pickup_type"], row["drop_off_type"]) for row in found} == {("", "")}  # boarding is allowed


def test_a_route_ends_earlier_and_begins_later(small: Room) -> None:
    feed, _ = made(
        small,
        'do = "cut"\nroute = "R"\ndirection = 0\nafter = "C"',
        'do = "cut"\nroute = "R"\npattern = "S1"\nbefore = "C"',
        'do = "remove_route"\nroute = "Q"',
    )
    assert feed["R1"] == R1[:3] and feed["S1"] == ["C 08:19:00 08:19:30", "B 08:25:00 08:25:30", "A 08:30:00"]


def test_a_trip_that_ends_elsewhere_has_another_headsign(small: Room) -> None:
    trips = [["R", "M", "R1", 0, "Delta"], ["R", "M", "R2", 0, ""], ["Q", "M", "Q1", 0, "Delta"]]
    small.write("feed/trips.txt", "route_id,service_id,trip_id,direction_id,trip_headsign", trips)
    times = [row for row in rows(small, "feed/stop_times.txt") if row["trip_id"] in ("R1", "R2", "Q1")]
    heads = "trip_id,arrival_time,departure_time,stop_id,stop_sequence,pickup_type,drop_off_type"
    calls_with = [[*time.values(), "Delta"] for time in times]
    small.write("feed/stop_times.txt", f"{heads},stop_headsign", calls_with)
    made(small, 'do = "cut"\nroute = "R"\nafter = "B"')
    signs = {row["trip_id"]: row["trip_headsign"] for row in rows(small, "out/trips.txt")}
    assert signs == {"R1": "Beta", "R2": "", "Q1": "Delta"}
    stop_signs = {(row["trip_id"], row["stop_headsign"]) for row in rows(small, "out/stop_times.txt")}
    assert stop_signs == {("R1", ""), ("R2", ""), ("Q1", "Delta")}


def test_copies_of_routes_have_the_fare_rules_of_their_routes(small: Room) -> None:
    small.write("feed/fare_rules.txt", "fare_id,route_id", [["one", "R"], ["two", "Q"], ["all", ""]])
    plan = plan_of(small, 'do = "cut"\nroute = "R"\nafter = "B"')
    assert small.ran("scenarios", small.path("feed"), plan, "--out", small.path("out"))[2] == 0
    found = [(row["fare_id"], row["route_id"]) for row in rows(small, "out/fare_rules.txt")]
    assert found == [("one", "R"), ("two", "Q"), ("all", ""), ("one", "R@new")]


def test_the_agency_of_a_new_line_is_told(small: Room) -> None:
    small.write("feed/routes.txt", "route_id,agency_id,route_type", [["R", "City", 3], ["Q", "Other", 3]])
    line = 'do = "add_line"\nroute = "N"\nstops = ["A", "B"]\nseconds = [60]\ndays = "daily"\n'
    line += 'departures = [{ first = "08:00", last = "08:00", every = 60 }]'
    assert "  route N: agency City" in made(small, line)[1]


def test_an_action_that_is_none_is_told_with_all_that_there_are(small: Room) -> None:
    plan = plan_of(small, 'do = "frequency"')
    _, errors, status = small.ran("scenarios", small.path("feed"), plan, "--out", small.path("out"))
    actions = "remove_route, remove_mode, remove_trip, remove_stop, shift_route, shift_trip, add_line, headway, speed"
    actions += ", extend, cut"
    assert status == 1 and sorted(errors.partition("allowed: ")[2].strip().split(", ")) == sorted(actions.split(", "))


def test_headways_move_with_the_first_stop(small: Room) -> None:
    """R1 leaves A at 7:00, 7:30, .. by its headways, and so B 5 minutes 30 seconds later."""
    small.write(
        "feed/frequencies.txt", "trip_id,start_time,end_time,headway_secs", [["R1", "7:00:00", "8:00:00", 1800]]
    )
    made(small, 'do = "cut"\nroute = "R"\npattern = "R1"\nbefore = "B"', 'do = "shift_trip"\ntrip = "R1"\nseconds = 60')
    (row,) = rows(small, "out/frequencies.txt")
    assert (row["trip_id"], row["start_time"], row["end_time"]) == ("R1", "07:06:30", "07:36:31")


TWO = """[[scenario]]
name = "late"
[[scenario.action]]
do = "shift_route"
route = "R"
seconds = 60
[[scenario.action]]
do = "remove_trip"
trip = "R3"
[[scenario]]
name = "fast"
[[scenario.action]]
do = "speed"
route = "Q"
factor = 0.5
"""


def test_the_feed_of_all_scenarios_has_files_that_take_out_what_each_has_not(small: Room) -> None:
    (small.folder / "plan.toml").write_text(TWO)
    before = {path.name: path.read_bytes() for path in (small.folder / "feed").iterdir()}
    out, _, status = small.ran("scenarios", small.path("feed"), small.path("plan.toml"), "--out", small.path("out"))
    files = [f"{small.path('out')}/scenarios/{name}.csv" for name in ("today", "late", "fast")]
    assert (out, status) == (" ".join(["--feed", small.path("out"), *files]) + "\n", 0)
    assert (small.folder / "out" / "scenarios.words").read_text() == out
    for name, whole in before.items():
        assert (small.folder / "out" / name).read_bytes().startswith(whole)  # the feed as it is, and what is new behind
    assert [(small.folder / path).read_text() for path in files] == [
        "action,id,seconds\nremove_route,Q@fast,\n",
        "action,id,seconds\nremove_trip,R3,\n"
        "shift_trip,R1,60\nshift_trip,R2,60\nshift_trip,S1,60\nremove_route,Q@fast,\n",
        "action,id,seconds\nremove_route,Q,\n",
    ]
    assert calls(small, "out")["Q1@fast"] == ["A 08:00:00", "D 08:15:00"]
    assert rows(small, "out/changes.csv")[-1] == {
        **{"scenario": "fast", "action": "1", "line": "12", "do": "speed", "what": "changed", "trip": "Q1"},
        **{"now": "Q1@fast", "route": "Q", "seconds": ""},
    }
    assert [row["line"] for row in rows(small, "out/actions.csv")] == ["3", "7", "12"]


def test_shapes_are_cut_and_go_on(small: Room) -> None:
    trips = [["R", "M", trip, 0, "s"] for trip in ("R1", "R2", "R3")] + [
        ["R", "M", "S1", 1, ""],
        ["Q", "M", "Q1", 0, ""],
    ]
    small.write("feed/trips.txt", "route_id,service_id,trip_id,direction_id,shape_id", trips)
    bent = [["s", 50.001, 8.0, 1], ["s", 50.002, 8.014, 2], ["s", 50.003, 8.028, 3], ["s", 50.004, 8.042, 4]]
    small.write("feed/shapes.txt", "shape_id,shape_pt_lat,shape_pt_lon,shape_pt_sequence", bent)
    actions = [
        'do = "cut"\nroute = "R"\ndirection = 0\nafter = "C"',
        'do = "extend"\nroute = "R"\ndirection = 0\nafter = "C"\nstops = ["N"]\nseconds = [60]',
        'do = "remove_route"\nroute = "Q"',
    ]
    made(small, *actions, before=NEW_STOP)
    found = [list(row.values()) for row in rows(small, "out/shapes.txt") if row["shape_id"] != "s"]
    line = [["50.001000", "8.000000"], ["50.002000", "8.014000"], ["50.003000", "8.028000"], ["50.010000", "8.014000"]]
    assert found == [["R-1", *place, str(number)] for number, place in enumerate(line, 1)]
    assert {row["shape_id"] for row in rows(small, "out/trips.txt")} == {"R-1", ""}


T1, T2 = ["A 08:00:00", "B 08:10:00"], ["B 08:15:00", "C 08:30:00"]
LINE = """do = "add_line"
route = "L"
stops = ["A", "B", "C"]
seconds = [300, 400]
dwell = 20
departures = [{ first = "08:00", last = "08:10", every = 600 }]
days = "daily\""""
ON = 'do = "extend"\nroute = "R1"\nafter = "B"\nstops = ["C"]\nseconds = [600]\ndwell = 30'
EXAMPLES: list[tuple[list[str], dict[str, list[str]]]] = [
    (['do = "remove_route"\nroute = "R2"'], {"T1": T1}),
    (['do = "remove_trip"\ntrip = "T2"'], {"T1": T1}),
    (['do = "remove_stop"\nstop = "C"'], {"T1": T1}),
    (['do = "shift_trip"\ntrip = "T1"\nseconds = 300'], {"T1": ["A 08:05:00", "B 08:15:00"], "T2": T2}),
    (
        [LINE],
        {
            **{"T1": T1, "T2": T2, "L-0#1": ["A 08:00:00", "B 08:05:00 08:05:20", "C 08:12:00"]},
            **{"L-0#2": ["A 08:10:00", "B 08:15:00 08:15:20", "C 08:22:00"]},
            **{"L-1#1": ["C 08:00:00", "B 08:06:40 08:07:00", "A 08:12:00"]},
            **{"L-1#2": ["C 08:10:00", "B 08:16:40 08:17:00", "A 08:22:00"]},
        },
    ),
    (
        ['do = "headway"\nroute = "R2"\nevery = 300\nfrom = "08:10"\nto = "08:20"'],
        {"T1": T1, "T2#1": ["B 08:10:00", "C 08:25:00"], "T2#2": T2},
    ),
    (['do = "speed"\nroute = "R2"\nfactor = 0.85'], {"T1": T1, "T2": ["B 08:15:00", "C 08:27:45"]}),
    ([ON], {"T1": ["A 08:00:00", "B 08:10:00 08:10:30", "C 08:20:30"], "T2": T2}),
    ([ON, 'do = "cut"\nroute = "R1"\nafter = "B"'], {"T1": ["A 08:00:00", "B 08:10:00 08:10:30"], "T2": T2}),
]


@pytest.mark.parametrize("actions, feed", EXAMPLES)
def test_the_examples_of_the_page_for_analysts(room: Room, actions: list[str], feed: dict[str, list[str]]) -> None:
    (room.folder / "feed").mkdir()
    room.write("feed/stops.txt", "stop_id", [["A"], ["B"], ["C"]])
    room.write("feed/routes.txt", "route_id", [["R1"], ["R2"]])
    room.write("feed/calendar.txt", *helpers.CALENDAR)
    room.write("feed/trips.txt", "route_id,service_id,trip_id", [["R1", "M", "T1"], ["R2", "M", "T2"]])
    calls = [(trip, number, *call.split()) for trip, way in (("T1", T1), ("T2", T2)) for number, call in enumerate(way)]
    times = [[trip, time, time, stop, number] for trip, number, stop, time in calls]
    room.write("feed/stop_times.txt", helpers.STOP_TIMES, times)
    assert made(room, *actions)[0] == feed


FAULTS = [
    (
        'do = "remove_rout"\nroute = "R"',
        "line 4: do 'remove_rout' is not an action; the nearest is 'remove_route'; allowed: "
        "remove_route, remove_mode, remove_trip, remove_stop, shift_route, shift_trip, add_line, headway, speed, "
        "extend, cut",
    ),
    ('do = "remove_route"\nroutes = "R"', "line 5: routes isn't known; the nearest is 'route'; allowed: do, route"),
    (
        'do = "remove_route"\n\nroute = "13"',
        "line 6: route '13' is not a route of the feed or of the scenario; the nearest is 'R', which has this name",
    ),
    ('do = "remove_trip"\ntrip = "R11"', "line 5: trip 'R11' is not a trip of the feed; the nearest is 'R1'"),
    (
        'do = "remove_stop"\nstop = "Delta"',
        "line 5: stop 'Delta' is not a stop of the feed or of the plan; the nearest is 'D', which has this name",
    ),
    (
        'do = "shift_trip"\ntrip = "R1"\nseconds = -30000',
        "line 4: do 'shift_trip' trip R1 would be under way at -00:20:00; times go from 0:00:00 to 167:59:59",
    ),
    ('do = "shift_route"\nroute = "R"\nseconds = 0', "line 6: seconds '0' changes nothing"),
    (
        'do = "speed"\nroute = "R"\ndwell = -40',
        "line 4: do 'speed' makes times of trip R1 go back",
    ),
    ('do = "speed"\nroute = "R"\nfactor = 1.0', "line 6: factor changes no time"),
    (
        'do = "speed"\nroute = "R"\nfactor = "1"',
        "line 6: factor '1' is invalid; allowed: a number from 0 to 100, with at most six decimals",
    ),
    (
        'do = "speed"\nroute = "Q"\nfrom_stop = "B"\nfactor = 2',
        "line 6: from_stop no trip of the route calls there and later at to_stop",
    ),
    (
        'do = "headway"\nroute = "R"\nevery = 600\nfrom = "9:00"\nto = "08:00"',
        "line 8: to '08:00:00' isn't after from, 09:00:00",
    ),
    (
        'do = "headway"\nroute = "Q"\ntimes = 2\nfrom = "08:00"\nto = "09:00"',
        "line 6: times adds no departure between 08:00:00 and 09:00:00",
    ),
    (
        'do = "headway"\nroute = "R"\nevery = 600\ntimes = 2\nfrom = "08:00"\nto = "09:00"',
        "line 7: times is given together with every; allowed: one of every, times",
    ),
    (
        'do = "headway"\nroute = "R"\nevery = 600\nfrom = "9:60"\nto = "10:00"',
        "line 7: from '9:60' is not a time; allowed: HH:MM or HH:MM:SS, from 00:00 to 167:59:59",
    ),
    (
        'do = "extend"\nroute = "R"\nafter = "C"\nstops = ["B"]\nseconds = [1]',
        "line 6: after 'C' is not a stop at which trips of the route end",
    ),
    (
        'do = "extend"\nroute = "R"\nafter = "D"\nstops = ["B"]\nseconds = [1, 2]',
        "line 8: seconds '[1, 2]' is invalid; allowed: 1 whole number in brackets, 0 to 86,400",
    ),
    ('do = "cut"\nroute = "Q"\nafter = "C"', "line 6: after 'C' leaves all trips of the route as they are"),
    (
        'do = "cut"\nroute = "Q"\nafter = "D"\nbefore = "D"',
        "line 7: before is given together with after; allowed: one of after, before",
    ),
    (
        'do = "add_line"\nroute = "Q"\nstops = ["A", "B"]',
        "line 5: route 'Q' is already a route",
    ),
    (
        'do = "add_line"\nroute = "R@new"\nstops = ["A", "B"]',
        "line 5: route 'R@new' can't be the name of a new route: a scenario's name follows an @",
    ),
    ('name = "x"', "line 3: do needed"),
    (
        'do = "headway"\nroute = "R"\ntimes = 2',
        'line 3: from needed; from = "00:00", to = "30:00" takes the whole day',
    ),
    (
        'do = "headway"\nroute = "R"\ntimes = 2\nfrom = "00:00"',
        'line 3: to needed; from = "00:00", to = "30:00" takes the whole day',
    ),
    ('do = "headway"\nroute = "R"\nevery = 600', "line 3: from needed"),
]


@pytest.mark.parametrize("action, message", FAULTS)
def test_what_a_plan_can_not_mean_is_told_with_its_line(small: Room, action: str, message: str) -> None:
    plan = plan_of(small, action)
    small.refused(f"{plan}: {message}", "scenarios", small.path("feed"), plan, "--out", small.path("out"))


def test_plans_that_are_none(small: Room) -> None:
    plan, one = (
        small.folder / "plan.toml",
        '[[scenario]]\nname = "{}"\n[[scenario.action]]\ndo = "remove_route"\nroute = "R"\n',
    )
    allowed = "at most 100 bytes, no dot or space in front, none of / \\ @ # , and quotes; base and today are taken"
    for text, printed in (
        (
            "[[scenario]\n",
            ": is not a TOML file: Expected ']]' at the end of an array declaration (at line 1, column 11)",
        ),
        ("# nothing\n", ": line 1: scenario needed"),
        ("[[szenario]]\n", ": line 1: szenario isn't known; the nearest is 'scenario'; allowed: scenario, stop"),
        ('[[scenario]]\nname = "x"\n', ": line 1: action needed"),
        (one.format("today"), f": line 2: name 'today' can't be a scenario's name; allowed: {allowed}"),
        (one.format("a/b"), f": line 2: name 'a/b' can't be a scenario's name; allowed: {allowed}"),
        (2 * one.format("x"), ": line 7: name 'x' occurs twice"),
        (
            "".join(one.format(f"s{number}") for number in range(15)),
            ": line 72: name 's14' is scenario 15; ttm takes 14 in addition to base and today",
        ),
        (one.format("x") + '[[stop]]\nid = "A"\n', ": line 7: id 'A' already exists"),
    ):
        plan.write_text(text)
        small.refused(f"{plan}{printed}", "scenarios", small.path("feed"), str(plan), "--out", small.path("out"))
    plan.write_text(one.format("x"))
    arguments = ["scenarios", small.path("feed"), str(plan), "--out", small.path("out")]
    small.refused(f"{plan}: no scenario y", *arguments, "--only", "y")
    Path(small.path("feed/stop_times.txt")).write_text("trip_id,stop_id,stop_sequence\nR1,X,1\n")
    printed = (
        "2 errors, the first: stop_times.txt: record 2: unknown stop (ttm-tools prepare reports and repairs errors)"
    )
    small.refused(f"{small.path('feed')}: {printed}", *arguments)


def test_lines_are_counted_past_comments_and_long_texts(small: Room) -> None:
    text = '# [[scenario]]\n[[scenario]]\nname = """\\\n  new"""\n[[ scenario.action ]]\n'
    text += '"do" = "cut" # [\nroute = [\n "R",\n]\nafter = "X"\n'
    Path(small.path("plan.toml")).write_text(text)
    message = f"{small.path('plan.toml')}: line 10: after 'X' is not a stop of the feed or of the plan"
    small.refused(message, "scenarios", small.path("feed"), small.path("plan.toml"), "--out", small.path("out"))


def test_today_is_the_base_and_what_has_everything_is_left_out(town: Town) -> None:
    """Of three scenarios, as a run with the files of a plan prints them; `--base base` compares with it too."""
    today: list[Cell] = [0, 300, 900, ""]
    town.matrix(
        town_matrix(True, {"base": {"A": [0, 1, 2, 3]}, "today": {"A": today}, "tram": {"A": [0, 200, 900, 800]}})
    )
    out, errors, status = town.ran("compare", town.file)
    assert (read(out)[0]["what"], errors.split(":")[0], status) == ("new", "tram compared with today", 0)
    errors = town.ran("compare", "--base", "base", "--scenario", "tram", town.file)[1]
    assert errors.startswith("tram compared with base")
    left = f"{town.file}: base, which has the trips of all scenarios at once, is left out\n"
    out, errors, _ = town.ran("long", town.file)
    assert (list(dict.fromkeys(row["scenario"] for row in read(out))), errors) == (["today", "tram"], left)
    assert town.ran("long", "--scenario", "base", town.file)[1] == ""
    pytest.importorskip("h5py")
    assert town.ran("omx", "--out", town.path("m.omx"), town.file)[1] == left
    out, errors, _ = town.ran("compare", town.path("m.omx"))
    assert (read(out)[0]["what"], errors.split(":")[0]) == ("new", "tram compared with today")
    jobs = town.write("jobs.csv", "stop_id,jobs", [["A", 7], ["D", 8]])
    out, errors, _ = town.ran("access", "--opportunities", jobs, town.file)
    assert ([row["scenario"] for row in read(out)], errors) == (["today", "tram"], left)
    Path(town.path("access.csv")).write_text(out)
    out, _, _ = town.ran("equity", town.path("access.csv"), "--people", town.write("p.csv", "id,all", [["A", 3]]))
    assert [(row["scenario"], row["mean"]) for row in read(out)] == [("today", "7"), ("tram", "15")]


def test_walks_that_bring_old_stops_nearer_are_told(small: Room) -> None:
    """From A to B by way of N 590 seconds; straight lines and these three sides of a triangle bring nothing nearer."""
    line = 'do = "add_line"\nroute = "T"\nstops = ["A", "N"]\nspeed = 30\nservice = "M"'
    made(small, f'{line}\ndepartures = [{{ first = "8:00", last = "8:00", every = 60 }}]', before=NEW_STOP)
    message = f"{small.path('out/footpaths.csv')}: {{}} footpaths; {{}}\n"
    assert small.ran("walks", "--limit", "3000", small.path("out"))[1] == message.format(
        20, "0 stops without coordinates"
    )
    table = [["A", "N", 290], ["N", "B", 300], ["A", "B", 590], ["B", "A", 600]]
    small.write("walks.csv", "from_stop_id,to_stop_id,seconds", table)
    arguments = ["walks", "--table", small.path("walks.csv"), small.path("out")]
    assert small.ran(*arguments)[1] == message.format(4, "0 times with decimals rounded up")
    small.write("walks.csv", "from_stop_id,to_stop_id,seconds", [*table[:2], ["A", "B", 591], ["B", "A", 600]])
    nearer = (
        "walks to new stops bring 1 pair of old stops nearer to each other, so today differs from the feed: A and B, "
    )
    assert small.ran(*arguments)[1].splitlines()[1] == f"{nearer}590 seconds apart by way of them, and 591 without them"
    small.write("walks.csv", "from_stop_id,to_stop_id,seconds", [*table[:2], ["B", "A", 600]])
    assert small.ran(*arguments)[1].endswith("590 seconds apart by way of them, and out of reach without them\n")


@pytest.fixture
def with_new_stop(small: Room) -> Room:
    """The feed `out` with a new stop N, and walks by way of which A and B are 590 seconds apart."""
    line = 'do = "add_line"\nroute = "T"\nstops = ["A", "N"]\nspeed = 30\nservice = "M"'
    made(small, f'{line}\ndepartures = [{{ first = "8:00", last = "8:00", every = 60 }}]', before=NEW_STOP)
    small.write("walks.csv", "from_stop_id,to_stop_id,seconds", [["A", "N", 290], ["N", "B", 300]])
    return small


NEARER = (
    "walks to new stops bring 1 pair of old stops nearer to each other, so today differs from the feed: "
    "A and B, 590 seconds apart"
)


def test_walks_that_bring_old_stops_nearer_are_told_in_python(with_new_stop: Room, program: str) -> None:
    """Where single walks end before the run's do: 300 seconds and 600."""
    ends = ("08:00", "08:00")
    arguments: dict[str, Any] = {"footpaths": with_new_stop.path("walks.csv"), "program": program}
    with pytest.warns(UserWarning, match=NEARER):
        found = ttm_tools.matrix(with_new_stop.path("out"), "20260504", ends, walk=600, **arguments)
    assert found.times().loc["A", "B"] == 300  # by the bus; on foot it takes 590
    with warnings.catch_warnings():
        warnings.simplefilter("error")
        ttm_tools.matrix(with_new_stop.path("out"), "20260504", ends, walk=589, **arguments)


def test_walks_that_bring_old_stops_nearer_are_told_by_explain(with_new_stop: Room, program: str) -> None:
    arguments = ["--origin", "A", "--destination", "B", "--date", "20260504", "--from", "08:00", "--to", "08:00"]
    arguments += ["--footpaths", with_new_stop.path("walks.csv"), "--program", program]
    _, errors, status = with_new_stop.ran("explain", with_new_stop.path("out"), *arguments)
    assert status == 0 and errors.startswith(NEARER), errors


def test_walks_that_bring_old_stops_nearer_are_told_by_points(
    with_new_stop: Room, monkeypatch: pytest.MonkeyPatch
) -> None:
    """Walks of an engine that finds no way from A to B but by way of N."""
    places = np.array([[0, 4, 290], [4, 1, 300], [5, 0, 10]])  # A, B, C, D, N and the point P
    names = ["A", "B", "C", "D", "N", "P"]
    monkeypatch.setattr(
        "ttm_tools.streets.walks.walks_of", lambda *_: Walks(names, places[:, 0], places[:, 1], places[:, 2], 0)
    )
    points = with_new_stop.write("points.csv", "id,lat,lon", [["P", 50.0, 8.0]])
    arguments = ["points", with_new_stop.path("out"), points, "--out", with_new_stop.path("doors"), "--limit", "590"]
    _, errors, status = with_new_stop.ran(*arguments)
    assert status == 0 and errors.splitlines()[-1].startswith(NEARER), errors


def test_limits_of_ttm_are_told_before_anything_is_written(small: Room, monkeypatch: pytest.MonkeyPatch) -> None:
    (small.folder / "plan.toml").write_text(TWO)
    plan = small.path("plan.toml")
    arguments = ["scenarios", small.path("feed"), plan, "--out", small.path("out")]
    for name, most, printed in (
        ("limits.MOST_TRIPS", 5, ": the feed of all scenarios would have 6 trips, and ttm takes 5: {}"),
        ("limits.MOST_EVENTS", 19, ": the feed of all scenarios would have 20 stop times, and ttm takes 19: {}"),
        (
            "scenario_files.MOST_RECORDS",
            4,
            ": line 2: name 'late' takes a scenario file of 5 records, and ttm 4: change fewer trips, or whole routes",
        ),
        ("base.MOST_STOPS", 4, ": line 17: id makes 5 stops and stations; ttm takes 4"),
    ):
        (small.folder / "plan.toml").write_text(TWO + NEW_STOP * name.endswith("STOPS"))
        with monkeypatch.context() as patch:
            patch.setattr(f"ttm_tools.plans.{name}", most)
            small.refused(plan + printed.format("use fewer scenarios, or change fewer trips"), *arguments)


def test_what_a_day_of_all_scenarios_has_is_told(small: Room, monkeypatch: pytest.MonkeyPatch) -> None:
    """On Monday run all five trips and another one of Q, with 20 calls, on Tuesday and Wednesday all but R3."""
    (small.folder / "plan.toml").write_text(TWO)
    what = "all scenarios together: at most 6 runs with 20 stop times on a day (2026-05-04)"
    more = "with the day before and after {}: use --back 0 --ahead 0, since ttm takes 1,000,000 and 20"
    for most, printed in (
        (60, what),
        (20, f"{what}; {more.format('16 runs with 52')}"),
        (19, f"{what}, and ttm takes 1,000,000 and 19: use fewer scenarios, or change fewer trips"),
    ):
        with monkeypatch.context() as patch:
            patch.setattr("ttm_tools.plans.limits.MOST_EVENTS", most)
            patch.setattr("ttm_tools.plans.make.refuse_limits", lambda *_: None)
            out = small.path(f"out{most}")
            lines = small.ran("scenarios", small.path("feed"), small.path("plan.toml"), "--out", out)[1].splitlines()
        assert lines[-1] == printed


@pytest.mark.parametrize("seed", range(4))
def test_whatever_is_damaged_is_told_in_a_line(small: Room, seed: int) -> None:
    draw, statuses = random.Random(seed), set()
    line = 'do = "add_line"\nroute = "T"\nstops = ["A", "N"]\nspeed = 30\nservice = "M"\n'
    line += 'departures = [{ first = "8:00", last = 9:00:00, every = 600 }]'
    headway = 'do = "headway"\nroute = "R"\nevery = 600\nfrom = "08:00"\nto = "09:00"'
    small.write(
        "feed/frequencies.txt", "trip_id,start_time,end_time,headway_secs", [["R1", "7:00:00", "8:00:00", 1800]]
    )
    plan_of(small, line, headway, 'do = "speed"\nroute = ["Q", "R"]\nfactor = 0.9', before=NEW_STOP)
    names = ["plan.toml"] * 5 + [f"feed/{path.name}" for path in (small.folder / "feed").iterdir()]
    for _ in range(15):
        name = draw.choice(names)
        whole = (small.folder / name).read_bytes()
        (small.folder / name).write_bytes(damaged(draw, whole))
        before = small.names()
        _, errors, status = small.ran(
            "scenarios", small.path("feed"), small.path("plan.toml"), "--out", small.path("out")
        )
        assert status in (0, 1), errors
        assert status == 0 or len(errors.splitlines()) == 1 and small.names() == before, errors
        statuses.add(status)
        shutil.rmtree(small.folder / "out", ignore_errors=True)
        (small.folder / name).write_bytes(whole)
    assert 1 in statuses


def test_the_journey_behind_a_cell_of_a_scenario_beside_today(small: Room, program: str) -> None:
    """From A to D at 8:00 half an hour by Q, or 20 minutes by R1; a fast Q takes 15."""
    (small.folder / "plan.toml").write_text(TWO)
    small.ran("scenarios", small.path("feed"), small.path("plan.toml"), "--out", small.path("out"))
    files = [small.path(f"out/scenarios/{name}.csv") for name in ("today", "fast")]
    arguments = ["--origin", "A", "--destination", "D", "--date", "20260504", "--from", "08:00", "--to", "08:00"]
    out, errors, status = small.ran("explain", small.path("out"), *files, *arguments, "--program", program)
    assert (errors, status) == ("", 0)
    (heads,) = [line for line in out.splitlines() if line.startswith("today: ")]
    assert heads.split() == ["today:", "1200", "seconds", "fast:", "900", "seconds"]


def test_help_and_the_page_list_the_actions_that_there_are(small: Room) -> None:
    page = Path(__file__).resolve().parents[2] / "docs/reference/plan-file.md"
    assert markdown_table() in page.read_text()
    out, _, status = small.ran("scenarios", "--help")
    assert status == 0 and help_table() in out
    assert all(callable(action.carry_out()) for action in LISTED)
    assert len({action.name for action in LISTED}) == len(LISTED)


def test_departures_are_added_day_by_day(small: Room) -> None:
    """M leaves A at 8:00, 8:20 and 9:20 on weekdays; on Mondays W leaves at 9:00 too."""
    path = small.folder / "feed" / "stop_times.txt"
    small.write(
        "feed/trips.txt",
        "route_id,service_id,trip_id,direction_id",
        [["R", "M", "R1", 0], ["R", "M", "R2", 0], ["R", "W", "R3", 0], ["R", "M", "R4", 0]],
    )
    lines = [line for line in path.read_text().splitlines() if not line.startswith(("Q1", "S1"))]
    path.write_text(
        "\n".join([*lines, f"R4,{clock(560)},{clock(560)},A,1,0,0", f"R4,{clock(580)},{clock(580)},D,2,0,0", ""])
    )
    made(small, 'do = "headway"\nroute = "R"\ndirection = 0\ntimes = 2\nfrom = "08:00"\nto = "09:20"')
    days = {row["service_id"]: row for row in rows(small, "out/calendar.txt")}
    dates = [
        (row["service_id"], row["date"])
        for row in rows(small, "out/calendar_dates.txt")
        if row["exception_type"] == "1"
    ]

    def departures(date: str, weekday: str) -> list[str]:
        on = {name for name, row in days.items() if row[weekday] == "1"} | {name for name, day in dates if day == date}
        trips = {row["trip_id"] for row in rows(small, "out/trips.txt") if row["service_id"] in on}
        return sorted(own[0].split(" ")[1] for trip, own in calls(small, "out").items() if trip in trips)

    # Monday: 8:00, 8:20, 9:00, 9:20, and a departure in the middle of each gap; Tuesday without that at 9:00
    assert departures("20260504", "monday") == [
        f"{time}:00" for time in ("08:00", "08:10", "08:20", "08:40", "09:00", "09:10", "09:20")
    ]
    assert departures("20260505", "tuesday") == [f"{time}:00" for time in ("08:00", "08:10", "08:20", "08:50", "09:20")]


def test_more_departures_than_any_line_has_are_refused(small: Room) -> None:
    line = 'do = "add_line"\nroute = "T"\nstops = ["A", "B"]\nseconds = [60]\ndays = "daily"\n'
    plan = plan_of(small, line + 'departures = [{ first = "00:00", last = "120:00", every = 1 }]')
    _, errors, status = small.ran("scenarios", small.path("feed"), plan, "--out", small.path("out"))
    assert status == 1 and "makes 432,001 departures; allowed: at most 10,000 departures" in errors
    plan = plan_of(small, 'do = "headway"\nroute = "R"\nevery = 1\nfrom = "00:00"\nto = "24:00"')
    _, errors, status = small.ran("scenarios", small.path("feed"), plan, "--out", small.path("out"))
    assert status == 1 and "makes 86,400 departures; allowed: at most 10,000 departures" in errors
