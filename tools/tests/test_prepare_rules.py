"""Feeds that are written: from zip files and folders, as they are or mended by rules."""

import csv
import importlib
import os
import re
import resource
import signal
import subprocess
import sys
import zipfile
from pathlib import Path

import numpy as np
import pytest

from damages import Damaged, damage_stays, right_feed_differs
from helpers import CALENDAR, LAUNCHER, STOP_TIMES, Room, Table
from ttm_tools.gtfs import feeds, tables
from ttm_tools.gtfs.check import check
from ttm_tools.prepare.repair import repair
from ttm_tools.prepare.rules import RULES, help_table

HEAD = "stop_id,stop_name,location_type,parent_station"
STOPS = [["A", "Alpha", "", ""], ["B", "Beta", "", "S"], ["C", "Gamma", "0", ""], ["S", "Square", "1", ""]]
CALLS = [["T", "08:00:00", "08:00:00", "A", 1], ["T", "", "", "B", 2], ["T", "08:10:00", "08:10:00", "C", 3]]


@pytest.fixture
def feed(room: Room) -> Room:
    """A right feed in the folder `in`."""
    (room.folder / "in").mkdir()
    room.write("in/stops.txt", HEAD, STOPS)
    room.write("in/routes.txt", "route_id", [["R"]])
    room.write("in/calendar.txt", *CALENDAR)
    room.write("in/trips.txt", "route_id,service_id,trip_id", [["R", "M", "T"], ["R", "M", "U"]])
    calls = CALLS + [["U", "09:00:00", "09:00:00", "C", 1], ["U", "09:10:00", "09:10:00", "A", 2]]
    room.write("in/stop_times.txt", STOP_TIMES, calls)
    room.write("in/frequencies.txt", "trip_id,start_time,end_time,headway_secs", [["U", "09:00:00", "10:00:00", 600]])
    return room


def written(room: Room, *arguments: str, feed: str = "in") -> list[str]:
    """The lines that report what was done; a repair of only a few records takes much of them."""
    arguments = (*arguments, *(["--allow-loss"] if "--repair" in arguments else []))
    out, errors, status = room.ran("prepare", "--out", room.path("out"), *arguments, room.path(feed))
    assert (out, status) == ("", 0), errors
    return errors.splitlines()


def texts(room: Room, name: str) -> list[str]:
    return (room.folder / "out" / name).read_text().splitlines()


def changes(room: Room) -> list[list[str]]:
    with open(room.path("out/prepared.csv"), newline="") as file:
        return list(csv.reader(file))[1:]


COUNTED = "4 stops and stations, 2 trips, 5 stop times"


def test_a_right_feed_is_copied_with_all_its_files(feed: Room) -> None:
    (feed.folder / "in" / "agency.txt").write_bytes(b"agency_id\r\n\xe9\r\n")
    assert written(feed) == [f"{feed.path('out')}: {COUNTED}"]
    for path in (feed.folder / "in").iterdir():
        assert (feed.folder / "out" / path.name).read_bytes() == path.read_bytes()
    assert texts(feed, "prepared.csv") == ["file,record,column,value,rule,done"]


def test_a_zip_file_with_a_folder_inside_is_taken(feed: Room) -> None:
    with zipfile.ZipFile(feed.path("city.zip"), "w", zipfile.ZIP_DEFLATED) as packed:
        for path in (feed.folder / "in").iterdir():
            packed.write(path, f"city/gtfs/{path.name}")
        packed.writestr("__MACOSX/city/gtfs/._stops.txt", b"x")
        packed.writestr("readme.txt", b"x")
    assert written(feed, feed="city.zip") == [f"{feed.path('out')}: {COUNTED}"]
    assert (feed.folder / "out" / "stops.txt").read_bytes() == (feed.folder / "in" / "stops.txt").read_bytes()


def test_a_folder_with_a_folder_inside_is_taken(feed: Room) -> None:
    (feed.folder / "outer").mkdir()
    (feed.folder / "in").rename(feed.folder / "outer" / "gtfs")
    assert written(feed, feed="outer") == [f"{feed.path('out')}: {COUNTED}"]


def test_what_holds_no_feed_or_several_is_told(feed: Room) -> None:
    for name, members, printed in [
        ("none.zip", ["readme.md"], "no GTFS in it"),
        ("zips.zip", ["a/bus.zip"], "no GTFS in it, but a/bus.zip: unzip it first"),
        (
            "two.zip",
            ["a/stops.txt", "b/stops.txt"],
            "several feeds in it, a and b: give them one by one, without the others in the folder",
        ),
    ]:
        with zipfile.ZipFile(feed.path(name), "w") as packed:
            for member in members:
                packed.writestr(member, b"x")
        feed.refused(f"{feed.path(name)}: {printed}", "prepare", "--out", feed.path("out"), feed.path(name))


def test_a_feed_with_faults_is_refused_without_repair(feed: Room) -> None:
    feed.write("in/routes.txt", "route_id", [["R"], ["R"], [""]])
    hint = "(--check lists all, --repair repairs what its rules cover)"
    message = f"2 errors, the first: routes.txt: record 3: duplicate id {hint}"
    feed.refused(f"{feed.path('in')}: {message}", "prepare", "--out", feed.path("out"), feed.path("in"))


def test_what_is_missing_is_refused_with_repair_too(feed: Room) -> None:
    (feed.folder / "in" / "trips.txt").unlink()
    message = "1 error: trips.txt: missing file (--check lists all; no rule covers them)"
    feed.refused(f"{feed.path('in')}: {message}", "prepare", "--repair", "--out", feed.path("out"), feed.path("in"))


def test_a_folder_that_is_not_empty_is_not_written_to(feed: Room) -> None:
    (feed.folder / "out").mkdir()
    (feed.folder / "out" / "mine").write_bytes(b"")
    message = f"{feed.path('out')}: already exists, and isn't empty"
    feed.refused(message, "prepare", "--out", feed.path("out"), feed.path("in"))


def test_words_that_do_not_go_together(feed: Room) -> None:
    wrong: list[list[str]] = [[], ["--check", "--out", feed.path("out")]]
    for arguments in wrong:
        assert feed.ran("prepare", *arguments, feed.path("in"))[1:] == (
            "ttm-tools prepare: one of --check and --out is needed\n",
            2,
        )


def test_fields_are_mended(feed: Room) -> None:
    stops: Table = [[*STOPS[0][:2], "0.0", ""], *STOPS[1:]]
    feed.write("in/stops.txt", "Stop_ID" + HEAD[7:], stops)
    path = feed.folder / "in" / "stops.txt"
    path.write_bytes(path.read_bytes().replace(b"Alpha", b"Caf\xe9"))
    days: Table = [["M", "1.0", *[1] * 6, "2026-05-04", "20260531"]]
    feed.write("in/calendar.txt", CALENDAR[0], days)
    feed.write("in/trips.txt", "route_id,service_id,trip_id", [["R ", "M", "T"], ["R", " M", "U"]])
    calls: Table = [["T ", "8:0:00", "08:00", "A", "1.0"], ["T", "", "", "\tB", 2], ["T", "x", "08:10:00.5", "C", 3]]
    feed.write("in/stop_times.txt", STOP_TIMES, calls)
    feed.write("in/frequencies.txt", "trip_id,start_time,end_time,headway_secs", [["U", "9:0:0", "10:00:00", "89.2"]])
    written(feed, "--repair")
    assert changes(feed) == [
        ["stops.txt", "1", "stop_id", "Stop_ID", "column", "now stop_id"],
        ["stops.txt", "2", "stop_name", "Café", "text", "now Café"],
        ["stops.txt", "2", "location_type", "0.0", "number", "now 0"],
        ["calendar.txt", "2", "monday", "1.0", "number", "now 1"],
        ["calendar.txt", "2", "start_date", "2026-05-04", "date", "now 20260504"],
        ["trips.txt", "2", "route_id", "R ", "spaces", "now R"],
        ["trips.txt", "3", "service_id", " M", "spaces", "now M"],
        ["stop_times.txt", "2", "trip_id", "T ", "spaces", "now T"],
        ["stop_times.txt", "2", "stop_sequence", "1.0", "number", "now 1"],
        ["stop_times.txt", "2", "arrival_time", "8:0:00", "time", "now 08:00:00"],
        ["stop_times.txt", "2", "departure_time", "08:00", "time", "now 08:00:00"],
        ["stop_times.txt", "3", "stop_id", "\tB", "spaces", "now B"],
        ["stop_times.txt", "4", "departure_time", "08:10:00.5", "time", "now 08:10:00"],
        ["stop_times.txt", "4", "arrival_time", "x", "value", "emptied"],
        ["frequencies.txt", "2", "start_time", "9:0:0", "time", "now 09:00:00"],
        ["frequencies.txt", "2", "headway_secs", "89.2", "number", "now 90"],
    ]
    assert texts(feed, "stop_times.txt")[1:] == ["T,08:00:00,08:00:00,A,1", "T,,,B,2", "T,,08:10:00,C,3"]
    assert texts(feed, "stops.txt")[:2] == [HEAD, "A,Café,0,"]


def test_records_are_left_out(feed: Room) -> None:
    feed.write("in/stops.txt", HEAD, [*STOPS, STOPS[0], ["A", "Other", "", ""], ["", "", "", ""]])
    feed.write("in/trips.txt", "route_id,service_id,trip_id", [["R", "M", "T"], ["Q", "M", "U"]])
    feed.write(
        "in/stop_times.txt", STOP_TIMES, [*CALLS, ["T", "", "", "X", 4], ["V", "", "", "A", 1], ["T", "", "", "C", 2]]
    )
    lines = written(feed, "--repair")
    assert changes(feed) == [
        ["stops.txt", "6", "stop_id", "A", "same", "record left out"],
        ["stops.txt", "7", "stop_id", "A", "duplicate", "record left out"],
        ["stops.txt", "8", "stop_id", "", "identifier", "record left out"],
        ["trips.txt", "3", "route_id", "Q", "unknown", "record left out"],
        ["stop_times.txt", "5", "stop_id", "X", "unknown", "record left out"],
        ["stop_times.txt", "6", "trip_id", "V", "unknown", "record left out"],
        ["stop_times.txt", "7", "stop_sequence", "2", "duplicate", "record left out"],
        ["frequencies.txt", "2", "trip_id", "U", "trip", "record left out"],
    ]
    assert lines[0] == "same: stops.txt: 1 record removed"
    assert texts(feed, "stop_times.txt")[1:] == ["T,08:00:00,08:00:00,A,1", "T,,,B,2", "T,08:10:00,08:10:00,C,3"]


def test_calls_at_stations_are_calls_at_stops(feed: Room) -> None:
    stops = [*STOPS, ["Z", "Zoo", "1", ""], ["D", "Door", "2", "S"], ["P", "Part", "4", "C"]]
    feed.write("in/stops.txt", HEAD, stops)
    named = [["T", "08:00:00", "08:00:00", stop, place] for place, stop in enumerate("SZDP")]
    feed.write("in/stop_times.txt", STOP_TIMES, named)
    written(feed, "--repair")
    assert changes(feed) == [
        ["stops.txt", "6", "location_type", "1", "station", "now 0"],
        ["stop_times.txt", "2", "stop_id", "S", "station", "now B"],
        ["stop_times.txt", "4", "stop_id", "D", "unknown", "record left out"],
        ["stop_times.txt", "5", "stop_id", "P", "station", "now C"],
    ]


def test_times_of_whole_trips(feed: Room) -> None:
    trips = [["R", "M", trip] for trip in "TUVWX"]
    feed.write("in/trips.txt", "route_id,service_id,trip_id", trips)
    calls = [["T", "", "", "A", 0], *CALLS, ["T", "", "", "A", 9]]  # without its first and its last time
    calls += [["U", "", "", "A", 1], ["U", "", "", "B", 2]]  # without any
    calls += [
        ["V", "23:50:00", "23:55:00", "A", 1],
        ["V", "00:05:00", "00:06:00", "B", 2],
        ["V", "", "00:10:00", "C", 3],
    ]
    calls += [["W", "09:00:00", "09:00:00", "A", 1], ["W", "08:59:00", "09:01:00", "B", 2]]
    calls += [["X", "09:00:00", "08:00:00", "A", 1]]
    feed.write("in/stop_times.txt", STOP_TIMES, calls)
    feed.write("in/frequencies.txt", "trip_id,start_time,end_time,headway_secs", [["X", "09:00:00", "10:00:00", 600]])
    written(feed, "--repair")
    assert changes(feed) == [
        ["stop_times.txt", "2", "arrival_time", "", "ends", "record left out"],
        ["stop_times.txt", "6", "arrival_time", "", "ends", "record left out"],
        ["stop_times.txt", "7", "arrival_time", "", "ends", "trip U left out"],
        ["stop_times.txt", "10", "arrival_time", "00:05:00", "midnight", "now 24:05:00"],
        ["stop_times.txt", "10", "departure_time", "00:06:00", "midnight", "now 24:06:00"],
        ["stop_times.txt", "11", "departure_time", "00:10:00", "midnight", "now 24:10:00"],
        ["stop_times.txt", "13", "arrival_time", "08:59:00", "back", "trip W left out"],
        ["stop_times.txt", "14", "arrival_time", "09:00:00", "back", "trip X left out"],
        ["frequencies.txt", "2", "trip_id", "X", "trip", "record left out"],
    ]
    assert texts(feed, "trips.txt")[1:] == ["R,M,T", "R,M,V"]


def test_headways_that_overlap_or_are_empty(feed: Room) -> None:
    rows = [
        ["U", "10:00:00", "11:00:00", 600],
        ["U", "09:00:00", "10:30:00", 600],
        ["T", "09:00:00", "10:00:00", 600],
        ["U", "09:30:00", "10:00:00", 300],
        ["U", "12:00:00", "12:00:00", 300],
    ]
    feed.write("in/frequencies.txt", "trip_id,start_time,end_time,headway_secs", rows)
    written(feed, "--repair")
    assert changes(feed) == [
        ["frequencies.txt", "2", "start_time", "10:00:00", "headway", "now 10:30:00"],
        ["frequencies.txt", "5", "start_time", "09:30:00", "headway", "record left out"],
        ["frequencies.txt", "6", "start_time", "12:00:00", "headway", "record left out"],
    ]


def test_what_was_mended_has_no_faults(tmp_path: Path) -> None:
    for seed in range(300):
        damaged = Damaged(seed)
        damaged.put_into(tmp_path / str(seed))
        feed = feeds.read_feed(tmp_path / str(seed), tmp_path)
        faults = check(feed)
        done = repair(feed)
        assert (seed, check(feed)) == (seed, []) and (done or not faults)


def test_columns_are_written_as_they_are_read(feed: Room, monkeypatch: pytest.MonkeyPatch) -> None:
    monkeypatch.setattr(tables, "ROWS_AT_ONCE", 2)
    feed.write("in/stops.txt", HEAD, [["A", 'Al, "pha"\n', "", "x"], ["B", "", "0", ""], ["C", " ", "", ""]])
    feed.write("in/routes.txt", "route_id", [["R"], ["Q"], ["P"]])
    read = feeds.read_feed(feed.path("in"), feed.folder)
    (feed.folder / "made").mkdir()
    for table in read.tables.values():
        table.source = None
    feeds.write_feed(read, feed.folder / "made")
    for path in (feed.folder / "in").iterdir():
        assert (feed.folder / "made" / path.name).read_bytes() == path.read_bytes()
    read.tables["routes.txt"].put("route_id", np.array([1]), [""])
    feeds.write_feed(read, feed.folder / "made")
    assert (feed.folder / "made" / "routes.txt").read_text() == 'route_id\nR\n""\nP\n'


WAITING = """
import sys, time
sys.path.insert(0, sys.argv[1])
import ttm_tools.prepare.make
from ttm_tools import cli
from ttm_tools.core.signals import unwind_on_signals

def wait(*_):
    print("begun", flush=True)
    time.sleep(600)

ttm_tools.prepare.make.write_feed = wait
unwind_on_signals()
sys.exit(cli.main(["prepare", "--repair", "--out", *sys.argv[2:]]))
"""


def test_an_interruption_leaves_nothing(feed: Room) -> None:
    source = str(Path(LAUNCHER).parent / "src")
    arguments = [sys.executable, "-c", WAITING, source, feed.path("out"), feed.path("in")]
    before, environment = feed.names(), {**os.environ, "TMPDIR": str(feed.folder)}
    ran = subprocess.Popen(arguments, stdout=subprocess.PIPE, stderr=subprocess.PIPE, env=environment)
    assert ran.stdout is not None and ran.stdout.readline() == b"begun\n" and feed.names() != before
    ran.send_signal(signal.SIGTERM)
    assert ran.communicate()[1] == b"ttm-tools prepare: ended by SIGTERM\n"
    assert (ran.returncode, feed.names()) == (143, before)


def test_a_disk_that_is_full_is_told_and_leaves_nothing(feed: Room) -> None:
    arguments = [sys.executable, LAUNCHER, "prepare", "--repair", "--out", feed.path("out"), feed.path("in")]
    feed.write("in/routes.txt", "route_id", [["R"]] * 2)
    before = feed.names()

    def few_bytes() -> None:
        resource.setrlimit(resource.RLIMIT_FSIZE, (60, 60))

    ran = subprocess.run(arguments, capture_output=True, preexec_fn=few_bytes)
    assert (ran.returncode, ran.stdout, feed.names()) == (1, b"", before)
    assert re.fullmatch(rb"ttm-tools prepare: .*: File too large\n", ran.stderr), ran.stderr


@pytest.mark.parametrize("first", range(0, 60, 20))
def test_a_right_feed_gives_the_same_matrix(program: str, tmp_path: Path, first: int) -> None:
    for seed in range(first, first + 20):
        assert right_feed_differs(program, seed, tmp_path) == ""


@pytest.mark.parametrize("first", range(0, 200, 50))
def test_a_mended_feed_is_taken(program: str, tmp_path: Path, first: int) -> None:
    for seed in range(first, first + 50):
        assert damage_stays(program, seed, tmp_path) == ""


def test_each_rule_has_its_function() -> None:
    functions = {rule.apply.partition(".") for rule in RULES}
    modules = {module: importlib.import_module(f"ttm_tools.prepare.{module}") for module, _, _ in functions}
    assert all(callable(getattr(modules[module], function)) for module, _, function in functions)


def test_help_lists_each_rule(feed: Room) -> None:
    out, _, status = feed.ran("prepare", "--help")
    assert status == 0 and help_table() in out
    named = [line.split()[0] for line in help_table().splitlines() if line[2] != " "]
    assert named == [rule.name for rule in RULES]
