"""How commands fail with `--json`: one object with an error of each kind, and the place that it is about."""

import argparse
import importlib.util
import json
import math
import os
import subprocess
import sys
from pathlib import Path

import numpy as np
import pytest

from helpers import LAUNCHER, Room
from json_fields import ERROR, EVERY, assert_fields, failure, values
from test_json import DATE, PLAN, small
from ttm_tools import cli
from ttm_tools.cli import machine
from ttm_tools.core.errors import InputError
from ttm_tools.core.signals import Interrupted
from ttm_tools.places import folder
from ttm_tools.streets import counting

__all__ = ["small"]
PLACE = ("file", "record", "column", "value", "allowed", "limit", "nearest")


def place_of(error: dict[str, object]) -> dict[str, object]:
    """What is known of an error's place."""
    return {name: error[name] for name in PLACE if error[name] is not None}


def test_the_first_error_of_a_feed_has_its_place(small: Room) -> None:
    text = Path(small.path("stop_times.txt")).read_text()
    Path(small.path("stop_times.txt")).write_text(text.replace("8:10:00,8:10:00", "8:10,8:10"))
    error = failure(small, "prepare", "--out", small.path("out"), str(small.folder))
    assert (error["kind"], not os.path.exists(small.path("out"))) == ("input", True)
    assert place_of(error) == values(
        file="stop_times.txt",
        record=3,
        column="arrival_time",
        value="8:10",
        allowed="a time is H:MM:SS, 0:00:00 to 167:59:59",
    )
    first = "2 errors, the first: stop_times.txt: record 3: bad time"
    hint = "--check lists all, --repair repairs what its rules cover"
    assert error["line"] == f"{small.folder}: {first} ({hint})"


def test_a_missing_file_of_a_feed_has_no_record(small: Room) -> None:
    Path(small.path("trips.txt")).unlink()
    error = failure(small, "prepare", "--out", small.path("out"), str(small.folder))
    assert place_of(error) == {"file": "trips.txt", "allowed": "the file has to be there"}


def test_a_date_without_service_names_the_nearest(small: Room) -> None:
    arguments = ["prepare", "--repair", "--out", small.path("out"), "--date"]
    error = failure(small, *arguments, "2026-07-01", str(small.folder))
    assert place_of(error) == {
        "column": "--date",
        "value": "2026-07-01",
        "nearest": "2026-05-31",
        "file": str(small.folder),
    }
    error = failure(small, *arguments, "20260101", str(small.folder))
    assert (error["nearest"], error["value"]) == ("2026-05-04", "2026-01-01")


def test_an_unknown_route_names_the_nearest(small: Room) -> None:
    error = failure(small, "prepare", "--out", small.path("out"), "--routes", "R3", str(small.folder))
    assert place_of(error) == {"file": "routes.txt", "column": "route_id", "value": "R3", "nearest": "R2"}


def test_an_error_of_a_plan_has_its_line(small: Room) -> None:
    plan, out = small.path("plan.toml"), small.path("out")
    Path(plan).write_text(PLAN.replace('"shift_route"', '"shift_rute"'))
    error = failure(small, "scenarios", str(small.folder), plan, "--out", out)
    place = {"file": plan, "record": 10, "column": "do", "value": "shift_rute", "nearest": "shift_route"}
    assert place_of(error) == place | {"allowed": error["allowed"]} and "shift_route" in error["allowed"]
    Path(plan).write_text(PLAN.replace('"R1"', '"r1"'))
    error = failure(small, "scenarios", str(small.folder), plan, "--out", out)
    assert place_of(error) == {"file": plan, "record": 15, "column": "route", "value": "r1", "nearest": "R1"}
    Path(plan).write_text(PLAN)
    error = failure(small, "scenarios", str(small.folder), plan, "--out", out, "--only", "agian")
    assert place_of(error) == {"file": plan, "column": "--only", "value": "agian", "nearest": "again"}


def test_a_bad_number_of_points_has_record_and_column(small: Room) -> None:
    small.write("homes.csv", "id,lat,lon", [["h1", 0, 9], ["h2", "x", 9]])
    error = failure(small, "points", str(small.folder), small.path("homes.csv"), "--out", small.path("out"))
    allowed = "degrees from -90 to 90"
    assert place_of(error) == {
        "file": small.path("homes.csv"),
        "record": 3,
        "column": "lat",
        "value": "x",
        "allowed": error["allowed"],
    }
    assert allowed in error["allowed"]


def test_a_missing_column_is_named(small: Room) -> None:
    small.write("own.csv", "from_stop_id,seconds", [["A", 9]])
    error = failure(small, "walks", "--table", small.path("own.csv"), str(small.folder))
    assert place_of(error) == {"file": small.path("own.csv"), "record": 1, "column": "to_stop_id"}


def test_limits_are_numbers(small: Room, monkeypatch: pytest.MonkeyPatch) -> None:
    monkeypatch.setattr(folder, "MOST_STOPS", 5)
    small.write("homes.csv", "id,lat,lon", [["h1", 0, 9], ["h2", 0, 9]])
    error = failure(small, "points", str(small.folder), small.path("homes.csv"), "--out", small.path("out"))
    assert (error["kind"], error["limit"], error["file"]) == ("input", 5, small.path("homes.csv"))
    monkeypatch.setattr(counting, "MOST_FOOTPATHS", 1)
    error = failure(small, "walks", "--limit", "5000", str(small.folder))
    assert (error["limit"], error["file"]) == (1, small.path("stops.txt"))


def test_an_unknown_stop_or_origin_is_a_value(small: Room) -> None:
    ends = ["--origin", "AA", "--destination", "C", "--from", "08:00", "--to", "08:00"]
    error = failure(small, "explain", str(small.folder), *DATE, *ends)
    place = {"file": small.path("stops.txt"), "column": "stop_id", "value": "AA", "nearest": "A"}
    assert place_of(error) == place
    if importlib.util.find_spec("shapely") is not None:
        words = ["isochrones", "--feed", str(small.folder), "--origin", "AA", "--out", "-", small.path("matrix.csv")]
        error = failure(small, *words)
        assert place_of(error) == {"file": small.path("matrix.csv"), "column": "origin", "value": "AA", "nearest": "A"}


def test_travel_times_that_differ_are_an_error(small: Room) -> None:
    small.write("matrix.csv", "scenario,origin,share,access_1800,D", [["base", "A", 50, 1, 7]])
    words = ["explain", str(small.folder), *DATE, "--from", "08:00", "--to", "08:00", "--origin", "A"]
    error = failure(small, *words, "--destination", "D", "--matrix", small.path("matrix.csv"))
    assert error["line"].startswith("the travel times differ: from A to D, base: ttm has 7 seconds")


@pytest.mark.parametrize(
    "arguments, place",
    [
        (["--date", "2026-5"], {"column": "--date", "value": "2026-5", "allowed": "a date, YYYYMMDD or YYYY-MM-DD"}),
        (["--by", "hour"], {"column": "--by", "value": "hour", "allowed": "direction, route, all, stop"}),
        (["--periods", "8"], {"column": "--periods", "value": "8"}),
        (["--unknown"], {}),
        (["--by"], {"column": "--by"}),
    ],
)
def test_wrong_arguments_are_an_object_too(small: Room, arguments: list[str], place: dict[str, str]) -> None:
    error = failure(small, "service", str(small.folder), *DATE, *arguments, status=2)
    assert error["kind"] == "argument" and error["line"]
    assert place_of(error) == place | ({"allowed": error["allowed"]} if arguments[0] == "--periods" else {})


def test_arguments_without_a_command_name_none(room: Room) -> None:
    out, _, status = room.ran("nothing", "--json")
    found = json.loads(out)
    assert_fields(found, EVERY | {"error": "object"})
    assert (status, found["command"], found["error"]["value"]) == (2, None, "nothing")


def test_arguments_that_exclude_each_other(small: Room) -> None:
    error = failure(small, "prepare", str(small.folder), status=2)
    assert (error["kind"], error["column"]) == ("argument", "--check")
    words = ["explain", str(small.folder), *DATE, "--from", "08:00", "--to", "07:00"]
    error = failure(small, *words, "--origin", "A", "--destination", "C", status=2)
    place = {"column": "--to", "value": "07:00", "allowed": "08:00 or later"}
    assert (error["kind"], place_of(error)) == ("argument", place)


def test_abbreviations_of_older_options_stay() -> None:
    words = ["explain", "feed", *DATE, "--from", "08:00", "--to", "08:00", "--pro", "ttm", "--s", "40", "--a", "0"]
    args = cli.parser_of().parse_args([*words, "--js", "--progre", "json", "--al", "--st", "a.osm"])
    assert (args.program, args.share, args.ahead) == ("ttm", 40, 0)
    assert (args.json, args.progress, args.all_options, args.streets) == (True, "json", True, "a.osm")


def test_options_for_programs_need_json(small: Room) -> None:
    words = ["explain", str(small.folder), *DATE, "--from", "08:00", "--to", "08:00", "--origin", "A"]
    out, said, status = small.ran(*words, "--destination", "C", "--all-options")
    assert (out, said, status) == ("", "ttm-tools explain: --streets and --all-options go with --json\n", 2)


def test_a_package_that_is_missing(small: Room, monkeypatch: pytest.MonkeyPatch) -> None:
    found = importlib.util.find_spec
    monkeypatch.setattr(importlib.util, "find_spec", lambda name: None if name == "pandas" else found(name))
    error = failure(small, "service", str(small.folder), *DATE)
    assert error["kind"] == "dependency" and "has no pandas: apt-get install python3-pandas" in error["line"]


def test_an_output_that_cannot_be_written(small: Room) -> None:
    error = failure(small, "service", str(small.folder), *DATE, "--out", small.path("no/such.csv"))
    assert (error["kind"], os.path.dirname(error["file"])) == ("file", small.path("no"))
    assert error["line"] == f"{error['file']}: No such file or directory"


@pytest.mark.parametrize(
    "fault, kind, status",
    [
        (MemoryError(), "memory", 3),
        (ZeroDivisionError("x"), "internal", 70),
        (Interrupted(15), "interrupted", 143),
        (KeyboardInterrupt(), "interrupted", 130),
        (OSError(28, "No space left on device", "out.csv"), "file", 1),
        (OSError(13, "Permission denied", Path("out.csv")), "file", 1),
        (InputError("a.csv", "is bad").noting(record=7), "input", 1),
    ],
    ids=lambda value: type(value).__name__,
)
def test_whatever_ends_a_command(
    fault: BaseException, kind: str, status: int, capfdbinary: pytest.CaptureFixture[bytes]
) -> None:
    def run(_: argparse.Namespace) -> int:
        print("for people")
        raise fault

    args = argparse.Namespace(command="walks", run=run, json=True, progress=None)
    assert cli.status_of(args) == status
    out, said = capfdbinary.readouterr()
    error = json.loads(out)["error"]
    assert_fields(error, ERROR)
    assert (error["kind"], error["status"]) == (kind, status)
    assert said.decode().splitlines() == ["for people", f"ttm-tools walks: {error['line']}"]
    file = getattr(fault, "filename", getattr(fault, "file", None))
    assert error["file"] == (None if file is None else str(file))


def test_bytes_that_are_no_utf_8_and_gaps_are_valid_json(room: Room) -> None:
    room.stops(("A", 0, 0))
    text = Path(room.path("stops.txt")).read_bytes()
    Path(room.path("stops.txt")).write_bytes(text + b"caf\xe9,,,,\n")
    ran = subprocess.run([sys.executable, LAUNCHER, "walks", str(room.folder), "--json"], capture_output=True)
    assert json.loads(ran.stdout.decode("utf-8"))["without_coordinates"] == ["café"]


def test_values_become_those_of_json() -> None:
    given = {"a": math.nan, "b": np.int64(3), "c": (np.float64(0.5), None, True), "d": {"caf\udce9": b"\xe9"}}
    assert machine.plain(given) == {"a": None, "b": 3, "c": [0.5, None, True], "d": {"café": "é"}}
    assert type(machine.plain(np.int64(3))) is int


def test_a_full_disk_is_no_object(small: Room) -> None:
    with open("/dev/full", "wb") as full:
        words = [sys.executable, LAUNCHER, "service", str(small.folder), *DATE, "--json"]
        ran = subprocess.run(words, stdout=full, stderr=subprocess.PIPE)
    assert ran.returncode == 1
    assert ran.stderr.decode().splitlines()[-1] == "ttm-tools service: output: No space left on device"


def test_warnings_stay_with_an_error(small: Room) -> None:
    """What was said before the command failed is in the object."""
    small.write("homes.csv", "id,lat,lon,people", [["h1", 9, 9, 5], ["h2", 0, 9, 7]])
    (small.folder / "out").mkdir()
    small.write("out/own.csv", "id", [])
    words = ["points", str(small.folder), "--grid", "500", "--people", small.path("homes.csv"), "--out"]
    out, _, status = small.ran(*words, small.path("out"), "--json")
    found = json.loads(out)
    assert (status, found["error"]["line"]) == (1, f"{small.path('out')}: already exists, and isn't empty")
    text = f"{small.path('homes.csv')}: 5 of 12 people are outside all cells"
    assert found["warnings"] == [{"kind": "left out", "text": text, "affected": None}]
