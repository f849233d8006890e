"""Feeds as frames: identifiers keep their bytes, records their numbers; what texts mean; on which days services run."""

import datetime
import os
import subprocess
import sys
from pathlib import Path

import numpy as np
import pytest

from helpers import Room
from ttm_tools.gtfs import columns, fields, reading
from ttm_tools.gtfs.calls import begins_of, calls_of
from ttm_tools.gtfs.feeds import Feed, read_feed, read_files, write_feed
from ttm_tools.gtfs.service_days import days_of, services_on
from ttm_tools.gtfs.tables import joined, no_table, read_table, table_of

NAMES = ["007", "7", " 7", "7 ", 'a "b", c', "B\udce9", "'B\\udce9'", "é", "", "NA", "None", "1e3", "line\nend", "\t"]
TEXT = b"".join(b'"' + name.replace('"', '""').encode("utf-8", "surrogateescape") + b'",x\r\n' for name in NAMES)


@pytest.fixture(params=[0, reading.SMALL], ids=["pandas", "records"])
def file(request: pytest.FixtureRequest, room: Room, monkeypatch: pytest.MonkeyPatch) -> Path:
    """A file that is read by pandas, three records at a time, or record by record."""
    monkeypatch.setattr(reading, "SMALL", request.param)
    monkeypatch.setattr(reading, "ROWS_AT_ONCE", 3)
    (room.folder / "in").mkdir()
    (room.folder / "in" / "routes.txt").write_bytes(b"\xef\xbb\xbfroute_id,more\r\n" + TEXT)
    return room.folder / "in" / "routes.txt"


def test_identifiers_keep_their_bytes_and_records_their_numbers(file: Path) -> None:
    table = read_table("routes.txt", file)
    assert table.texts("route_id") == NAMES
    assert table.records.tolist() == list(range(2, 2 + len(NAMES)))
    table.keep(np.arange(len(NAMES)) % 2 == 1)
    assert (table.texts("route_id"), table.records.tolist()) == (NAMES[1::2], [3, 5, 7, 9, 11, 13, 15])
    table.put("route_id", np.array([1, 2]), ["B\udce9", "'B\\udce9'"])
    assert table.texts("route_id")[:4] == ["7", "B\udce9", "'B\\udce9'", "é"]
    assert (table.text("none", 3), table.rows([0])) == ("", [{"route_id": "7", "more": "x"}])


def test_a_feed_that_changed_is_written_with_the_bytes_of_its_identifiers(file: Path, room: Room) -> None:
    feed = read_feed(file.parent, room.folder)
    feed.tables["routes.txt"].put("more", np.array([0]), ["y"])
    (room.folder / "out").mkdir()
    write_feed(feed, room.folder / "out")
    again = read_table("routes.txt", room.folder / "out" / "routes.txt")
    assert (again.texts("route_id"), again.texts("more")) == (NAMES, ["y", *["x"] * (len(NAMES) - 1)])


def test_tables_are_joined_with_the_columns_of_both() -> None:
    first = table_of("t.txt", ["a", "b"], [{"a": "1", "b": "2"}, {"a": "3"}])
    both = joined(first, table_of("t.txt", ["c", "a"], [{"a": "1", "c": "\udce9"}]))
    assert both.rows() == [
        {"a": "1", "b": "2", "c": ""},
        {"a": "3", "b": "", "c": ""},
        {"a": "1", "b": "", "c": "\udce9"},
    ]
    assert joined(no_table("t.txt"), first) is first and joined(first, no_table("t.txt")) is first


def test_a_column_that_gets_other_names_may_have_fewer() -> None:
    column = columns.coded(["a", "b", "a", "c"])
    renamed = columns.renamed(column, ["x", "y", "x"])
    assert (columns.texts_of(renamed), list(renamed.categories)) == (["x", "y", "x", "x"], ["x", "y"])
    assert columns.positions_of(column, ["c", "a"]).tolist() == [1, -1, 1, 0]
    assert columns.distinct(column, np.array([False, True, True, True])) == ["b", "a", "c"]
    assert columns.repeated(column.codes).tolist() == [False, False, True, False]
    many = columns.coded(map(str, range(300)))  # more texts than a byte has codes
    assert columns.texts_of(columns.behind(column, many))[2:6] == ["a", "c", "0", "1"]


@pytest.mark.parametrize(
    "text, day",
    [
        ("20240229", 20240229),
        (" 20240229 ", 20240229),
        ("19000229", fields.NONE),
        ("20000229", 20000229),
        ("00000229", 229),
        ("00000230", fields.NONE),
        ("20261301", fields.NONE),
        ("2026W011", fields.NONE),
        ("2026-01-01", fields.NONE),
        ("٢٠٢٤٠٢٢٩", fields.NONE),
        ("", fields.EMPTY),
    ],
)
def test_a_date_is_eight_digits_and_a_day_of_the_calendar(text: str, day: int) -> None:
    assert fields.date(text) == day


@pytest.fixture
def calendars() -> Feed:
    """M runs on Mondays and Tuesdays of two weeks but the first Tuesday; S on one Sunday, and a Monday both added and
    removed.
    """
    days = dict.fromkeys(fields.WEEKDAYS, "0") | {"monday": "1", "tuesday": " 01"}
    row = {"service_id": "M", "start_date": "20260504", "end_date": "20260517", **days}
    dates = [("M", "20260505", "2"), ("S", "20260510", "1"), ("S", "20260511", "2"), ("S", "20260511", "1")]
    exceptions = [dict(zip(("service_id", "date", "exception_type"), date)) for date in dates]
    tables = {
        "calendar.txt": table_of("calendar.txt", list(row), [row]),
        "calendar_dates.txt": table_of("calendar_dates.txt", list(exceptions[0]), exceptions),
    }
    return Feed("f", tables)


def test_services_run_by_their_calendar_and_its_exceptions(calendars: Feed) -> None:
    first = datetime.date(2026, 5, 3)
    found = [services_on(calendars, first + datetime.timedelta(days=number)) for number in range(15)]
    expected = {1: {"M"}, 7: {"S"}, 8: {"M", "S"}, 9: {"M"}}
    assert found == [expected.get(number, set()) for number in range(15)]
    days = days_of(calendars)
    assert (days.services, days.day(0)) == (["M", "S"], datetime.date(2026, 5, 4))
    listed = [{name for name, runs in zip(days.services, days.runs[:, number]) if runs} for number in range(14)]
    assert listed == found[1:]


def test_calls_are_in_order_with_open_times_between() -> None:
    names = ("trip_id", "stop_id", "stop_sequence", "arrival_time", "departure_time")
    rows = [
        ("U", "A", "1", "", "08:00:00"),
        ("T", "C", "10", "08:30:00", ""),
        ("T", "B", "9", "", ""),
        ("T", "A", "2", "08:00:00", "08:10:00"),
        ("V", "", "1", "08:00:00", "08:00:00"),
    ]
    calls = calls_of(table_of("stop_times.txt", names, [dict(zip(names, row)) for row in rows]), ["T", "U", "V"])
    arrival, departure = calls.filled()
    assert (calls.rows.tolist(), begins_of(calls, 3).tolist()) == ([3, 2, 1, 0], [0, 3, 4, 4])
    assert (arrival.tolist(), departure.tolist()) == ([28800, 30000, 30600, 28800], [29400, 30000, 30600, 28800])


def test_files_of_a_folder_have_the_columns_that_are_read_alone(room: Room) -> None:
    room.write("routes.txt", "route_id,route_color", [["R", "ff0000"]])
    feed = read_files(str(room.folder), ["routes.txt", "calendar.txt"])
    assert {name: table.columns for name, table in feed.tables.items()} == {"routes.txt": ["route_id"]}


def test_walks_start_without_pandas() -> None:
    modules = ("streets.walks", "streets.straight", "places.folder", "plans.nearness", "matrices.parts")
    names = ", ".join(f"ttm_tools.{name}" for name in modules)
    arguments = [sys.executable, "-c", f"import sys, {names}; sys.exit('pandas' in sys.modules)"]
    source = Path(columns.__file__).parents[2]
    assert subprocess.run(arguments, env={**os.environ, "PYTHONPATH": str(source)}).returncode == 0


@pytest.mark.parametrize("content", [b"", b"\n", b"\xef\xbb\xbf", b"\xef\xbb\xbf\r\n\r\n"])
def test_a_file_without_a_record_has_no_columns(content: bytes, tmp_path: Path) -> None:
    path = tmp_path / "stops.txt"
    path.write_bytes(content)
    table = read_table("stops.txt", path)
    assert (table.columns, len(table)) == ([], 0)
