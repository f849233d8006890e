"""How much of a feed a repair leaves; one that removes much of it, or all, ends with status 1."""

import csv
from typing import Sequence

import pytest

from helpers import CALENDAR, STOP_TIMES, Room, Table

DAYS = [1] * 7


@pytest.fixture
def feed(room: Room) -> Room:
    """A right feed of two services in the folder `in`."""
    (room.folder / "in").mkdir()
    room.write("in/stops.txt", "stop_id,stop_name", [[stop, ""] for stop in "ABCDEFGHIJKL"])
    room.write("in/routes.txt", "route_id", [["R"]])
    room.write("in/trips.txt", "route_id,service_id,trip_id", [["R", "M", "T"], ["R", "N", "U"]])
    calls: Table = [
        [trip, f"08:{n:02}:00", f"08:{n:02}:00", stop, n] for trip in "TU" for n, stop in enumerate("ABCDEFGHIJKL")
    ]
    room.write("in/stop_times.txt", STOP_TIMES, calls)
    calendar(room, ["20260504", "20261231"], ["20260504", "20261231"])
    return room


def calendar(room: Room, *spans: Sequence[str]) -> None:
    room.write("in/calendar.txt", CALENDAR[0], [[name, *DAYS, *span] for name, span in zip("MN", spans)])


def prepared(room: Room, *arguments: str) -> list[str]:
    out, errors, status = room.ran("prepare", "--repair", "--out", room.path("out"), *arguments, room.path("in"))
    assert (out, status) == ("", 0), errors
    return errors.splitlines()


def written_dates(room: Room) -> list[str]:
    lines = (room.folder / "out" / "calendar.txt").read_text().splitlines()[1:]
    return [date for line in lines for date in line.split(",")[8:]]


@pytest.mark.parametrize(
    "start, end",
    [
        ("04.05.2026", "31.12.2026"),
        ("4/5/2026", "31/12/2026"),
        ("5/4/2026", "12/31/2026"),
        ("2026/05/04", "2026/12/31"),
        ("2026-05-04", "20261231"),
        ("4-5-2026", "31-12-2026"),
    ],
)
def test_dates_are_mended_where_all_agree_on_one_reading(feed: Room, start: str, end: str) -> None:
    calendar(feed, [start, end], [start, end])
    prepared(feed)
    assert written_dates(feed) == ["20260504", "20261231"] * 2


def test_dates_of_two_readings_are_not_mended(feed: Room) -> None:
    calendar(feed, ["4/5/2026", "6/7/2026"], ["4/5/2026", "6/7/2026"])
    message = "rule value removes 2 of 2 records of calendar.txt; calendar.txt and calendar_dates.txt have no records; "
    message += "no trip runs on any day (--allow-loss writes the feed anyway; --check lists all errors)"
    feed.refused(f"{feed.path('in')}: {message}", "prepare", "--repair", "--out", feed.path("out"), feed.path("in"))


def test_a_repair_that_takes_more_than_a_tenth_is_refused(feed: Room) -> None:
    calls: Table = [["T", "08:00:00", "08:00:00", "A", 0], ["T", "08:01:00", "08:01:00", "X", 1]]
    feed.write("in/stop_times.txt", STOP_TIMES, [*calls, ["U", "08:00:00", "08:00:00", "A", 0]])
    hint = "(--allow-loss writes the feed anyway; --check lists all errors)"
    message = f"rule unknown removes 1 of 3 records of stop_times.txt {hint}"
    feed.refused(f"{feed.path('in')}: {message}", "prepare", "--repair", "--out", feed.path("out"), feed.path("in"))
    lines = prepared(feed, "--allow-loss")
    assert (
        "records left: stops.txt 12 of 12, routes.txt 1 of 1, calendar.txt 2 of 2, trips.txt 2 of 2,"
        " stop_times.txt 2 of 3" in lines
    )


def test_a_record_that_is_there_twice_is_no_loss(feed: Room) -> None:
    feed.write("in/routes.txt", "route_id", [["R"], ["R"], ["R"]])
    assert "same: routes.txt: 2 records removed" in prepared(feed)


def test_a_repair_that_leaves_no_trip_on_any_day_is_refused(feed: Room) -> None:
    calendar(feed, ["never", "20261231"], ["20260504", "never"])
    arguments = ["prepare", "--repair", "--allow-loss", "--out", feed.path("out"), feed.path("in")]
    lines = feed.ran(*arguments)[1].splitlines()
    assert "no trip runs on any day" in lines and (feed.folder / "out" / "calendar.txt").exists()


def test_a_feed_whose_trips_run_on_no_day_is_refused_without_a_loss_of_records(feed: Room) -> None:
    calendar(feed, ["20261231", "20260504"], ["20261231", "2026-05-04"])
    message = "no trip runs on any day (--allow-loss writes the feed anyway; --check lists all errors)"
    feed.refused(f"{feed.path('in')}: {message}", "prepare", "--repair", "--out", feed.path("out"), feed.path("in"))


def test_a_feed_without_trips_on_the_date_is_refused(feed: Room) -> None:
    arguments = ["prepare", "--repair", "--date", "20270601", "--out", feed.path("out"), feed.path("in")]
    message = "no trip runs on 2027-06-01, only from 2026-05-04 to 2026-12-31"
    feed.refused(
        f"{feed.path('in')}: {message} (--allow-loss writes the feed anyway; --check lists all errors)", *arguments
    )


def test_a_repair_tells_the_days_that_are_left(feed: Room) -> None:
    calendar(feed, ["4.5.2026", "31.12.2026"], ["4.5.2026", "31.12.2026"])
    assert "runs from 2026-05-04 to 2026-12-31; the most, 2, on 2026-05-04" in prepared(feed)


def test_a_check_judges_runs_by_what_a_repair_would_leave(feed: Room) -> None:
    calendar(feed, ["04.05.2026", "31.12.2026"], ["04.05.2026", "31.12.2026"])
    out, _, status = feed.ran("prepare", "--check", feed.path("in"))
    assert status == 1
    assert "after --repair: runs from 2026-05-04 to 2026-12-31; the most, 2, on 2026-05-04" in out.splitlines()
    calendar(feed, ["soon", "20261231"], ["soon", "20261231"])
    out, _, status = feed.ran("prepare", "--check", feed.path("in"))
    lines = out.splitlines()
    assert (status, "after --repair: no trip runs on any day" in lines) == (1, True)
    assert "after --repair: rule value removes 2 of 2 records of calendar.txt" in lines


def test_bytes_that_are_not_utf_8_are_shown_as_windows_1252(feed: Room) -> None:
    path = feed.folder / "in" / "stops.txt"
    path.write_bytes(path.read_bytes().replace(b"A,\n", b"A,Caf\xe9\n"))
    prepared(feed)
    result = (feed.folder / "out" / "prepared.csv").read_bytes()
    assert b"\\udc" not in result
    assert list(csv.reader(result.decode("utf-8").splitlines()))[1] == [
        *["stops.txt", "2", "stop_name", "Café", "text", "now Café"]
    ]
