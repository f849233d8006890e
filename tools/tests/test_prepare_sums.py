"""Careless feeds change nothing without a report: padded fields, decimal commas, open quotes, old copies, plans."""

import shutil
from pathlib import Path

import pytest

from helpers import CALENDAR, STOP_TIMES, Room, Table

HEAD = "stop_id,stop_name,stop_lat,stop_lon,location_type,parent_station"


@pytest.fixture
def feed(room: Room) -> Room:
    """A right feed in the folder `in`: a station S with the stops A and B, and C; a trip from A to C."""
    (room.folder / "in").mkdir()
    rows: Table = [
        ["S", "Square", 50, 1, 1, ""],
        ["A", "Alpha", 50, 1, 0, "S"],
        ["B", "Beta", 50, 1, 0, "S"],
        ["C", "Gamma", 50.1, 1, "", ""],
    ]
    room.write("in/stops.txt", HEAD, rows)
    room.write("in/routes.txt", "route_id", [["R"]])
    room.write("in/calendar.txt", *CALENDAR)
    room.write("in/trips.txt", "route_id,service_id,trip_id,shape_id", [["R", "M", "T", "s"]])
    calls: Table = [["T", "08:00:00", "08:00:00", "A", 1], ["T", "08:09:00", "08:09:00", "C", 2]]
    room.write("in/stop_times.txt", STOP_TIMES, calls)
    return room


def padded(room: Room, name: str, *texts: str) -> None:
    """Puts spaces around some fields of a file."""
    path = room.folder / "in" / name
    lines = path.read_text().splitlines()
    fields = [line.split(",") for line in lines[1:]]
    changed = [",".join(f" {field} " if field in texts else field for field in line) for line in fields]
    path.write_text("\n".join([lines[0], *changed, ""]))


def prepared(room: Room, *arguments: str) -> list[str]:
    out, errors, status = room.ran("prepare", "--repair", "--out", room.path("out"), *arguments, room.path("in"))
    assert (out, status) == ("", 0), errors
    return errors.splitlines()


def texts(room: Room, name: str) -> list[str]:
    return (room.folder / "out" / name).read_text().splitlines()[1:]


def test_identifiers_lose_their_spaces_in_all_files(feed: Room) -> None:
    right = texts_of_all(feed)
    feed.write(
        "in/shapes.txt", "shape_id,shape_pt_lat,shape_pt_lon,shape_pt_sequence", [[" s", 50, 1, 1], [" s", 50.1, 1, 2]]
    )
    padded(feed, "stops.txt", "A", "S", "1")
    padded(feed, "trips.txt", "s")
    lines = prepared(feed)
    assert "spaces: stops.txt: 9 fields repaired" in lines and "spaces: shapes.txt: 2 fields repaired" in lines
    assert {name: texts(feed, name) for name in right} == right
    assert texts(feed, "shapes.txt") == ["s,50,1,1", "s,50.1,1,2"]


def texts_of_all(feed: Room) -> dict[str, list[str]]:
    names = ("stops.txt", "trips.txt", "stop_times.txt", "routes.txt")
    return {name: (feed.folder / "in" / name).read_text().splitlines()[1:] for name in names}


def test_identifiers_that_differ_in_spaces_alone_stay_apart(feed: Room) -> None:
    path = feed.folder / "in" / "stops.txt"
    path.write_text(path.read_text() + "A ,Other,50.2,1,0,\n")
    padded(feed, "stops.txt", "C")
    prepared(feed)
    assert [line.split(",")[0] for line in texts(feed, "stops.txt")] == ["S", "A", "B", "C", "A "]


def test_decimal_commas_are_points_where_all_of_a_column_have_them(feed: Room) -> None:
    path = feed.folder / "in" / "stops.txt"
    whole = path.read_text()
    path.write_text(whole.replace(",50,1,", ',"50,5","1",').replace(",50.1,1,", ',"50,1","-1",'))
    lines = prepared(feed)
    assert "comma: stops.txt: 4 fields repaired" in lines
    assert texts(feed, "stops.txt")[3] == "C,Gamma,50.1,-1,,"
    shutil.rmtree(feed.folder / "out")
    path.write_text(whole.replace(",50.1,1,", ',"50,1",1,'))
    feed.ran("prepare", "--repair", "--out", feed.path("out"), feed.path("in"))
    path.write_text(whole.replace("A,Alpha,50,1", 'A,Alpha,"50,1",1').replace(",50.1,1,", ",50.1,1,"))
    shutil.rmtree(feed.folder / "out")
    assert not any(line.startswith("comma") for line in prepared(feed))  # 50.1 has a point


def test_a_feed_without_any_service_day_is_refused(feed: Room) -> None:
    feed.write("in/calendar.txt", CALENDAR[0], [["M", *[0] * 7, 20260504, 20260531]])
    hint = "(--allow-loss writes the feed anyway; --check lists all errors)"
    choices: list[list[str]] = [["--repair"], []]
    for arguments in choices:
        message = f"{feed.path('in')}: no trip runs on any day {hint}"
        feed.refused(message, "prepare", *arguments, "--out", feed.path("out"), feed.path("in"))


def test_a_folder_with_an_old_copy_inside_is_refused(feed: Room) -> None:
    shutil.copytree(feed.folder / "in", feed.folder / "in" / "old")
    feed.write("in/old/transfers.txt", "from_stop_id,to_stop_id,transfer_type,min_transfer_time", [])
    several = "several feeds in it, . and old: give them one by one, without the others in the folder"
    feed.refused(f"{feed.path('in')}: {several}", "prepare", "--out", feed.path("out"), feed.path("in"))


def test_the_feed_of_a_plan_is_refused(feed: Room) -> None:
    (feed.folder / "in" / "scenarios").mkdir()
    feed.write("in/scenarios/today.csv", "action,id,seconds", [])
    what = "has the trips of all scenarios of a plan: take the plan's own feed, or that of one scenario, by ttm-tools"
    message = f"{feed.path('in')}: {what} scenarios --only"
    feed.refused(message, "prepare", "--out", feed.path("out"), feed.path("in"))
    plan = Path(feed.path("plan.toml"))
    plan.write_text('[[scenario]]\nname = "x"\n[[scenario.action]]\ndo = "remove_route"\nroute = "R"\n')
    feed.refused(message, "scenarios", feed.path("in"), str(plan), "--out", feed.path("out"))


def test_a_few_lost_transfers_are_no_lost_feed(feed: Room) -> None:
    rows: Table = [["A", "C", 2, 60]] * 6 + [["A", "X", 2, 60], ["A", "Y", 2, 60]]
    feed.write("in/transfers.txt", "from_stop_id,to_stop_id,transfer_type,min_transfer_time", rows)
    assert "unknown: transfers.txt: 2 records removed" in prepared(feed)
    rows += [["A", f"X{number}", 2, 60] for number in range(9)]
    feed.write("in/transfers.txt", "from_stop_id,to_stop_id,transfer_type,min_transfer_time", rows)
    shutil.rmtree(feed.folder / "out")
    hint = "(--allow-loss writes the feed anyway; --check lists all errors)"
    message = f"{feed.path('in')}: rule unknown removes 11 of 17 records of transfers.txt {hint}"
    feed.refused(message, "prepare", "--repair", "--out", feed.path("out"), feed.path("in"))


def test_an_open_quote_is_named(feed: Room) -> None:
    path = feed.folder / "in" / "stops.txt"
    path.write_text(path.read_text().replace("A,Alpha,", 'A,"Alpha,'))
    message = "stops.txt: record 3: a quote is never closed, so the 3 lines behind it are part of one field"
    feed.refused(f"{feed.path('in')}: {message}", "prepare", "--out", feed.path("out"), feed.path("in"))
    assert message in feed.ran("prepare", "--check", feed.path("in"))[0].splitlines()


def test_semicolons_are_named(feed: Room) -> None:
    path = feed.folder / "in" / "stops.txt"
    path.write_text(path.read_text().replace(",", ";"))
    out = feed.ran("prepare", "--check", feed.path("in"))[0].splitlines()
    assert out[0] == "ttm: stops.txt: record 1: missing column"
    assert out[1] == "  the header has to name stop_id; semicolons separate its fields, where commas have to"


def test_errors_below_a_misspelt_header_are_reported_too(feed: Room) -> None:
    rows: Table = [["M", *[1] * 7, date, 20260531] for date in ("2026-05-04", "x", 20260504)]
    feed.write(
        "in/calendar.txt", CALENDAR[0].replace("start_date", "Start_Date"), [[*row[:1], *row[1:]] for row in rows]
    )
    out, _, status = feed.ran("prepare", "--check", feed.path("in"))
    lines = [line for line in out.splitlines() if line.startswith("ttm: ")]
    wanted = ["record 1: missing column", "record 2: bad date", "record 3: duplicate id"]
    assert (lines, status) == ([f"ttm: calendar.txt: {line}" for line in wanted], 1)
    assert "2 times: records 2, 3" in out
