"""Calls that are read as numbers, some records at a time, compared with those of the whole table."""

import random
from pathlib import Path

import numpy as np
import pytest

from drawn_plans import DrawnPlan

from ttm_tools.gtfs import call_numbers, growing, reading
from ttm_tools.gtfs.stops import read_stops
from ttm_tools.gtfs.tables import read_table
from ttm_tools.gtfs.timetable import read_timetable
from ttm_tools.plans.base import read_base, read_taken_base
from ttm_tools.web.timetables import timetable_of

COLUMNS = ("begins", "stop", "arrive", "depart", "row")


@pytest.mark.parametrize("rows", [None, 3, 1000])
@pytest.mark.parametrize("seed", range(8))
def test_they_are_those_of_the_table(
    tmp_path: Path, monkeypatch: pytest.MonkeyPatch, seed: int, rows: int | None
) -> None:
    folder = DrawnPlan(seed, tmp_path / "feed").folder
    path, draw = folder / "stop_times.txt", random.Random(seed)
    header, *lines = path.read_text().splitlines()
    if seed % 3 == 1:
        draw.shuffle(lines)
    elif seed % 3 == 2:  # the trips in another order than those of trips.txt, and their calls in order
        lines.sort(key=lambda line: (line.split(",")[header.split(",").index("trip_id")][::-1]))
    texts = [f"{line},{draw.choice(['', '0', '1', 'é'])}" for line in lines]
    path.write_text("\n".join([f"{header},more", *texts, ""]))
    expected = read_base(str(folder), [])
    if rows is not None:
        monkeypatch.setattr(reading, "SMALL", 0)
        monkeypatch.setattr(call_numbers, "ROWS_AT_ONCE", rows)
        monkeypatch.setattr(growing, "BLOCK", 2 * rows + 1)
    found = read_taken_base(str(folder), [])
    for name in COLUMNS:
        assert np.array_equal(getattr(found, name), getattr(expected, name)), name
    assert found.records == expected.records == len(lines)
    assert (found.trips, found.routes, found.services) == (expected.trips, expected.routes, expected.services)
    table, whole = found.feed.tables["stop_times.txt"], read_table("stop_times.txt", path)
    assert table.names == whole.columns and "more" in table.columns and "trip_id" not in table.columns
    assert table.texts("more") == whole.texts("more")
    assert table.with_all_columns().rows() == whole.rows()


@pytest.mark.parametrize("in_order", [True, False])
@pytest.mark.parametrize("seed", range(4))
def test_a_timetable_of_such_numbers_is_that_of_the_table(tmp_path: Path, seed: int, in_order: bool) -> None:
    """The one that explore takes from the feed of its plans."""
    folder, draw = DrawnPlan(seed, tmp_path / "feed").folder, random.Random(seed)
    path = folder / "stop_times.txt"
    header, *lines = path.read_text().splitlines()
    if not in_order:
        draw.shuffle(lines)
    texts = [f"{line},{draw.choice(['', '0', '1', '2'])},{draw.choice(['', '1'])}" for line in lines]
    path.write_text("\n".join([f"{header},pickup_type,drop_off_type", *texts, ""]))
    stops = read_stops(str(folder))
    expected, base = read_timetable(stops), read_taken_base(str(folder), [])
    found = timetable_of(base, stops)
    for name in ("begins", "stop", "arrive", "depart", "board", "alight", "earliest", "latest"):
        assert np.array_equal(getattr(found.events, name), getattr(expected.events, name)), name
    for name in ("stops", "trips", "routes", "headways", "folder"):
        assert getattr(found, name) == getattr(expected, name)


def test_columns_grow_piece_by_piece(monkeypatch: pytest.MonkeyPatch) -> None:
    monkeypatch.setattr(growing, "BLOCK", 4)
    none, made = growing.GrowableArray(np.int8).to_array(), growing.GrowableArray(np.int8)
    assert none.dtype == np.int8 and none.tolist() == []
    for piece in ([], [1, 2, 3], [4, 5, 6, 7, 8, 9]):
        made.take(np.array(piece, np.int8))
    made.take(np.array([300], np.int16))
    whole = made.to_array()
    assert whole.dtype == np.int16 and whole.tolist() == [1, 2, 3, 4, 5, 6, 7, 8, 9, 300]


def test_trips_without_a_stop_are_set_aside_and_open_times_are_filled(tmp_path: Path) -> None:
    folder = DrawnPlan(0, tmp_path / "feed").folder
    base = read_base(str(folder), [])
    first, second = [place for place, length in enumerate(base.lengths.tolist()) if length > 1][:2]
    stops = [base.places.identifiers[item] for item in base.stops_of(first)[:1]] * 4
    rows = [
        [base.trips[second], "08:00:00", "08:00:00", stops[0], "1"],
        [base.trips[second], "08:30:00", "08:30:00", "", "2"],
        [base.trips[first], "09:30:00", "", stops[3], "4000000000"],
        [base.trips[first], "", "", stops[1], "2"],
        [base.trips[first], "09:00:00", "09:00:00", stops[0], "1"],
        [base.trips[first], "", "", stops[2], "3"],
    ]
    header = "trip_id,arrival_time,departure_time,stop_id,stop_sequence"
    (folder / "stop_times.txt").write_text("\n".join([header, *map(",".join, rows), ""]))
    found = read_taken_base(str(folder), [])
    span = slice(found.begins[first], found.begins[first + 1])
    assert np.array(found.row)[span].tolist() == [4, 3, 5, 2]
    assert found.arrive[span].tolist() == [32400, 33000, 33600, 34200]
    assert found.lengths.sum() == 4 and found.records == 6
