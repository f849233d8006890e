"""Records, identifiers as bytes, and texts of many lines."""

import io
import math
import random
import time
from typing import Callable

import numpy as np
import pytest

from helpers import Room
from ttm_tools.core import lines, tables
from ttm_tools.core.errors import InputError
from ttm_tools.core.text import display_text
from ttm_tools.gtfs import columns, reading


def test_bytes_that_are_not_utf8_are_kept_and_shown_as_windows_1252(room: Room) -> None:
    path = room.folder / "names.csv"
    path.write_bytes(b"\xef\xbb\xbfstop_id\nA\n\nB\xe9\n")
    found = list(tables.rows(path, ["stop_id"]))
    assert found == [(2, ["A"]), (3, ["B\udce9"])]
    assert (display_text(found[1][1][0]), lines.field(found[1][1][0])) == ("Bé", b"B\xe9")
    assert reading.columns(path, ["stop_id"])["stop_id"].categories.tolist() == ["A", "B\udce9"]


def test_a_missing_column_is_told(room: Room) -> None:
    path = room.write("some.csv", "a,b", [["1", "2"]])
    with pytest.raises(InputError) as seen:
        list(tables.rows(path, ["c"]))
    with pytest.raises(InputError) as same:
        reading.columns(path, ["c"])
    assert str(seen.value) == str(same.value) == f"{path}: record 1: no column c"


@pytest.mark.parametrize("read", [reading.columns, reading.columns_by_records])
def test_columns_are_those_of_the_records(
    room: Room, read: Callable[..., reading.Columns], monkeypatch: pytest.MonkeyPatch
) -> None:
    monkeypatch.setattr(reading, "ROWS_AT_ONCE", 7)
    draw = random.Random(3)
    texts = ["", "a", "0004", "NA", "x,y", 'q"q', "line\nend", "1e3", " b", "é", "B\udce9"]
    rows = [[draw.choice(texts) for _ in range(3)] for _ in range(50)]
    with open(room.path("t.csv"), "wb") as file:
        tables.write_rows(file, ["a", " b ", "c"], rows)
    found = read(room.path("t.csv"), ("c", "b"))
    for name, place in (("b", 1), ("c", 2)):
        assert columns.texts_of(found[name]) == [row[place] for row in rows]


def test_records_with_more_fields_than_the_header_are_read(room: Room) -> None:
    path = room.write("t.csv", "a,b", [["1", "2", "3", "4"], ["5"], ["6", "7"]])
    assert columns.texts_of(reading.columns(path, ["b"])["b"]) == ["2", "", "7"]


def test_a_column_that_is_not_there_is_empty_however_long_a_record_is(room: Room) -> None:
    path = room.write("some.csv", "a,b", [["1", "2", "3", "4"], ["5"]])
    assert list(tables.rows(path, ["b"], ["c"])) == [(2, ["2", ""]), (3, ["", ""])]


def test_a_number_that_is_none_is_told_by_its_record(room: Room) -> None:
    path = room.write("t.csv", "a,b", [["1", "2"], ["x", "1"], ["1_0", "3"]])
    found = reading.columns(path, ["a", "b"])
    assert columns.numbers_of(found["b"], path, "b").tolist() == [2, 1, 3]
    with pytest.raises(InputError) as seen:
        columns.numbers_of(found["a"], path, "a")
    assert str(seen.value) == f"{path}: record 3: a 'x' is not a number"


def test_a_name_that_stands_twice_is_found_among_as_many_as_there_may_be_stops() -> None:
    names = [f"S{number}" for number in range(65_535)]
    begin = time.process_time()
    tables.refuse_alike("wide.csv", names, names)
    with pytest.raises(InputError, match="wide.csv: record 1: two columns S65534"):
        tables.refuse_alike("wide.csv", [*names, "S65534 "], names)
    assert time.process_time() - begin < 10, "comparing all pairs of names takes minutes"


def test_lines_are_joined_of_pieces() -> None:
    names = lines.fields_as_texts(["a", 'x,"y"'], after=b",")
    numerals = lines.Numerals(b"%d\n".__mod__, b"\n")
    numbers = numerals.of(np.array([7, math.nan]))
    assert lines.join_lines([b"h,", names, numbers], 2) == b'h,a,7\nh,"x,""y""",\n'
    assert numerals.of(np.array([5_000_000.0, 3.0])).tolist() == [b"5000000\n", b"3\n"]
    assert lines.join_lines([b"h"], 0) == b""


def test_decimals_are_rounded_up_or_to_the_nearest_and_counted() -> None:
    rounded = tables.RoundingCounter()
    texts = ("0", "1.0", "1.2", "1.5", "2.5", " 3 ")
    assert [rounded.to_int(text, "f", 2, "seconds", up=True) for text in texts] == [0, 1, 2, 2, 3, 3]
    assert [rounded.to_int(text, "f", 2, "opportunities", up=False) for text in texts] == [0, 1, 1, 2, 3, 3]
    assert rounded.count == 6


def test_rows_are_written_as_ttm_writes_them() -> None:
    draw = random.Random(5)
    for width in (1, 2, 5):
        fields: list[object] = [
            "",
            "a",
            "\r",
            'x,"y"',
            "two\nlines",
            "caf\u00e9",
            "B\udce9",
            " b ",
            7,
            0.1,
            -1e-9,
            True,
        ]
        rows: list[list[object]] = [[draw.choice(fields) for _ in range(width)] for _ in range(300)]
        written, header = io.BytesIO(), [f"c,{place}" for place in range(width)]
        tables.write_rows(written, header, rows)
        every: list[list[object]] = [[*header], *rows]
        expected = [b",".join(map(lines.field, row)) + b"\n" for row in every]
        assert written.getvalue() == b"".join(expected)
