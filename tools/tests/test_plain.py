"""Plain files, which numpy reads: the same columns as record by record; others are refused."""

import random
from pathlib import Path

import numpy as np
import pytest

from ttm_tools.gtfs import columns, fields, footpaths, plain, reading
from ttm_tools.gtfs.columns import Column, texts_of
from ttm_tools.gtfs.footpaths import Footpaths
from ttm_tools.gtfs.nearest import reached_from

LETTERS = [*"ab1:", " ", "\t", "é", "\udce9", "\x01", "x" * 7, "y" * 8, "0" * 40]


def drawn_text(draw: random.Random, lines: int) -> tuple[bytes, int]:
    """A plain file of some columns, and how many."""
    count, end = draw.randrange(1, 5), draw.choice(["\n", "\r\n"])
    known = ["".join(draw.choices(LETTERS, k=draw.randrange(4))) for _ in range(draw.choice([1, 3, 40]))]
    heads = [f"c{place}" for place in range(count)]
    rows = [heads, *([draw.choice(known) for _ in heads] for _ in range(lines))]
    rows = [row if count > 1 or row[0] else ["z"] for row in rows]  # an empty line is no record
    text = end.join(",".join(row) for row in rows) + draw.choice(["", end])
    return draw.choice([b"", b"\xef\xbb\xbf"]) + text.encode("utf-8", "surrogateescape"), count


def as_texts(found: dict[str, Column]) -> dict[str, tuple[list[str], list[str]]]:
    return {name: (texts_of(column), column.categories.tolist()) for name, column in found.items()}


@pytest.mark.parametrize("seed", range(60))
def test_a_plain_file_has_the_columns_that_it_has_record_by_record(
    tmp_path: Path, monkeypatch: pytest.MonkeyPatch, seed: int
) -> None:
    draw, path = random.Random(seed), tmp_path / "t.txt"
    monkeypatch.setattr(plain, "BLOCK", draw.choice([8, 100, 1 << 22]))
    text, count = drawn_text(draw, draw.choice([0, 1, 5, 300]))
    path.write_bytes(text)
    names = [f"c{place}" for place in range(count)][:: draw.choice([1, -1])]
    found, records = reading.plain_columns(path, names, lambda piece: None)
    whole = reading.columns_by_records(path, names)
    assert as_texts(found) == as_texts(whole)
    assert records.tolist() == list(range(2, len(whole[names[0]]) + 2))
    text_of_first = whole[names[0]].categories[:1].tolist()
    some, chosen = reading.plain_columns(path, names, lambda piece: columns.one_of(piece[names[0]], text_of_first))
    kept = columns.one_of(whole[names[0]], text_of_first)
    assert chosen.tolist() == (np.flatnonzero(kept) + 2).tolist()
    assert {name: texts_of(item) for name, item in some.items()} == {
        item: texts_of(whole[item].at(kept)) for item in names
    }


@pytest.mark.parametrize(
    "text",
    [
        b'a,b\n"1",2\n',
        b'a,b\n1,"2\n"\n',
        b"a,b\n1\n",
        b"a,b\n1,2,3\n",
        b"a,b\n1\n1,2,3\n",
        b"a,b\n\n1,2\n",
        b"a\n\n1\n",
        b"a\r\n\r\n1\r\n",
        b"a,b\n1,\0\n",
        b"a,b\r1,2\r",
        b"a,b\n1,2\r3,4\n",
        b"a,b\n1,2\n\r\n",
        b"a,b\n" + b"2" * (plain.LONGEST + 1) + b",1\n",
    ],
)
def test_other_files_are_refused_and_read_in_another_way(tmp_path: Path, text: bytes) -> None:
    path = tmp_path / "t.txt"
    path.write_bytes(text)
    with pytest.raises(plain.NotPlain):
        reading.plain_columns(path, ["a"], lambda piece: None)
    assert as_texts(reading.columns(path, ["a"])) == as_texts(reading.columns_by_records(path, ["a"]))


def test_equal_sums_do_not_make_texts_equal(monkeypatch: pytest.MonkeyPatch) -> None:
    arguments = [np.array([5, 7, 5, 9, 7, 5], np.uint64)]
    monkeypatch.setattr(plain, "drawers", lambda arguments, drawn, bits: np.zeros(len(arguments[0]), np.int64))
    assert plain.firsts_of(arguments).tolist() == [0, 1, 0, 3, 1, 0]
    with pytest.raises(plain.NotPlain):
        plain.firsts_of([np.arange(plain.MOST_TURNS + 1, dtype=np.uint64)])


def test_times_are_those_that_are_read_one_by_one() -> None:
    draw = random.Random(1)
    texts = ["", " ", "8:00:00", "08:00:00", " 8:00:00", "08:00:00 ", "167:59:59", "168:00:00", "08:60:00", "08:00:60"]
    texts += ["24:00:00", "08-00-00", "0a:00:00", "08:0:000", "٠٨:00:00", "99:59:59", "08:00:00\udce9", "08:00:0"]
    texts += ["".join(draw.choices("0123456789: ", k=8)) for _ in range(500)]
    column = columns.coded(texts)
    assert columns.times_of(column).tolist() == [fields.time(text) for text in texts]
    assert columns.times_of(columns.coded([])).tolist() == []


@pytest.mark.parametrize("seed", range(20))
def test_walks_over_chains_are_those_of_dijkstras_search(monkeypatch: pytest.MonkeyPatch, seed: int) -> None:
    draw = random.Random(seed)
    monkeypatch.setattr(footpaths, "AT_ONCE", draw.choice([1, 5, 1 << 20]))
    count, limit = draw.randrange(2, 12), draw.randrange(0, 300)
    stated = [(*draw.sample(range(count), 2), draw.randrange(0, 120)) for _ in range(draw.randrange(0, 40))]
    every = Footpaths(*np.array(stated, np.int64).reshape(-1, 3).T)
    direct = footpaths.least(every.of(every.seconds <= limit), count)[0]
    begins = np.array([draw.random() < 0.7 for _ in range(count)])
    leaving: dict[int, list[tuple[int, int]]] = {}
    for a, b, seconds in stated:
        leaving.setdefault(a, []).append((b, seconds))
    found = footpaths.closed(direct, limit, begins)
    expected = {
        (a, b): seconds
        for a in np.flatnonzero(begins).tolist()
        for b, seconds in reached_from(a, leaving, limit).items()
        if a != b
    }
    assert dict(zip(zip(found.begin.tolist(), found.end.tolist()), found.seconds.tolist())) == expected
    assert len(found.begin) == len(expected)
