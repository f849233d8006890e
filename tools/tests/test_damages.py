"""Drawn damages of inputs: a command ends with its result, or with one line and the status 1, and leaves no file."""

import random
from pathlib import Path

import pytest

from helpers import Town, town_matrix

TEXTS = [
    b'"',
    b",",
    b"\n",
    b"\r",
    b"\0",
    b"\xff",
    b"-",
    b"x",
    b"1e9",
    b"  ",
    b"99999999999",
    b"\xef\xbb\xbf",
    b'""',
    b"",
]


def damaged(draw: random.Random, whole: bytes) -> bytes:
    """Some bytes inserted, left out, or cut off."""
    for _ in range(draw.randrange(1, 4)):
        place, length = draw.randrange(len(whole) + 1), draw.choice([0, 0, 1, 3, 20])
        whole = whole[:place] + draw.choice(TEXTS) + (b"" if draw.random() < 0.1 else whole[place + length :])
    return whole


def runs_of(town: Town, some: str, cut: str, table: str) -> list[list[str]]:
    """Each command, on files of the town."""
    feed, jobs, access = ["--feed", town.feed], town.path("jobs.csv"), town.path("access.csv")

    def out(name: str) -> list[str]:
        return ["--out", town.path(name)]

    return [
        ["walks", *out("w"), town.feed],
        ["walks", "--table", table, *out("w"), town.feed],
        ["split", *feed, "--parts", "2", *out("parts")],
        ["join", "--origins", some, *out("j"), town.file],
        ["compare", *feed, "--share", "50", *out("c"), town.file],
        ["compare", "--by", "origin", "--within", "900", "--share", "25", "--partial", *out("c"), town.file],
        ["access", "--opportunities", jobs, "--cutoffs", "10,30", *out("a"), town.file],
        ["equity", access, "--people", jobs, "--column", "jobs", *out("e")],
        ["long", *feed, "--origins", some, *out("l"), town.file],
        ["long", "--access", *out("l"), town.file],
        ["long", "--names", "r5py", "--scenario", "cut", *out("l"), town.file],
        ["omx", *out("o.omx"), town.file],
        ["gis", *feed, "--origin", "A", *out("g.json"), town.file],
        ["map", "difference", "--share", "25", "--within", "900", "--edits", cut, *feed, *out("m.png"), town.file],
        ["page", "--opportunities", jobs, "--edits", cut, *feed, *out("p.html"), town.file],
    ]


@pytest.mark.parametrize("seed", range(8))
def test_whatever_is_damaged_is_told_in_a_line(town: Town, seed: int) -> None:
    draw = random.Random(seed)
    town.matrix(town_matrix(True, shares=(25, 50), limits=(900, 1800)))
    points = [["s", 1, 0.0, 9.0], ["s", 2, 0.0, 9.01], ["t", 1, 0.0, 9.01], ["t", 2, 0.0, 9.0]]
    town.write("shapes.txt", "shape_id,shape_pt_sequence,shape_pt_lat,shape_pt_lon", points)
    some = town.write("some.csv", "stop_id", [["A"], ["D"]])
    cut = town.write("cut.csv", "action,id,seconds", [["remove_route", "R", ""]])
    table = town.write("walks.csv", "from_stop_id,to_stop_id,seconds", [["A", "B", 7.5], ["B", "A", 8]])
    town.write("jobs.csv", "stop_id,jobs,shops", [["A", 7, 0.5], ["D", 8, 1]])
    spread = [[name, stop, "jobs", 50, 30, 7.5] for name in ("base", "cut") for stop in "AD"]
    town.write("access.csv", "scenario,id,opportunity,percentile,cutoff,accessibility", spread)
    runs = runs_of(town, some, cut, table)
    inputs = [
        "matrix.csv",
        "stops.txt",
        "trips.txt",
        "stop_times.txt",
        "shapes.txt",
        "some.csv",
        "cut.csv",
        "walks.csv",
        "jobs.csv",
        "access.csv",
    ]
    whole = {name: Path(town.path(name)).read_bytes() for name in inputs}
    statuses = set()
    for _ in range(25):
        name, arguments = draw.choice(inputs), draw.choice(runs)
        Path(town.path(name)).write_bytes(damaged(draw, whole[name]))
        before = town.names()
        _, errors, status = town.ran(*arguments)
        assert status in (0, 1), (arguments, errors)
        statuses.add(status)
        if status:
            lines = [line for line in errors.splitlines() if line.startswith(f"ttm-tools {arguments[0]}: ")]
            assert len(lines) == 1 and town.names() == before, (arguments, errors)
        for result in town.names() - before:
            path = town.folder / result
            path.rmdir() if path.is_dir() and not any(path.iterdir()) else path.unlink() if path.is_file() else None
        Path(town.path(name)).write_bytes(whole[name])
    assert statuses == {0, 1}
