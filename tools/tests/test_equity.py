"""Equity: by hand on the small feed, and compared with plain formulas, person by person, on drawn towns."""

import math
import random
import statistics
from dataclasses import astuple
from pathlib import Path
from typing import Sequence

import numpy as np
import pytest

from helpers import Cell, Room, Town, read, town_matrix
from ttm_tools.core.arrays import Floats
from ttm_tools.measures.equity import Equity, changes_by_tenth, equity

HEAD = "opportunity,percentile,cutoff,group,scenario,people,mean,median,losers_percent,gini,palma,least_tenth"
ACCESS = "scenario,id,opportunity,percentile,cutoff,accessibility"

# The small feed at 08:00, with ten jobs at B and five at C: within 30 minutes A reaches 15, B 15 and C its own 5; where
# the trip from B to C goes, A and B reach the 10 at B.
SMALL: dict[str, list[Cell]] = {"A": [0, 600, 1800], "B": ["", 0, 1800], "C": ["", "", 0]}
WITHOUT: dict[str, list[Cell]] = {"A": [0, 600, ""], "B": ["", 0, ""], "C": ["", "", 0]}


@pytest.fixture
def small(town: Town) -> Town:
    town.matrix(town_matrix(True, {"base": SMALL, "cut": WITHOUT}, stops="ABC"))
    jobs = town.write("jobs.csv", "stop_id,jobs", [["B", 10], ["C", 5]])
    town.write("people.csv", "stop_id,residents", [["A", 100], ["B", 200], ["C", 100]])
    assert town.ran("access", "--opportunities", jobs, "--out", town.path("access.csv"), town.file)[2] == 0
    return town


def test_the_small_feed_by_hand(small: Town) -> None:
    """300 of 400 people lose a third, none gains, and Gini and Palma fall."""
    arguments = ["equity", small.path("access.csv"), "--people", small.path("people.csv")]
    out, errors, status = small.ran(*arguments)
    # 1500 + 3000 + 500 of 400; 2 * (100 * 100 + 200 * 100) * 10 / (2 * 400 * 400 * 12.5); 15 / ((500 + 60 * 15) / 160)
    before = "jobs,50,30,residents,base,400,12.5,15,0,0.15,1.7143,5,0\n"
    # 1000 + 2000 + 500; 2 * 30000 * 5 / (2 * 400 * 400 * 8.75); 10 / ((500 + 60 * 10) / 160)
    after = "jobs,50,30,residents,cut,400,8.75,10,75,0.1071,1.4545,5,0\n"
    assert (out, errors, status) == (f"{HEAD},least_tenth_change\n{before}{after}", "", 0)
    assert [row["losers_percent"] for row in read(small.ran(*arguments, "--lose", "34")[0])] == ["0", "0"]
    assert [row["losers_percent"] for row in read(small.ran(*arguments, "--base", "cut")[0])] == ["0", "0"]
    result = small.ran(*arguments, "--form", "markdown")[0].splitlines()
    assert result[0].startswith("| opportunity | percentile |") and result[0].endswith("| least tenth change |")
    assert result[3] == "| jobs | 50 | 30 | residents | cut | 400 | 8.75 | 10 | 75 | 0.1071 | 1.4545 | 5 | 0 |"


def test_the_least_tenth_ends_among_people_of_the_same_access() -> None:
    """Of 40 people 4 are the least tenth: a quarter of those at two points, of which one loses all."""
    result = equity(numbers([5, 5, 8]), numbers([0, 5, 8]), numbers([12, 4, 24]), 10)
    assert (result.least_tenth, result.least_tenth_change, result.losers_percent) == (0, -5 * 3 / 4, 30)


def numbers(values: Sequence[float]) -> Floats:
    return np.array(values, dtype=np.float64)


def test_groups_and_kinds_are_chosen(small: Town) -> None:
    people = small.write("people.csv", "id,all,without_car", [["A", 10, 0], ["B", 10, 2.5], ["C", 20, 7.5]])
    arguments = ["--people", people]
    access = small.path("access.csv")
    rows = read(small.ran("equity", access, *arguments)[0])
    assert [(row["group"], row["scenario"], row["mean"]) for row in rows] == [
        ("all", "base", "10"),
        ("all", "cut", "7.5"),
        ("without_car", "base", "7.5"),
        ("without_car", "cut", "6.25"),
    ]
    rows = read(small.ran("equity", access, *arguments, "--column", "all", "--percentile", "50", "--cutoff", "30.0")[0])
    assert [row["group"] for row in rows] == ["all", "all"]
    message = f"{access}: nothing of the kind; it has jobs within 30 minutes, share 50 %"
    small.refused(message, "equity", access, *arguments, "--opportunity", "parks")


def test_a_table_of_r5r_is_taken(room: Room) -> None:
    rows = [["A", "jobs", 50, 30, 10], ["B", "jobs", 50, 30, 20.5]]
    access = room.write("access.csv", ACCESS.removeprefix("scenario,"), rows)
    people = room.write("people.csv", "id,people", [["A", 1], ["B", 1]])
    row = read(room.ran("equity", access, "--people", people)[0])[0]
    assert (row["scenario"], row["mean"], row["median"], row["losers_percent"]) == ("base", "15.25", "10", "0")


def test_wrong_tables_are_told(small: Town) -> None:
    people, path = ["--people", small.path("people.csv")], small.path("bad.csv")
    small.write("bad.csv", ACCESS, [["base", "A", "jobs", 50, 30, "x"]])
    small.refused(
        f"{path}: record 2: accessibility 'x' is invalid; allowed: a number from 0 on", "equity", path, *people
    )
    small.write("bad.csv", ACCESS, [["base", name, "jobs", 50, 30, 1] for name in "AA"])
    small.refused(
        f"{path}: record 3: A occurs twice for jobs within 30 minutes, share 50 %, base", "equity", path, *people
    )
    lines = [["base", name, "jobs", 50, 30, 1] for name in "ABC"]
    small.write("bad.csv", ACCESS, [*lines, ["cut", "A", "jobs", 50, 30, 1]])
    lost = "jobs within 30 minutes, share 50 %, cut lacks 2 of 3 origins: B, C"
    small.refused(f"{path}: {lost}", "equity", path, *people)
    small.write("bad.csv", ACCESS, lines[:2])
    small.refused(f"{small.path('people.csv')}: record 4: no origin of {path} is called C", "equity", path, *people)
    small.write("bad.csv", ACCESS, lines)
    small.refused(
        f"{path}: no scenario cut; it has base: choose the base with --base", "equity", path, *people, "--base", "cut"
    )
    nobody = small.write("nobody.csv", "id,people", [["A", 0]])
    small.refused(f"{path}: nobody of the group people lives at its origins", "equity", path, "--people", nobody)
    small.write("bad.csv", ACCESS, [])
    small.refused(f"{path}: no lines", "equity", path, *people)


def test_the_picture_is_drawn_of_one_kind_and_group(small: Town) -> None:
    pytest.importorskip("matplotlib")
    access, result = small.path("access.csv"), small.path("equity.png")
    arguments = ["equity", access, "--people", small.path("people.csv"), "--picture", result]
    assert small.ran(*arguments)[1:] == ("", 0)
    assert Path(result).read_bytes().startswith(b"\x89PNG")
    people = small.write("people.csv", "id,all,some", [["A", 10, 1]])
    message = f"{access}: a picture shows one group of all, some: choose it with --column"
    small.refused(message, "equity", access, "--people", people, "--picture", result)


def plain(base: list[float], access: list[float], count: list[int], percent: float) -> Equity:
    """The same person by person; their number is a multiple of ten, and those of one access share a tenth's end."""
    people = [(a, b) for a, b, n in zip(access, base, count) for _ in range(n)]
    total, each = len(people), sorted(a for a, _ in people)
    mean = sum(each) / total
    spread = sum(abs(a - b) for a in each for b in each)
    least = sorted(b for _, b in people)[: total // 10]
    changes = []
    for level in least:
        same = [a - b for a, b in people if b == level]
        changes.append(sum(same) / len(same))
    palma = statistics.mean(each[-(total // 10) :]) / (statistics.mean(each[: 2 * total // 5]) or math.nan)
    return Equity(
        total,
        mean,
        each[(total - 1) // 2],
        100 * sum(a < b and b - a >= b * percent / 100 - 1e-9 for a, b in people) / total,
        spread / (2 * mean * total**2) if mean else math.nan,
        palma,
        statistics.mean(each[: total // 10]),
        statistics.mean(changes),
    )


def test_drawn_towns_measure_as_plain_formulas_say() -> None:
    draw = random.Random(4)
    for _ in range(60):
        points = draw.randrange(1, 9)
        base, access = ([draw.choice([0.0, 1.0, 7.0, draw.uniform(0, 50)]) for _ in range(points)] for _ in range(2))
        count = [draw.randrange(0, 9) for _ in range(points)]
        count[0] += 10 - sum(count) % 10
        percent = draw.choice([0, 10, 50, 100])
        result = equity(numbers(base), numbers(access), numbers([float(n) for n in count]), percent)
        assert astuple(result) == pytest.approx(astuple(plain(base, access, count, percent)), nan_ok=True, abs=1e-9)


def test_tenths_of_the_people_change_by_hand() -> None:
    """Ten people at each of two points: the five tenths with less access gain 1, the others lose 4."""
    result = changes_by_tenth(numbers([3, 9]), numbers([4, 5]), numbers([10, 10]))
    assert result.tolist() == pytest.approx([1] * 5 + [-4] * 5)


def test_small_numbers_keep_their_digits(room: Room) -> None:
    header = "scenario,id,opportunity,percentile,cutoff,accessibility"
    rows = [["base", "A", "jobs", 50, 30, 0.00002], ["base", "B", "jobs", 50, 30, 0.00006]]
    rows += [["cut", "A", "jobs", 50, 30, 0.00001], ["cut", "B", "jobs", 50, 30, 0.00006]]
    access, people = room.write("a.csv", header, rows), room.write("p.csv", "id,people", [["A", 1], ["B", 3]])
    base, cut = read(room.ran("equity", access, "--people", people)[0])
    # (2 + 3 * 6) / 4 hundred thousandths, and then (1 + 3 * 6) / 4; A alone is the least tenth
    assert (base["mean"], base["median"], base["least_tenth"], base["least_tenth_change"]) == (
        "0.00005",
        "0.00006",
        "0.00002",
        "0",
    )
    assert (cut["mean"], cut["least_tenth"], cut["least_tenth_change"]) == ("0.0000475", "0.00001", "-0.00001")
    assert (base["losers_percent"], cut["losers_percent"]) == ("0", "25")
