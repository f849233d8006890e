"""Theil's T, concentration and poverty of access: by hand on the small feed, and person by person on drawn towns."""

import math
import random

import numpy as np
import pytest

from helpers import Town, read
from ttm_tools.measures.inequality import concentration, poverty, theil_of_all


@pytest.fixture
def small(town: Town) -> Town:
    """15 jobs for 100 people at A and 200 at B, 5 for 100 at C."""
    rows = [["base", name, "jobs", 50, 30, number] for name, number in (("A", 15), ("B", 15), ("C", 5))]
    town.write("access.csv", "scenario,id,opportunity,percentile,cutoff,accessibility", rows)
    town.write("people.csv", "stop_id,young,old", [["A", 100, 0], ["B", 0, 200], ["C", 100, 0]])
    town.write("all.csv", "stop_id,all", [["A", 100], ["B", 200], ["C", 100]])
    town.write("income.csv", "stop_id,income", [["A", 3000], ["B", 1000], ["C", 2000]])
    return town


def measured(small: Town, name: str, *arguments: str) -> list[dict[str, str]]:
    people = small.path("people.csv" if name == "theil" else "all.csv")
    out, errors, status = small.ran(
        "equity", small.path("access.csv"), "--people", people, "--measure", name, *arguments
    )
    assert (errors, status) == ("", 0)
    return read(out)


def test_theil_within_and_between_groups_by_hand(small: Town) -> None:
    young, old, both = measured(small, "theil")
    # the mean is 12.5, of the young 10, of the old 15
    whole = (300 * 1.2 * math.log(1.2) + 100 * 0.4 * math.log(0.4)) / 400
    own = (1.5 * math.log(1.5) + 0.5 * math.log(0.5)) / 2
    between = 0.4 * math.log(0.8) + 0.6 * math.log(1.2)
    assert (young["theil"], old["theil"]) == (f"{own:.4f}", "0")
    assert [both[name] for name in ("group", "theil", "within", "between")] == [
        "all groups",
        f"{whole:.4f}",
        f"{0.4 * own:.4f}",
        f"{between:.4f}",
    ]
    assert whole == pytest.approx(0.4 * own + between)


def test_concentration_by_hand(small: Town) -> None:
    (row,) = measured(small, "concentration", "--rank", small.path("income.csv"))
    # B, C, A by income: middles of the ranks 0.25, 0.625, 0.875; 2 (750 + 312.5 + 1312.5) / 5000 - 1
    assert (row["people"], row["concentration"]) == ("400", "-0.05")
    lost = small.write("some.csv", "stop_id,income", [["A", 1]])
    arguments = ["equity", small.path("access.csv"), "--people", small.path("all.csv"), "--measure", "concentration"]
    message = f"{lost}: no ranks for 2 origins of {small.path('access.csv')}: B, C"
    small.refused(message, *arguments, "--rank", lost)


def test_poverty_by_hand(small: Town) -> None:
    (row,) = measured(small, "poverty", "--line", "10")  # a quarter has half of it
    assert [row[f"fgt{power}"] for power in (0, 1, 2)] == ["0.25", "0.125", "0.0625"]
    (row,) = measured(small, "poverty", "--line", "5")
    assert [row[f"fgt{power}"] for power in (0, 1, 2)] == ["0", "0", "0"]


def test_as_markdown_and_wrong_words(small: Town) -> None:
    arguments = ["equity", small.path("access.csv"), "--people", small.path("all.csv")]
    result = small.ran(*arguments, "--measure", "poverty", "--line", "10", "--form", "markdown")[0].splitlines()
    assert result[2] == "| jobs | 50 | 30 | all | base | 400 | 0.25 | 0.125 | 0.0625 |"
    for more in (["--measure", "poverty"], ["--line", "1"], ["--measure", "theil", "--rank", "x"]):
        assert small.ran(*arguments, *more)[2] == 2


@pytest.mark.parametrize("seed", range(6))
def test_drawn_towns_person_by_person(seed: int) -> None:
    draw = random.Random(seed)
    count = draw.randrange(2, 7)
    access = np.array([float(draw.choice([0, 1, 3, 8])) for _ in range(count)])
    access[0] = 5.0
    groups = np.array([[float(draw.randrange(0, 4)), float(draw.randrange(1, 4))] for _ in range(count)])
    people, rank = groups.sum(axis=1), np.array([float(draw.randrange(3)) for _ in range(count)])
    each = [(access[number], rank[number]) for number in range(count) for _ in range(int(people[number]))]
    mean = sum(item for item, _ in each) / len(each)
    whole = sum(item / mean * math.log(item / mean) for item, _ in each if item) / len(each)
    found = theil_of_all(access, groups)
    assert found.theil == pytest.approx(whole) and found.within + found.between == pytest.approx(whole)
    pairs = sum(item * (sum(r < own for _, r in each) + sum(r == own for _, r in each) / 2) for item, own in each)
    index = 2 * pairs / (len(each) ** 2 * mean) - 1
    assert concentration(access, people, rank).concentration == pytest.approx(index)
    line = 4.0
    for power, result in enumerate((poverty(access, people, line).fgt0, poverty(access, people, line).fgt1)):
        assert result == pytest.approx(
            sum(((line - item) / line) ** power for item, _ in each if item < line) / len(each)
        )
