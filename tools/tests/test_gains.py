"""Who gains and who loses, from a table of access: by hand on the small feed, and with numbers drawn."""

import random

import numpy as np
import pytest

from helpers import Town, read
from ttm_tools.core.text import precise
from ttm_tools.measures.gains import GainCase, gains, with_everyone

HEAD = (
    "scenario,base,base_date,percentile,opportunity,minutes,group,threshold,people,people_gain,people_lose,"
    "people_unchanged,gain_percent,lose_percent,mean_before,mean_after,mean_change,mean_percent"
)
ACCESS = "scenario,id,opportunity,percentile,cutoff,accessibility"
JOBS = {"today": [100, 100, 0], "tram": [110, 75, 4]}


@pytest.fixture
def small(town: Town) -> Town:
    rows = [
        [name, stop, "jobs", 50, 30, jobs] for name, all_jobs in JOBS.items() for stop, jobs in zip("ABC", all_jobs)
    ]
    town.write("access.csv", ACCESS, rows)
    town.write("people.csv", "stop_id,low,high", [["A", 30, 0], ["B", 10, 20], ["C", 0, 3]])
    return town


def test_the_table_by_hand(small: Town) -> None:
    arguments = ["equity", small.path("access.csv"), "--people", small.path("people.csv"), "--gains", "10,25"]
    out, errors, status = small.ran(*arguments)
    assert (errors, status) == ("", 0)
    keys = "tram,today,,50,jobs,30"
    assert out.splitlines() == [
        HEAD,
        f"{keys},low,10,40,30,10,0,75,25,100,101.25,1.25,1.25",  # (30 * 110 + 10 * 75) / 40
        f"{keys},low,25,40,0,10,30,0,25,100,101.25,1.25,1.25",
        # of 23 people 20 had 100 and lose 25, and 3 had none and have 4
        f"{keys},high,10,23,3,20,0,13.0434782609,86.9565217391,86.9565217391,65.7391304348,-21.2173913043,-24.4",
        f"{keys},high,25,23,3,20,0,13.0434782609,86.9565217391,86.9565217391,65.7391304348,-21.2173913043,-24.4",
        f"{keys},all,10,63,33,30,0,52.380952381,47.619047619,95.2380952381,88.2857142857,-6.95238095238,-7.3",
        f"{keys},all,25,63,3,30,30,4.7619047619,47.619047619,95.2380952381,88.2857142857,-6.95238095238,-7.3",
    ]
    rows = read(small.ran(*arguments, "--gain-least", "5")[0])
    assert [row["people_gain"] for row in rows] == ["30", "0", "0", "0", "30", "0"]
    rows = read(small.ran(*arguments, "--base", "tram", "--column", "low")[0])
    assert [(row["scenario"], row["base"], row["people_gain"]) for row in rows] == [("today", "tram", "10")] * 4
    assert (
        small.ran(*arguments, "--form", "markdown")[0].splitlines()[2].startswith("| tram | today |  | 50 | jobs | 30")
    )


def test_a_group_of_everyone_is_named(small: Town) -> None:
    people = small.write("people.csv", "stop_id,residents,old", [["A", 30, 1], ["B", 30, 2], ["C", 3, 3]])
    access = small.path("access.csv")
    arguments = ["equity", access, "--people", people, "--gains", "10"]
    message = (
        f"{people}: residents is nowhere smaller than old, and may count everyone: set --all residents, or --all sum"
    )
    small.refused(message, *arguments)
    for name, count in (("residents", "63"), ("sum", "69")):
        rows = read(small.ran(*arguments, "--all", name)[0])
        assert [(row["group"], row["people"]) for row in rows] == [("residents", "63"), ("old", "6"), ("all", count)]


def test_a_large_group_is_not_taken_for_everyone() -> None:
    people = {"low": np.array([2.0, 1.0]), "middle": np.array([4.0, 4.0]), "high": np.array([1.0, 2.0])}
    assert with_everyone(people, None)["all"].tolist() == [7, 7]
    with pytest.raises(ValueError, match="^middle$"):
        with_everyone({"middle": people["middle"], "low": people["low"]}, None)


@pytest.mark.parametrize(
    "options, message",
    [
        (["--gains", "10", "--lose", "5"], "--lose does nothing with --gains"),
        (["--gain-least", "5"], "--gain-least does nothing without --gains"),
        (["--all", "low"], "--all does nothing without --gains"),
        (["--gains", "10", "--all", "poor"], "--all is 'poor'; allowed: low, high, sum"),
        (["--gains", "10", "--picture", "a.png"], "--picture does not go with --gains"),
        (["--gains", "10", "--measure", "theil"], "--gains does nothing with --measure"),
    ],
)
def test_options_that_do_not_fit_are_refused(small: Town, options: list[str], message: str) -> None:
    arguments = ["equity", small.path("access.csv"), "--people", small.path("people.csv"), *options]
    out, errors, status = small.ran(*arguments)
    assert (out, status) == ("", 2) and errors.splitlines()[-1] == f"ttm-tools equity: {message}"


def test_tables_without_a_change_of_access_are_refused(small: Town) -> None:
    people = ["--people", small.path("people.csv"), "--gains", "10"]
    alone = small.write("alone.csv", ACCESS, [["today", stop, "jobs", 50, 30, 1] for stop in "ABC"])
    message = f"{alone}: --gains compares scenarios, and there is one: name another table as --base"
    small.refused(message, "equity", alone, *people)
    head = "scenario,id,opportunity,percentile,nearest,seconds"
    times = small.write("times.csv", head, [["today", stop, "jobs", 50, 1, 60] for stop in "ABC"])
    message = f"{times}: --gains needs a table of access, and this one has times to the nearest"
    small.refused(message, "equity", times, *people)


def test_drawn_people_are_counted_one_by_one() -> None:
    draw = random.Random(5)
    for _ in range(50):
        before, after, people = ([draw.randrange(0, 30) for _ in range(20)] for _ in range(3))
        percent = draw.choice([0.1, 5, 10, 25, 50, 100])
        each = [(begin, end) for begin, end, count in zip(before, after, people) for _ in range(count)]
        gain = [end > begin and 100 * (end - begin) >= percent * begin for begin, end in each]
        lose = [end < begin and 100 * (begin - end) >= percent * begin for begin, end in each]
        first, second, weights = (np.array(numbers, dtype=np.float64) for numbers in (before, after, people))
        found = gains(GainCase(first, second, weights, percent))
        assert (found.people_gain, found.people_lose) == (sum(gain), sum(lose))
        assert found.people_unchanged == len(each) - sum(gain) - sum(lose)
        assert found.mean_change == pytest.approx(sum(end - begin for begin, end in each) / len(each))


def test_numbers_have_twelve_digits_and_no_exponent() -> None:
    numbers = [0.0, 1e15, 1 / 3, -2e-7, 1234567.25, float("nan"), 2 / 3 * 1e13]
    texts = ["0", "1000000000000000", "0.333333333333", "-0.0000002", "1234567.25", "", "6666666666670"]
    assert list(map(precise, numbers)) == texts
