"""Access where people compete, and means over limits: by hand on the small feed, and compared with plain loops."""

import random

import pytest

from helpers import Cell, Town, read, town_matrix
from test_equity import SMALL


@pytest.fixture
def small(town: Town) -> Town:
    """Within 30 minutes 100 people at A reach the 10 jobs at B and the 5 at C, 200 at B those too, and 100 at C the
    5.
    """
    town.matrix(town_matrix(True, {"base": SMALL}, stops="ABC"))
    town.write("jobs.csv", "stop_id,jobs", [["B", 10], ["C", 5]])
    town.write("people.csv", "stop_id,people", [["A", 100], ["B", 200], ["C", 100]])
    return town


def access(town: Town, *arguments: str) -> list[float]:
    common = ["--opportunities", town.path("jobs.csv"), "--scenario", "base", town.file]
    out, errors, status = town.ran("access", *arguments, *common)
    assert (errors, status) == ("", 0)
    return [float(row["accessibility"]) for row in read(out)]


def test_a_floating_catchment_by_hand(small: Town) -> None:
    arguments = ["--competition", "floating", "--demand", small.path("people.csv"), "--cutoffs", "30"]
    # 10 jobs for 300 people, 5 for 400
    assert access(small, *arguments) == pytest.approx([10 / 300 + 5 / 400, 10 / 300 + 5 / 400, 5 / 400], abs=1e-6)


def test_a_balanced_catchment_by_hand(small: Town) -> None:
    arguments = ["--competition", "balanced", "--demand", small.path("people.csv"), "--cutoffs", "30"]
    # half of the people of A and B ask for each: 150 for 10 jobs, 250 for 5, in two and in three parts
    both = 10 / 150 / 2 + 5 / 250 / 3
    assert access(small, *arguments) == pytest.approx([both, both, 5 / 250 / 3], abs=1e-6)


def test_spatial_availability_shares_out_all_there_is(small: Town) -> None:
    arguments = ["--competition", "availability", "--demand", small.path("people.csv"), "--cutoffs", "30"]
    result = access(small, *arguments)
    assert result == pytest.approx([100 * 11 / 240, 200 * 11 / 240, 1.25], abs=1e-5) and sum(result) == pytest.approx(
        15
    )


def test_an_interval_is_the_mean_over_its_limits(small: Town) -> None:
    # B is 10 minutes from A, within all of 31 limits; C half an hour, within 16 of them
    assert access(small, "--interval", "15,45") == pytest.approx([10 + 5 * 16 / 31, 10 + 5 * 16 / 31, 5], abs=1e-6)
    each = [access(small, "--cutoffs", str(limit)) for limit in range(15, 46)]
    assert access(small, "--interval", "15,45") == pytest.approx([sum(item) / 31 for item in zip(*each)], abs=1e-5)
    out = small.ran("access", "--interval", "15,45", "--opportunities", small.path("jobs.csv"), small.file)[0]
    assert out.splitlines()[1].split(",")[:5] == ["base", "A", "jobs", "50", "15-45"]


def test_a_second_past_a_minute_counts_from_the_next_limit_on(small: Town) -> None:
    rows: dict[str, dict[str, list[Cell]]] = {"base": {"A": ["", 1801, ""]}}
    small.matrix(town_matrix(True, rows, stops="ABC"))
    assert access(small, "--interval", "15,45") == pytest.approx([10 * 15 / 31], abs=1e-6)


def test_what_does_not_go_together_is_told(small: Town) -> None:
    common = ["access", "--opportunities", small.path("jobs.csv")]
    demand = ["--demand", small.path("people.csv")]
    for arguments in (
        ["--competition", "floating"],
        demand,
        ["--interval", "15,45", "--nearest", "1"],
        ["--interval", "15"],
        ["--interval", "15.5,45"],
        ["--interval", "15,45", "--decay", "linear", "--decay-value", "3"],
    ):
        assert small.ran(*common, *arguments, small.file)[2] == 2
    two = small.write("two.csv", "stop_id,men,women", [["A", 1, 2]])
    message = f"{two}: it has the columns men, women: choose one with --demand-column"
    small.refused(message, *common, "--competition", "floating", "--demand", two, small.file)
    small.write("people.csv", "stop_id,men,women", [["A", 1, 2], ["B", 1, 1]])
    arguments = ["--competition", "floating", *demand, "--demand-column", "men"]
    assert access(small, *arguments)[0] == pytest.approx(10 / 2 + 5 / 2)


def plain(kind: str, people: list[float], supply: list[float], weights: list[list[float]]) -> list[float]:
    """The formulas as they stand, by loops."""
    ends = [j for j in range(len(supply)) if supply[j] > 0]
    result = []
    for i in range(len(people)):
        total = 0.0
        for j in ends:
            demand = sum(
                people[k] * weights[k][j] / (sum(weights[k][m] for m in ends) if kind == "balanced" else 1)
                for k in range(len(people))
                if weights[k][j]
            )
            sums = sum(weights[k][j] for k in range(len(people)) if people[k] > 0) if kind == "balanced" else 1.0
            total += supply[j] / demand * weights[i][j] / sums if demand and sums else 0.0
        result.append(total * (people[i] if kind == "availability" else 1))
    return result


@pytest.mark.parametrize("seed", range(6))
def test_drawn_matrices_as_plain_loops_say(town: Town, seed: int, monkeypatch: pytest.MonkeyPatch) -> None:
    draw = random.Random(seed)
    monkeypatch.setattr("ttm_tools.matrices.base.CELLS_AT_ONCE", draw.choice([1, 20, 1000]))
    stops = [f"s{number}" for number in range(draw.randrange(2, 9))]
    times: list[Cell] = ["", 0, 600, *[draw.randrange(7200) for _ in range(9)]]
    rows = {name: draw.choices(times, k=len(stops)) for name in stops}
    town.matrix(town_matrix(True, {"base": rows}, stops=stops))
    supply, people = ([draw.choice([0.0, 1.0, 2.5, 7.0]) for _ in stops] for _ in range(2))
    supply[0] = 3.0
    town.write("jobs.csv", "stop_id,jobs", list(zip(stops, supply)))
    town.write("people.csv", "stop_id,people", list(zip(stops, people)))
    cutoff = draw.randrange(5, 100)
    for decay in ("step", "exponential"):
        weights = [
            [
                0.0
                if time == ""
                else float(int(time) <= 60 * cutoff)
                if decay == "step"
                else 2 ** (-int(time) / 60 / cutoff)
                for time in rows[name]
            ]
            for name in stops
        ]
        for kind in ("floating", "balanced", "availability"):
            arguments = ["--competition", kind, "--demand", town.path("people.csv"), "--decay", decay]
            found = access(town, *arguments, "--cutoffs", str(cutoff))
            assert found == pytest.approx(plain(kind, people, supply, weights), abs=2e-6)


def test_people_many_half_lives_away_are_no_competition(town: Town) -> None:
    # with a half-life of a minute, a weight after 17 hours is 2^-1020, near the least number there is
    town.matrix(town_matrix(True, {"base": {"A": ["", 61_200, "", ""], "D": ["", 60, "", ""]}}))
    town.write("jobs.csv", "stop_id,jobs", [["B", 10]])
    town.write("people.csv", "stop_id,people", [["A", 100]])
    for method in ("floating", "balanced", "availability"):
        arguments = [
            "--competition",
            method,
            "--demand",
            town.path("people.csv"),
            "--decay",
            "exponential",
            "--cutoffs",
            "1",
        ]
        assert access(town, *arguments) == [0, 0]
