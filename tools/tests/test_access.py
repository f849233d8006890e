"""Access: by hand on the small feed, compared with plain formulas on drawn matrices, and as `ttm` prints it."""

import csv
import math
import random
from pathlib import Path

import pytest

from helpers import CALENDAR, STOP_TIMES, Cell, Room, Town, read, town_matrix

HEAD = "id,opportunity,percentile,cutoff,accessibility\n"
SMALL: dict[str, dict[str, list[Cell]]] = {"base": {"A": [0, 600, 1800]}}  # of the feed that `ttm` carries


def measured(town: Town, *arguments: str) -> str:
    out, errors, status = town.ran("access", *arguments, town.file)
    assert (errors, status) == ("", 0)
    return out


@pytest.fixture
def small(town: Town) -> Town:
    """The small feed's matrix, with ten jobs at B and five at C, and half a school at B and one at C."""
    town.matrix(town_matrix(True, SMALL, stops="ABC"))
    town.write("jobs.csv", "stop_id,opportunities", [["B", 10], ["C", 5]])
    town.write("more.csv", "id,name,lat,lon,schools,parks", [["C", "Gamma", 1, 2, 1, 0], ["B", "", 0, 0, 0.5, 2.25]])
    return town


def test_limits_by_hand(small: Town) -> None:
    arguments = ["--opportunities", small.path("jobs.csv"), "--scenario", "base", "--cutoffs", "9.99,10,29.98,30"]
    expected = "A,jobs,50,9.99,0\nA,jobs,50,10,10\nA,jobs,50,29.98,10\nA,jobs,50,30,15\n"
    assert measured(small, *arguments) == HEAD + expected


def test_decays_by_hand(small: Town) -> None:
    for decay, expected in (
        (["linear", "--cutoffs", "30", "--decay-value", "20"], 10 + 5 * 0.5),  # 20 minutes to 40, C in its middle
        (["linear", "--cutoffs", "10,30", "--decay-value", "8"], 10 * 0.5),  # 6 minutes to 14
        (["exponential", "--cutoffs", "10"], 10 / 2 + 5 / 8),
        (["logistic", "--cutoffs", "10", "--decay-value", "5"], 5.136528),  # 10 * 1.02658 / 2 + 5 * 1.02658 / 1416.4
    ):
        arguments = ["--opportunities", small.path("jobs.csv"), "--decay", *decay]
        assert float(read(measured(small, *arguments))[0]["accessibility"]) == pytest.approx(expected, abs=1e-4)


def test_the_nearest_by_hand(small: Town) -> None:
    arguments = ["--opportunities", small.path("jobs.csv"), "--nearest", "1,10,11,16"]
    near, far = "600,B,B,0\n", "1800,C,C,0\n"
    lines = f"base,A,jobs,50,1,{near}base,A,jobs,50,10,{near}base,A,jobs,50,11,{far}base,A,jobs,50,16,,,,\n"
    head = "scenario,id,opportunity,percentile,nearest,seconds,to_id,to_name,ties\n"
    assert measured(small, *arguments) == head + lines
    arguments = ["--opportunities", small.path("more.csv"), "--column", "schools", "--nearest", "0.5,1"]
    assert [row["seconds"] for row in read(measured(small, *arguments))] == ["600", "1800"]


def ends(town: Town, *arguments: str) -> list[tuple[str, str, str, str]]:
    rows = read(measured(town, *arguments))
    return [(row["seconds"], row["to_id"], row["to_name"], row["ties"]) for row in rows]


def test_the_nearest_has_the_first_name_of_file_points_and_feed(small: Town) -> None:
    """Only C has a name in the file of opportunities; B has one in the feed, and another in a file of points."""
    arguments = ["--opportunities", small.path("more.csv"), "--column", "schools", "--nearest", "0.5,1"]
    assert ends(small, *arguments) == [("600", "B", "B", "0"), ("1800", "C", "Gamma", "0")]
    named = read(Path(small.feed, "stops.txt").read_text())
    (own,) = [row["stop_name"] for row in named if row["stop_id"] == "B"]
    assert own != "B" and ends(small, *arguments, "--feed", small.feed)[0] == ("600", "B", own, "0")
    points = small.write("places.csv", "id,name,lat,lon", [[name, f"Place {name}", 1, 2] for name in "ABC"])
    found = ends(small, *arguments, "--points", points)
    assert found == [("600", "B", "Place B", "0"), ("1800", "C", "Gamma", "0")]


def test_ties_are_other_destinations_with_the_opportunity_at_the_same_time(small: Town) -> None:
    """From A the jobs at B and C are 600 seconds away, as D without any is; three jobs are complete at C and not B."""
    small.matrix(town_matrix(True, {"base": {"A": [0, 600, 600, 600, 700]}}, stops="ABCDE"))
    jobs = small.write("tied.csv", "stop_id,jobs", [["B", 2], ["C", 2], ["D", 0], ["E", 9]])
    arguments = ["--opportunities", jobs, "--nearest", "1,3,5"]
    assert ends(small, *arguments) == [("600", "B", "B", "1"), ("600", "C", "C", "1"), ("700", "E", "E", "0")]
    assert ends(small, *arguments[:3], "1,2,3,4", "--of", "places")[1:] == [
        ("600", "C", "C", "1"),
        ("700", "E", "E", "0"),
        ("", "", "", ""),
    ]


def test_a_column_for_each_opportunity_and_cutoff(small: Town) -> None:
    files = ["--opportunities", small.path("jobs.csv"), "--opportunities", small.path("more.csv")]
    out = measured(small, *files, "--cutoffs", "10,30", "--form", "wide")
    heads = "scenario,id,percentile,jobs_10,jobs_30,schools_10,schools_30,parks_10,parks_30\n"
    assert out == heads + "base,A,50,10,15,0.5,1.5,2.25,2.25\n"
    out = measured(small, *files, "--column", "parks", "--nearest", "1,3", "--form", "wide", "--scenario", "base")
    assert out == "id,percentile,parks_nearest_1,parks_nearest_3\nA,50,600,\n"


def test_shares_stay_apart(small: Town) -> None:
    small.matrix(town_matrix(True, SMALL, shares=(25, 50), stops="ABC"))
    arguments = ["--opportunities", small.path("jobs.csv"), "--cutoffs", "5,15", "--scenario", "base"]
    lines = "A,jobs,25,5,10\nA,jobs,25,15,15\nA,jobs,50,5,0\nA,jobs,50,15,10\n"
    assert measured(small, *arguments) == HEAD + lines
    assert measured(small, *arguments, "--share", "50") == HEAD + "".join(lines.splitlines(True)[2:])
    small.matrix(town_matrix(False, SMALL, stops="ABC"))  # a matrix that names no share
    assert measured(small, *arguments) == HEAD + "A,jobs,,5,0\nA,jobs,,15,10\n"


def test_wrong_files_are_told(small: Town) -> None:
    path = small.path("bad.csv")
    wrong: list[tuple[str, list[Cell], str]] = [
        ("stop_id,jobs", ["X", 1], f"{path}: record 2: no stop of the matrix is called X"),
        ("stop_id,jobs", ["B", -1], f"{path}: record 2: jobs '-1' is invalid; allowed: a number from 0 on"),
        ("stop_id,jobs", ["B", ""], f"{path}: record 2: jobs '' is invalid; allowed: a number from 0 on"),
        ("stop,jobs", ["B", 1], f"{path}: record 1: no column stop_id or id"),
        ("stop_id", ["B"], f"{path}: record 1: no column of numbers"),
    ]
    for header, row, printed in wrong:
        small.write("bad.csv", header, [row])
        small.refused(printed, "access", "--opportunities", path, small.file)
    small.write("bad.csv", "stop_id,jobs", [["B", 1], ["B", 1]])
    small.refused(f"{path}: record 3: B occurs twice", "access", "--opportunities", path, small.file)
    jobs = small.path("jobs.csv")
    small.write("bad.csv", "stop_id,jobs", [["B", 1]])
    both = ["access", "--opportunities", jobs, "--opportunities", path, small.file]
    small.refused(f"{path}: a column jobs is in another file too", *both)
    printed = f"{jobs}: no column parks; there are jobs"
    small.refused(printed, "access", "--opportunities", jobs, "--column", "parks", small.file)


def test_words_that_do_not_go_together(small: Town) -> None:
    for arguments in (
        ["--decay", "linear"],
        ["--decay", "step", "--decay-value", "3"],
        ["--decay", "exponential", "--cutoffs", "0,5"],
        ["--nearest", "0,1"],
        ["--cutoffs", "30,15"],
    ):
        out, _, status = small.ran("access", "--opportunities", small.path("jobs.csv"), *arguments, small.file)
        assert (out, status) == ("", 2), arguments


def plain_weight(decay: str, value: float, cutoff: float, minutes: float) -> float:
    """The formulas of docs/reference/measures.md, one travel time at a time."""
    if decay == "linear":
        return 1 - min(1, max(0, minutes - (cutoff - value / 2)) / value)
    if decay == "exponential":
        return math.exp(-math.log(2) * minutes / cutoff)
    if decay == "logistic":
        steep = math.pi / (value * math.sqrt(3))
        return (1 + math.exp(-cutoff * steep)) / (1 + math.exp((minutes - cutoff) * steep))
    return 1 if minutes <= cutoff else 0


def plain_nearest(times: list[Cell], numbers: list[float], count: float) -> str:
    """The least time of which the numbers at all stops within it add up to the count."""
    for time in sorted(time for time in times if isinstance(time, int)):
        if sum(n for t, n in zip(times, numbers) if isinstance(t, int) and t <= time) >= count - 1e-9:
            return str(time)
    return ""


@pytest.mark.parametrize("seed", range(6))
def test_drawn_matrices_measure_as_plain_formulas_say(town: Town, seed: int, monkeypatch: pytest.MonkeyPatch) -> None:
    draw = random.Random(seed)
    monkeypatch.setattr("ttm_tools.matrices.base.CELLS_AT_ONCE", draw.choice([1, 20, 1000]))
    stops = [f"s{number}" for number in range(draw.randrange(2, 12))]
    times: list[Cell] = ["", 0, 600, *[draw.randrange(7200) for _ in range(9)]]
    rows = {name: draw.choices(times, k=len(stops)) for name in stops}
    town.matrix(town_matrix(True, {"base": rows}, stops=stops))
    numbers = {name: [draw.choice([0, 1, 2.5, draw.random()]) for _ in stops] for name in ("jobs", "parks")}
    town.write("some.csv", "stop_id,jobs,parks", list(zip(stops, *numbers.values())))
    arguments = ["--opportunities", town.path("some.csv"), "--scenario", "base"]
    cutoffs, value = sorted(draw.sample(range(1, 120), 3)), draw.uniform(1, 60)
    for decay in ("step", "linear", "exponential", "logistic"):
        own = [] if decay in ("step", "exponential") else ["--decay-value", str(value)]
        rest = ["--decay", decay, *own, "--cutoffs", ",".join(map(str, cutoffs))]
        for row in read(measured(town, *arguments, *rest)):
            expected = sum(
                plain_weight(decay, value, int(row["cutoff"]), time / 60) * count
                for time, count in zip(rows[row["id"]], numbers[row["opportunity"]])
                if isinstance(time, int)
            )
            assert float(row["accessibility"]) == pytest.approx(expected, abs=2e-6)
    for row in read(measured(town, *arguments, "--nearest", "0.5,1,3,7")):
        expected_time = plain_nearest(rows[row["id"]], numbers[row["opportunity"]], float(row["nearest"]))
        assert row["seconds"] == expected_time


def test_limits_give_what_ttm_prints_as_access(town: Town, program: str) -> None:
    town.write("routes.txt", "route_id", [["R"], ["Q"]])
    town.write("calendar.txt", *CALENDAR)
    trips = [["R", "M", f"T{number}"] for number in range(6)]
    town.write("trips.txt", "route_id,service_id,trip_id", trips)
    calls = [(n, k, stop, f"08:{10 * n + 3 * k:02}:00") for n in range(6) for k, stop in enumerate("ABC")]
    town.write("stop_times.txt", STOP_TIMES, [[f"T{n}", time, time, stop, k] for n, k, stop, time in calls])
    draw = random.Random(3)
    counts = [[stop, draw.randrange(1 << 31)] for stop in "ABCD"]
    jobs = town.write("jobs.csv", "stop_id,opportunities", counts)
    cut = town.write("cut.csv", "action,id,seconds", [["remove_trip", "T1", ""]])
    arguments = f"--feed {town.folder} --date 20260504 --from 08:00 --to 08:19 --trips 3 --walk 0 --share 25,50,90"
    town.take(program, f"{arguments} --within 0,180,420,900 --workers 1 --tries 1 --opportunities {jobs} {cut}")
    options = ["--opportunities", jobs, "--cutoffs", "0,3,7,15", "--form", "wide"]
    rows = [list(row.values()) for row in read(measured(town, *options))]
    with open(town.file, newline="", encoding="utf-8") as file:
        printed = [row[:7] for row in list(csv.reader(file))[1:]]
    assert rows == printed and len({row[3] for row in rows}) > 1


def test_an_open_matrix_file_measures_as_the_matrix(small: Town) -> None:
    pytest.importorskip("h5py")
    assert small.ran("omx", "--out", small.path("small.omx"), small.file)[2] == 0
    arguments = ["access", "--opportunities", small.path("jobs.csv")]
    assert small.ran(*arguments, small.path("small.omx"))[0] == small.ran(*arguments, small.file)[0]


def test_what_is_damaged_leaves_nothing(small: Room) -> None:
    Path(small.path("jobs.csv")).write_bytes(b"stop_id,jobs\nB,\xff1\n")
    before = small.names()
    arguments = ["access", "--opportunities", small.path("jobs.csv"), "--out", small.path("out.csv")]
    assert small.ran(*arguments, small.path("matrix.csv"))[2] == 1
    assert small.names() == before
