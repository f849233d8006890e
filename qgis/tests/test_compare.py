"""Comparisons by hand on a small feed, and equal to `ttm-tools compare`."""

from __future__ import annotations

import csv
import subprocess
from pathlib import Path
from typing import Any

import pytest

from helpers import MONDAY, PLACES, SMALL, Direct, layer_of, points, refusal, rows_of, run, write_feed

# T1 takes 12 minutes instead of 10, still in time for T2; T2 doesn't run any more; and a new T3 goes from C to A.
AFTER = {
    **SMALL,
    "routes.txt": SMALL["routes.txt"] + "R3,3,South,3\n",
    "trips.txt": "route_id,service_id,trip_id\nR1,MON,T1\nR3,MON,T3\n",
    "stop_times.txt": SMALL["stop_times.txt"].splitlines()[0] + "\nT1,08:00:00,08:00:00,A,1\nT1,08:12:00,08:12:00,B,2\n"
    "T3,08:00:00,08:00:00,C,1\nT3,08:20:00,08:20:00,A,2\n",
}
PLAN = """\
[[scenario]]
name = "later"
[[scenario.action]]
do = "shift_route"
route = "R1"
seconds = 120

[[scenario]]
name = "without"
[[scenario.action]]
do = "remove_route"
route = "R2"
"""


def given(tmp_path: Path, **more: Any) -> dict[str, Any]:
    rows = [([name, 10.0], "POINT({} {})".format(*PLACES[name])) for name in PLACES]
    ends = {"ORIGINS": points(PLACES), "DESTINATIONS": layer_of(rows, "id:string,jobs:double"), "FIELDS": "jobs"}
    names = {"ORIGIN_ID": "id", "DESTINATION_ID": "id", "CUTOFFS": "11", "OUTPUT": "TEMPORARY_OUTPUT"}
    times = {"DATE": MONDAY, "FROM": "08:00", "TO": "08:00"}
    return {"FEED": str(write_feed(tmp_path / "feed")), **ends, **names, **times, **more}


def test_two_feeds_by_hand(with_program: str, tmp_path: Path) -> None:
    found = run("compare", **given(tmp_path, FEED_AFTER=str(write_feed(tmp_path / "after", AFTER))))["OUTPUT"]
    fields = [
        "before",
        "after",
        "change",
        "percent",
        "what",
        "cut_off",
        "slower",
        "unchanged",
        "faster",
        "new",
        "mean_s",
    ]
    assert found.fields().names() == ["id", *fields]
    assert rows_of(found) == [
        # to B 720 s after 600, which is beyond 11 minutes; to C no more; itself unchanged
        ("A", 20, 10, -10, -50, "loses", 1, 1, 1, 0, 0, 60),
        ("B", 10, 10, 0, 0, "loses", 1, 0, 2, 0, 0, 0),
        ("C", 10, 10, 0, 0, "gains", 0, 0, 2, 0, 1, 0),
    ]
    tolerant = run("compare", **given(tmp_path, FEED_AFTER=str(tmp_path / "after"), TOLERANCE=2))["OUTPUT"]
    assert rows_of(tolerant, "slower", "unchanged", "what")[0] == (0, 2, "loses")


def test_a_scenario_of_a_plan_by_hand(with_program: str, tmp_path: Path) -> None:
    (tmp_path / "plan.toml").write_text(PLAN)
    more = {"PLAN": str(tmp_path / "plan.toml"), "SCENARIO": "without", "LINES": "TEMPORARY_OUTPUT"}
    found = run("compare", **given(tmp_path, **more))
    assert rows_of(found["OUTPUT"], "id", "what", "cut_off", "unchanged", "mean_s") == [
        ("A", "loses", 1, 2, 0),
        ("B", "loses", 1, 2, 0),
        ("C", "unchanged", 0, 3, 0),
    ]
    assert rows_of(found["LINES"]) == [("R2", "2", "removed")]
    later = run("compare", **given(tmp_path, **{**more, "SCENARIO": "later"}))
    assert rows_of(later["OUTPUT"], "id", "slower", "mean_s")[0] == ("A", 1, 40)  # B 120 s later; C and A as before
    assert rows_of(later["LINES"], "route_id", "what") == [("R1", "changed")]
    message = refusal("compare", **given(tmp_path, **{**more, "SCENARIO": ""}))
    assert message == 'Scenario of the plan: "" is not allowed; the plan has: later, without'


def test_what_goes_together(with_program: str, tmp_path: Path) -> None:
    (tmp_path / "plan.toml").write_text(PLAN)
    after = str(write_feed(tmp_path / "after", AFTER))
    assert "one of them" in refusal("compare", **given(tmp_path))
    both = {"FEED_AFTER": after, "PLAN": str(tmp_path / "plan.toml")}
    assert "one of them" in refusal("compare", **given(tmp_path, **both))
    assert "one percentile and one limit" in refusal("compare", **given(tmp_path, FEED_AFTER=after, CUTOFFS="10,20"))
    assert "needs at least 1" in refusal("compare", **given(tmp_path, FEED_AFTER=after, MAX_RIDES=0))


def test_counts_equal_those_of_the_command(with_program: str, tools: str, tmp_path: Path) -> None:
    sides = []
    for name, files in (("before", SMALL), ("after", AFTER)):
        direct = Direct((tools, with_program), tmp_path / name, write_feed(tmp_path / f"feed-{name}", files))
        direct.join({f"{key}2": place for key, place in PLACES.items()}, {key + "3": PLACES[key] for key in "BC"}, 600)
        sides.append(tmp_path / f"{name}.csv")
        sides[-1].write_text(direct.matrix(600, "--from", "08:00", "--to", "08:00", "--trips", "4", "--share", "50"))
    words = ["--by", "origin", "--limit", "0", "--base", str(sides[0]), str(sides[1])]
    ran = subprocess.run([tools, "compare", *words], capture_output=True, text=True, check=True)
    columns = ("cut_off", "slower", "new", "faster")
    expected = {
        row["origin"][0]: tuple(int(row[name]) for name in columns) for row in csv.DictReader(ran.stdout.splitlines())
    }
    more = {"FEED_AFTER": str(tmp_path / "feed-after"), "DESTINATIONS": points(["B", "C"]), "FIELDS": None}
    found = {row[0]: row[1:] for row in rows_of(run("compare", **given(tmp_path, **more))["OUTPUT"], "id", *columns)}
    assert {name: counts for name, counts in found.items() if any(counts)} == {
        name: counts for name, counts in expected.items() if any(counts)
    }


@pytest.mark.parametrize(
    ("before", "after", "access", "what"),
    [
        ([60, None], [None, None], [1.0, 0.0], "cut off"),
        ([None, None], [60, None], [0.0, 1.0], "newly reached"),
        ([60, 60], [90, 60], [5.0, 4.0], "loses"),
        ([60, 60], [60, 50], [5.0, 5.0], "gains"),
        ([None], [None], [0.0, 0.0], "unchanged"),
    ],
)
def test_kinds_of_change(qgis: Any, before: list[Any], after: list[Any], access: list[float], what: str) -> None:
    from ttm_processing.comparison import change_of

    assert change_of(before, after, 0, access).what == what
