"""Access and who can reach a place, by hand on a small feed, and equal to `ttm-tools access`."""

from __future__ import annotations

import csv
import subprocess
from pathlib import Path
from typing import Any

import pytest

from helpers import MONDAY, PLACES, Direct, layer_of, points, refusal, rows_of, run, write_feed


def jobs(*rows: tuple[str, Any, Any]) -> Any:
    """Returns workplaces at stops, with two fields of numbers."""
    shapes = [(row, "POINT({} {})".format(*PLACES[row[0]])) for row in rows]
    return layer_of(shapes, "id:string,jobs:double,schools:integer")


def given(tmp_path: Path, **more: Any) -> dict[str, Any]:
    ends = {"ORIGINS": points(["A", "C"]), "ORIGIN_ID": "id", "DESTINATIONS": jobs(("B", 10.5, 1), ("C", 5, None))}
    times = {"DESTINATION_ID": "id", "DATE": MONDAY, "FROM": "08:00", "TO": "08:00", "OUTPUT": "TEMPORARY_OUTPUT"}
    return {"FEED": str(write_feed(tmp_path / "feed")), **ends, **times, "FIELDS": ["jobs"], **more}


def test_access_by_hand(with_program: str, tmp_path: Path) -> None:
    log: list[str] = []
    found = run("access", **given(tmp_path, FIELDS=["jobs", "schools"], CUTOFFS="10 30", log=log))["OUTPUT"]
    assert found.fields().names() == ["id", "jobs_10", "jobs_30", "schools_10", "schools_30"]
    assert rows_of(found) == [("A", 10.5, 15.5, 1, 1), ("C", 5, 5, 0, 0)]
    assert "Destinations: 1 features have no value in schools; each counts as 0" in log


def test_places_and_percentiles(with_program: str, tmp_path: Path) -> None:
    more = {"FIELDS": [], "CUTOFFS": "11", "FROM": "07:58", "TO": "08:01", "PERCENTILES": "25,75", "DAYS_AFTER": 0}
    found = run("access", **given(tmp_path, **more))["OUTPUT"]
    assert found.fields().names() == ["id", "places_11_p25", "places_11_p75"]
    assert rows_of(found)[0] == ("A", 1, 0)  # B takes 600 seconds at 25, and 720 at 75


def test_decays_by_hand(with_program: str, tmp_path: Path) -> None:
    found = run("access", **given(tmp_path, DECAY=2, CUTOFFS="10"))["OUTPUT"]
    assert rows_of(found)[0] == ("A", pytest.approx(10.5 / 2 + 5 / 8))  # half for each 10 minutes: 600 s, 1,800 s
    assert "Width of the decay (minutes): the decay linear needs it" in refusal("access", **given(tmp_path, DECAY=1))
    assert "the decay step has none" in refusal("access", **given(tmp_path, DECAY_VALUE=5))


def test_decays_equal_those_of_the_command(with_program: str, tools: str, tmp_path: Path) -> None:
    direct = Direct((tools, with_program), tmp_path / "direct", write_feed(tmp_path / "feed"))
    ends = {"B2": PLACES["B"], "C2": PLACES["C"]}
    direct.join({"A2": PLACES["A"]}, ends, 600)
    matrix, counts = tmp_path / "matrix.csv", tmp_path / "counts.csv"
    matrix.write_text(direct.matrix(600, "--from", "08:00", "--to", "08:00", "--trips", "4", "--share", "50"))
    counts.write_text("stop_id,jobs\nB2,10.5\nC2,5\n")
    for place, (decay, value) in enumerate([("linear", "10"), ("logistic", "8")]):
        words = ["--decay", decay, "--decay-value", value, "--cutoffs", "20", "--opportunities", counts, matrix]
        ran = subprocess.run([tools, "access", *map(str, words)], capture_output=True, text=True, check=True)
        expected = float(list(csv.DictReader(ran.stdout.splitlines()))[0]["accessibility"])
        assert 0 < expected < 15.5
        options = {"DECAY": 1 + 2 * place, "DECAY_VALUE": float(value), "CUTOFFS": "20"}
        assert rows_of(run("access", **given(tmp_path, **options))["OUTPUT"])[0] == ("A", pytest.approx(expected))


def test_numbers_that_are_refused(with_program: str, tmp_path: Path) -> None:
    message = refusal("access", **given(tmp_path, DESTINATIONS=jobs(("B", -1, 1))))
    assert message == "Destinations: feature 1 has -1.0 in jobs; numbers from 0 on are allowed"
    taken = layer_of([(["A", 3], "POINT(-0.10 51.50)")], "id:string,jobs_30:integer")
    assert 'Origins: the layer has a field "jobs_30" already' in refusal("access", **given(tmp_path, ORIGINS=taken))


def homes() -> Any:
    rows = {"A": 100, "B": 50, "C": 7}
    shapes = [([name, people], "POINT({} {})".format(*PLACES[name])) for name, people in rows.items()]
    return layer_of([*shapes, (["far", 43], "POINT(-0.3 51.3)")], "id:string,people:integer")


@pytest.mark.parametrize("place", ["-0.08,51.54 [EPSG:4326]", "-8905.56,6717375.12 [EPSG:3857]"])
def test_who_can_reach_by_hand(with_program: str, tmp_path: Path, place: str) -> None:
    out = {"OUTPUT": "TEMPORARY_OUTPUT", "SUMMARY": "TEMPORARY_OUTPUT", "PEOPLE": ["people"], "CUTOFFS": "15,33"}
    times = {"DATE": MONDAY, "FROM": "07:58", "TO": "07:58", "ORIGINS": homes(), "ORIGIN_ID": "id"}
    found = run("whocanreach", FEED=str(write_feed(tmp_path / "feed")), PLACE=place, **times, **out)
    rows = rows_of(found["OUTPUT"])
    assert [(row[0], row[3]) for row in rows] == [("A", 33), ("B", 33), ("C", 15), ("far", None)]
    assert 1920 <= rows[0][2] <= 1922 and rows[2][2] <= 2  # the other projection may move the place by centimetres
    assert rows_of(found["SUMMARY"]) == [(15, 50, 1, 7, 3.5), (33, 50, 3, 157, 78.5)]
