"""A greatest travel time: in each command a pair that takes longer counts as not reached, and is reported."""

import csv
import json
from pathlib import Path

import pytest

from helpers import Town, read, town_matrix

END = "pairs beyond 30 minutes count as not reached"
MOST = ("--max-minutes", "30")


def test_compare_counts_longer_pairs_as_not_reached(town: Town) -> None:
    town.matrix(town_matrix(True))  # base A to D 2400 s, cut A to C 1900 s
    out, errors, _ = town.ran("compare", *MOST, town.file)
    lines = ["A,C,cut off,900,,", "D,B,new,,1700,", "D,A,faster,1500,1400,-100"]
    assert out.splitlines()[1:] == lines
    assert (
        errors
        == f"cut compared with base: of 8 pairs 1 cut off, 0 slower, 1 new, 1 faster (by more than 60 seconds; {END})\n"
    )


def test_access_that_the_matrix_counts_beyond_it_is_refused(town: Town) -> None:
    town.matrix(town_matrix(True, limits=(600, 1800)))
    arguments = ["compare", "--by", "origin", "--max-minutes", "20", town.file]
    message = "access of the matrix counts pairs that take longer than the greatest travel time, 1200 seconds"
    town.refused(f"{town.file}: {message}: use ttm-tools access", *arguments, "--within", "1800")
    # by the limit that is left, 600 s, A reaches itself and B in both; it is cut off from C, 1900 s away
    assert town.ran(*arguments)[0].splitlines()[1] == "A,2,2,0,0.0,1,0,0,0"
    town.matrix(town_matrix(True))
    town.refused(f"{town.file}: {message}: use ttm-tools access", *arguments)


def test_access_and_the_nearest_end_there(town: Town) -> None:
    town.matrix(town_matrix(True))
    jobs = town.write("jobs.csv", "stop_id,jobs", [["C", 10], ["D", 5]])
    arguments = ["access", "--opportunities", jobs, "--scenario", "base", town.file]
    plain = [row["accessibility"] for row in read(town.ran(*arguments, "--cutoffs", "60")[0])]
    ended = [row["accessibility"] for row in read(town.ran(*arguments, "--cutoffs", "60", *MOST)[0])]
    assert (plain, ended) == (["15", "15"], ["10", "15"])
    arguments += ["--nearest", "11"]
    assert [row["seconds"] for row in read(town.ran(*arguments)[0])] == ["2400", "600"]
    assert [row["seconds"] for row in read(town.ran(*arguments, *MOST)[0])] == ["", "600"]


def test_long_tables_and_gis_end_there(town: Town) -> None:
    town.matrix(town_matrix(True))
    arguments = ["long", "--scenario", "base", "--reached", *MOST, town.file]
    result = {(row["origin"], row["destination"]) for row in csv.DictReader(town.ran(*arguments)[0].splitlines())}
    assert ("A", "D") not in result and ("A", "C") in result
    out = town.path("a.geojson")
    arguments = ["gis", "--feed", town.feed, "--origin", "A", "--scenario", "base", *MOST, "--out", out, town.file]
    assert town.ran(*arguments)[2] == 0
    features = json.loads(Path(out).read_text())["features"]
    assert [feature["properties"]["base_50_seconds"] for feature in features] == [0, 300, 900, None]


def test_points_have_the_same_end(town: Town) -> None:
    town.matrix(town_matrix(True))
    points = town.write("mine.csv", "id,lat,lon", [["A", 0, 9], ["D", 0.02, 9]])
    out, errors, _ = town.ran("compare", *MOST, "--points", points, town.file)
    assert (out.splitlines()[1:], END in errors) == (["D,D,A,A,faster,1500,1400,-100"], True)


def test_the_page_and_maps_tell_it(town: Town, monkeypatch: pytest.MonkeyPatch) -> None:
    pytest.importorskip("jinja2")
    pytest.importorskip("matplotlib")
    from test_maps import figure

    town.matrix(town_matrix(True))
    texts, _, classes = figure(town, monkeypatch, "times", "--origin", "A", *MOST)
    assert END in texts[2].replace("\n", " ") and "not reached  (1)" in classes
    monkeypatch.undo()
    assert town.ran("page", "--feed", town.feed, *MOST, "--out", town.path("p.html"), town.file)[2] == 0
    assert "Pairs beyond 30 minutes count as not reached." in Path(town.path("p.html")).read_text()
