"""Two matrices, or two tables, compared: matched by identifiers; what is in only one of them is reported."""

import json
from pathlib import Path

import pytest

from helpers import TOWN, Cell, Town, read, town_matrix
from ttm_tools.matrices.joined import labels_of

OLD, NEW = {"base": TOWN["base"]}, {"base": TOWN["cut"]}  # both under the name base
PAIRS = ["A,D,cut off,2400,,", "A,C,slower,900,1900,1000", "D,B,new,,1700,", "D,A,faster,1500,1400,-100"]


@pytest.fixture
def two(town: Town) -> Town:
    """The town's base as old.csv, and what it has without a line as new.csv, both under the name base."""
    for name, scenario in (("old.csv", OLD), ("new.csv", NEW)):
        Path(town.path(name)).write_text(town_matrix(True, scenario))
    town.file = town.path("new.csv")
    return town


def heading(two: Town, more: str = "", base: str = "") -> str:
    old, new = two.path("old.csv"), two.path("new.csv")
    return f"new is {new} (scenario base{more}); old is {old} (scenario base{base or more})"


def test_pairs_are_those_of_two_scenarios_of_one_file(two: Town) -> None:
    out, errors, status = two.ran("compare", "--base", two.path("old.csv"), two.file)
    assert (out.splitlines()[1:], status) == (PAIRS, 0)
    counts = "of 8 pairs 1 cut off, 1 slower, 1 new, 1 faster (by more than 60 seconds)"
    assert errors.splitlines() == [heading(two), f"new compared with old: {counts}"]
    arguments = ["compare", "--by", "origin", "--base", two.path("old.csv")]
    assert two.ran(*arguments, two.file)[0].splitlines()[1:] == ["A,3,2,-1,-33.3,1,1,0,0", "D,3,4,1,33.3,0,0,1,1"]


def test_another_order_and_other_stops_are_matched_by_identifiers(two: Town) -> None:
    rows: dict[str, list[Cell]] = {"D": [0, "", 600, 1500, 7], "Z": [0, 0, 0, 0, 0], "A": [2400, 300, 900, 0, 7]}
    Path(two.path("old.csv")).write_text(town_matrix(True, {"base": rows}, stops="DBCAY"))
    out, errors, status = two.ran("compare", "--base", two.path("old.csv"), two.file)
    assert (out.splitlines()[1:], status) == (PAIRS, 0)
    old, new = two.path("old.csv"), two.path("new.csv")
    assert errors.splitlines()[:2] == [
        f"1 of 3 origins of {old} aren't in {new}, and are left out: Z",
        f"1 of 5 stops of {old} aren't in {new}, and are left out: Y",
    ]
    assert errors.splitlines()[2] == heading(two)


def test_other_percentiles_are_said_and_common_ones_are_taken(two: Town) -> None:
    Path(two.path("old.csv")).write_text(town_matrix(True, OLD, shares=(25, 50, 75)))
    assert two.ran("compare", "--base", two.path("old.csv"), two.file)[0].splitlines()[1:] == PAIRS
    Path(two.path("new.csv")).write_text(town_matrix(True, NEW, shares=(40,)))
    message = f"{two.path('old.csv')}: no percentile in common with {two.file}, which has 40"
    two.refused(message, "compare", "--base", two.path("old.csv"), two.file)
    Path(two.path("old.csv")).write_text(town_matrix(True, OLD))
    message = two.ran("compare", "--base", two.path("old.csv"), two.file)[1]
    assert message.splitlines()[0] == heading(two, ", percentile 40", ", percentile 50")


def test_days_and_windows_are_those_that_studies_tell(two: Town) -> None:
    texts = {name: Path(two.path(name)).read_text() for name in ("old.csv", "new.csv")}
    for name, day, window in (("old", "20260504", ["07:00", "08:59"]), ("new", "20260503", ["19:00", "20:59"])):
        folder = two.folder / name
        folder.mkdir()
        (folder / "matrix.csv").write_text(texts[f"{name}.csv"])
        (folder / "study.json").write_text(json.dumps({"run": {"date": day, "window": window}}))
    new, old = two.path("new/matrix.csv"), two.path("old/matrix.csv")
    errors = two.ran("compare", "--base", old, new)[1]
    first = f"new is {new} (scenario base, 2026-05-03, 19:00 to 20:59)"
    assert errors.splitlines()[0] == f"{first}; old is {old} (scenario base, 2026-05-04, 07:00 to 08:59)"


def test_a_scenario_of_the_base_may_be_named(two: Town) -> None:
    Path(two.path("old.csv")).write_text(town_matrix(True, {"base": TOWN["cut"], "best": TOWN["base"]}))
    arguments = ["compare", "--base", two.path("old.csv"), "--base-scenario"]
    assert two.ran(*arguments, "best", two.file)[0].splitlines()[1:] == PAIRS
    message = f"{two.path('old.csv')}: no scenario worst; it has base, best"
    two.refused(message, *arguments, "worst", two.file)
    assert two.ran("compare", "--base-scenario", "base", two.file)[2] == 2


def test_map_page_and_isochrones_take_a_base_too(two: Town, monkeypatch: pytest.MonkeyPatch) -> None:
    pytest.importorskip("matplotlib")
    pytest.importorskip("jinja2")
    pytest.importorskip("shapely")
    from matplotlib.figure import Figure

    figures: list[Figure] = []
    old = ["--base", two.path("old.csv"), "--feed", two.feed]
    with monkeypatch.context() as patched:
        patched.setattr(Figure, "savefig", lambda figure, *_, **__: figures.append(figure))
        assert two.ran("map", "difference", *old, "--origin", "A", "--out", two.path("m.png"), two.file)[2] == 0
    texts = [text.get_text().replace("\n", " ") for text in figures[0].texts]
    assert texts[:2] == [
        "Travel time from Alpha (A): new compared with old",
        "Of 4 stops 1 cut off, 1 slower, 0 faster",
    ]
    assert two.ran("page", *old, "--out", two.path("p.html"), two.file)[2] == 0
    page = Path(two.path("p.html")).read_text()
    assert '"scenarios":["old","new"]' in page and "Matrix: old.csv" in page
    out = two.path("a.geojson")
    assert two.ran("isochrones", *old, "--origin", "A", "--bands", "10", "--out", out, two.file)[2] == 0
    result = [feature["properties"] for feature in json.loads(Path(out).read_text())["features"]]
    assert [(item["scenario"], item["reached"]) for item in result] == [("old", 2), ("new", 2)]


def test_equity_takes_the_base_of_another_table(two: Town) -> None:
    heads = "scenario,id,opportunity,percentile,cutoff,accessibility"
    old = two.write("monday.csv", heads, [["base", "A", "j", 50, 30, 10], ["base", "B", "j", 50, 30, 4]])
    more = [["base", "C", "j", 50, 30, 1], ["base", "A", "j", 50, 30, 5]]
    new = two.write("sunday.csv", heads, [*more, ["base", "B", "j", 50, 30, 4]])
    people = two.write("people.csv", "id,all", [["A", 1], ["B", 3]])
    out, errors, status = two.ran("equity", new, "--base", old, "--people", people)
    assert (errors, status) == (f"1 of 3 origins of {new} aren't in {old}, and are left out: C\n", 0)
    result = [(row["scenario"], row["mean"], row["losers_percent"]) for row in read(out)]
    assert result == [("monday", "5.5", "0"), ("sunday", "4.25", "25")]


def test_files_are_called_by_what_tells_them_apart() -> None:
    assert labels_of("a/new.csv", "b/old.omx") == ("new", "old")
    assert labels_of("/x/sunday/matrix.omx", "/x/monday/matrix.omx") == ("sunday", "monday")
    assert labels_of("a/m/matrix.csv", "b/m/matrix.omx") == ("a/m/matrix.csv", "b/m/matrix.omx")
    assert labels_of("m.csv", "m.csv") == ("m.csv", "m.csv (base)")
