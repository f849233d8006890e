"""The time to the nearest on maps, in files for geographic information systems, for people, and people by band."""

import json
from pathlib import Path

import pytest

from helpers import Town, read, town_matrix
from test_equity import SMALL, WITHOUT


@pytest.fixture
def small(town: Town) -> Town:
    """The small feed with a school at C, with the trip from B to C and without it."""
    town.matrix(town_matrix(True, {"base": SMALL, "cut": WITHOUT}, stops="ABC"))
    town.write("schools.csv", "stop_id,schools", [["C", 1]])
    town.write("jobs.csv", "stop_id,jobs", [["B", 10], ["C", 5]])
    town.write("people.csv", "stop_id,residents", [["A", 100], ["B", 200], ["C", 100]])
    kinds: dict[str, list[str]] = {"schools": ["--nearest", "1"], "jobs": []}
    for name, more in kinds.items():
        arguments = ["--opportunities", town.path(f"{name}.csv"), *more, "--out", town.path(f"{name}_access.csv")]
        assert town.ran("access", *arguments, town.file)[2] == 0
    return town


def people_of(small: Town, command: str, name: str, *arguments: str) -> str:
    out, errors, status = small.ran(command, small.path(name), "--people", small.path("people.csv"), *arguments)
    assert (errors, status) == ("", 0)
    return out


def test_equity_of_the_nearest_by_hand(small: Town) -> None:
    """A and B need 30 minutes to the school at C, and don't get there without the trip."""
    out = people_of(small, "equity", "schools_access.csv")
    head = "people,reached_percent,mean_minutes,median_minutes,nine_tenths_minutes,losers_percent"
    # (300 people * 30 + 100 * 0) / 400 = 22.5; of the 400 the 200th and the 360th need 30 minutes
    lines = ["schools,50,1,residents,base,400,100,22.5,30,30,0", "schools,50,1,residents,cut,400,25,0,,,75"]
    assert out.splitlines() == [f"opportunity,percentile,nearest,group,scenario,{head}", *lines]


def test_a_loser_of_the_nearest_needs_so_many_percent_longer(town: Town) -> None:
    table = [["base", "A", "s", 50, 1, 1000], ["base", "B", "s", 50, 1, ""], ["cut", "A", "s", 50, 1, 1100]]
    heads = "scenario,id,opportunity,percentile,nearest,seconds"
    path = town.write("access.csv", heads, [*table, ["cut", "B", "s", 50, 1, 60]])
    people = town.write("people.csv", "id,all", [["A", 3], ["B", 1]])
    arguments = ["equity", path, "--people", people]
    assert [row["losers_percent"] for row in read(town.ran(*arguments)[0])] == ["0", "75"]
    assert [row["losers_percent"] for row in read(town.ran(*arguments, "--lose", "10.1")[0])] == ["0", "0"]
    assert [row["losers_percent"] for row in read(town.ran(*arguments, "--base", "cut")[0])] == ["25", "0"]
    message = "of times to the nearest ttm-tools bands draws a picture"
    town.refused(f"{path}: {message}", *arguments, "--picture", town.path("p.png"), "--out", town.path("o.csv"))


def test_people_by_band_of_access(small: Town) -> None:
    out = people_of(small, "bands", "jobs_access.csv", "--bands", "5,10,11")
    assert out.splitlines()[0] == "opportunity,percentile,cutoff,group,scenario,at_least,people,percent"
    base, cut = "jobs,50,30,residents,base", "jobs,50,30,residents,cut"  # 15, 15 and 5 jobs; 10, 10 and 5
    before = [f"{base},5,400,100", f"{base},10,300,75", f"{base},11,300,75"]
    assert out.splitlines()[1:] == [*before, f"{cut},5,400,100", f"{cut},10,300,75", f"{cut},11,0,0"]
    markdown = people_of(small, "bands", "jobs_access.csv", "--bands", "5", "--form", "markdown").splitlines()
    assert markdown[2] == "| jobs | 50 | 30 | residents | base | 5 | 400 | 100 |"
    assert small.ran("bands", small.path("jobs_access.csv"), "--people", small.path("people.csv"))[2] == 2


def test_people_by_band_of_the_nearest(small: Town) -> None:
    out = people_of(small, "bands", "schools_access.csv", "--bands", "0,29.9,30")
    assert out.splitlines()[0] == "opportunity,percentile,nearest,group,scenario,within_minutes,people,percent"
    result = [(row["scenario"], row["within_minutes"], row["people"], row["percent"]) for row in read(out)]
    assert result[:3] == [("base", "0", "100", "25"), ("base", "29.9", "100", "25"), ("base", "30", "400", "100")]
    assert result[3:] == [("cut", limit, "100", "25") for limit in ("0", "29.9", "30")]


def test_bars_are_stacked_to_all_people(small: Town, monkeypatch: pytest.MonkeyPatch) -> None:
    pytest.importorskip("matplotlib")
    from matplotlib.figure import Figure

    figures: list[Figure] = []
    monkeypatch.setattr(Figure, "savefig", lambda figure, *_, **__: figures.append(figure))
    for name, bands in (("jobs_access.csv", "10,11"), ("schools_access.csv", "29,30")):
        people_of(small, "bands", name, "--bands", bands, "--picture", small.path("b.png"), "--out", small.path("o"))
    for result, labels, widths in (
        (figures[0], ["11 jobs or more", "10 to 11", "less than 10"], [75, 0, 25, 0, 75, 25]),
        (figures[1], ["up to 29 min", "29 to 30 min", "more than 30 min, or not reached"], [25, 75, 0, 25, 0, 75]),
    ):
        (axes,) = result.axes
        assert [text.get_text() for text in axes.get_legend().get_texts()] == labels
        assert [round(bar.get_width()) for bar in axes.patches] == widths
        assert [tick.get_text() for tick in axes.get_yticklabels()] == ["residents, base", "residents, cut"]


def test_a_map_of_the_nearest(small: Town, monkeypatch: pytest.MonkeyPatch) -> None:
    pytest.importorskip("matplotlib")
    from test_maps import figure

    arguments = ["--opportunities", small.path("schools.csv")]
    texts, key, classes = figure(small, monkeypatch, "nearest", *arguments)
    message = "3 of 3 stops reach at least 1 school, half of these within 30 minutes"
    assert texts[:2] == ["Travel time to the nearest school", message] and key.startswith("Travel time,")
    assert classes[:2] == ["up to 10 min  (1)", "21 to 30 min  (2)"]
    texts, _, classes = figure(small, monkeypatch, "difference", "--nearest", "1", *arguments)
    assert texts[0] == "Travel time to the nearest school: cut compared with base"
    assert texts[1] == "Of 3 stops 2 cut off, 0 slower, 0 faster"
    assert classes[:2] == ["cut off  (2)", "less than 2 min either way  (1)"]
    texts, *_ = figure(small, monkeypatch, "nearest", "--nearest", "11", "--opportunities", small.path("jobs.csv"))
    message = message.replace("3 of 3", "2 of 3").replace("1 school", "11 jobs")
    assert texts[:2] == ["Travel time to the 11 nearest jobs", message]


def test_a_map_of_the_nearest_needs_to_know_of_what(small: Town) -> None:
    common = ["--feed", small.feed, "--out", small.path("m.png"), small.file]
    for arguments in (["nearest"], ["times", "--origin", "A", "--nearest", "1", "--opportunities", "x"]):
        assert small.ran("map", *arguments, *common)[2] == 2
    both = small.write("both.csv", "stop_id,schools,jobs", [["C", 1, 1]])
    message = f"{both}: it has the columns schools, jobs: choose one with --column"
    small.refused(message, "map", "nearest", "--opportunities", both, *common)


def test_gis_has_columns_of_the_nearest(small: Town) -> None:
    out, arguments = small.path("a.geojson"), ["--opportunities", small.path("jobs.csv"), "--nearest", "1,11"]
    assert small.ran("gis", "--feed", small.feed, *arguments, "--scenario", "base", "--out", out, small.file)[2] == 0
    result = [feature["properties"] for feature in json.loads(Path(out).read_text())["features"]]
    assert [(item["stop_id"], item["base_50_jobs_nearest_1"], item["base_50_jobs_nearest_11"]) for item in result] == [
        ("A", 600, 1800),
        ("B", 0, 1800),
        ("C", 0, None),
    ]
    assert small.ran("gis", "--feed", small.feed, *arguments[:2], "--out", out, small.file)[2] == 2


def test_large_numbers_keep_their_names_and_their_size(town: Town) -> None:
    town.matrix(town_matrix(True, {"base": {"A": [0, 300, 900, 2400]}}))
    people = town.write("people.csv", "stop_id,people", [["A", 999_999_999_999], ["B", 2]])
    out = town.path("near.geojson")
    arguments = ["--opportunities", people]
    ran = town.ran(
        "gis", "--feed", town.feed, *arguments, "--nearest", "1000001,1000003,1000000000000", "--out", out, town.file
    )
    assert ran[2] == 0, ran[1]
    found = json.loads(Path(out).read_text())["features"][0]["properties"]
    # A alone has one less than a billion thousands, so B is needed, 300 seconds away
    assert [found[f"base_50_people_nearest_{count}"] for count in (1000001, 1000003, 1000000000000)] == [0, 0, 300]
