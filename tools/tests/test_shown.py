"""Points alone where a matrix has them: rows, columns, names, places and squares."""

import json
from pathlib import Path
from typing import Any

import pytest

from helpers import TOWN, Town, read, town_matrix
from ttm_tools.matrices import open_matrix
from ttm_tools.matrices.selections import MatrixSubset


def points(town: Town) -> str:
    """D and B of the town as points, with names and places of their own, and a point that the matrix hasn't."""
    rows = [["D", "Dee", 0.02, 9.0, 400], ["B", "", 0.0, 9.01, ""], ["X", "", 0.0, 9.02, ""]]
    return town.write("points.csv", "id,name,lat,lon,width", rows)


def test_rows_and_columns_of_points_are_those_of_the_matrix(town: Town) -> None:
    whole = open_matrix(town.matrix(town_matrix(True, shares=(25, 50))))
    result = MatrixSubset(whole, ["D", "B", "X"])
    assert (result.stops, result.origins("base", 50), result.is_any) == (["B", "D"], ["D"], True)
    assert result.rows("cut", 50, 0, 1).tolist() == [[1700, 0]]
    assert result.access("base", 50).tolist() == [[3]]
    (block,) = result.blocks("cut", 25)
    assert (block.origins, block.seconds.tolist()) == (["D"], [[850, 0]])


def test_where_no_row_is_a_point_all_rows_stay(town: Town) -> None:
    whole = open_matrix(town.matrix(town_matrix(True)))
    result = MatrixSubset(whole, ["C"])
    assert (result.stops, result.origins("base", 50)) == (["C"], ["A", "D"])
    assert result.rows("base", 50, 0, 2).tolist() == [[900], [600]]
    assert not MatrixSubset(whole, ["X"]).is_any


def test_lines_are_those_between_points_with_their_names(town: Town) -> None:
    town.matrix(town_matrix(True))
    out, _, _ = town.ran("long", "--points", points(town), "--scenario", "cut", town.file)
    assert [list(row.values()) for row in read(out)] == [
        ["cut", "50", "D", "B", "1700", "Dee", "0.02", "9.0", "B", "0.0", "9.01"],
        ["cut", "50", "D", "D", "0", "Dee", "0.02", "9.0", "Dee", "0.02", "9.0"],
    ]
    other = town.write("other.csv", "id,lat,lon", [["Q", 1, 1]])
    town.refused(f"{town.file}: it has no point of {other}", "long", "--points", other, town.file)


def test_points_in_the_folder_of_a_feed_are_found(town: Town) -> None:
    town.matrix(town_matrix(True))
    points(town)
    out, errors, status = town.ran("compare", "--feed", town.feed, town.file)
    assert (out.splitlines()[1:], status) == (['D,Delta,B,"Béta, ""the"" square",new,,1700,'], 0)
    assert errors.startswith("cut compared with base: of 2 pairs 0 cut off, 0 slower, 1 new, 0 faster")


def test_access_is_measured_at_points_alone(town: Town) -> None:
    town.matrix(town_matrix(True))
    counts = town.write("counts.csv", "id,lat,lon,width,schools", [["B", 0, 9.01, "", 2], ["D", 0.02, 9, 400, 0.5]])
    arguments = ["access", "--opportunities", counts, "--points", points(town), "--scenario", "cut", town.file]
    assert town.ran(*arguments)[0].splitlines()[1:] == ["D,schools,50,30,2.5"]


def test_an_open_matrix_file_of_points(town: Town) -> None:
    pytest.importorskip("h5py")
    town.matrix(town_matrix(True))
    assert town.ran("omx", "--points", points(town), "--out", town.path("m.omx"), town.file) == ("", "", 0)
    result = open_matrix(town.path("m.omx"))
    assert (result.stops, result.origins("base", 50)) == (["B", "D"], ["D"])
    assert result.rows("cut", 50, 0, 1).tolist() == [[1700, 0]]


def test_points_for_a_geographic_information_system(town: Town) -> None:
    town.matrix(town_matrix(True))
    arguments = ["gis", "--feed", town.feed, "--points", points(town), "--origin", "D", "--out", town.path("p.geojson")]
    assert (
        town.ran(*arguments, "--scenario", "cut", town.file)[1]
        == f"{town.path('p.geojson')}: 2 stops; 0 without coordinates\n"
    )
    features = json.loads(Path(town.path("p.geojson")).read_text())["features"]
    assert [feature["properties"] for feature in features] == [
        {"stop_id": "B", "stop_name": 'Béta, "the" square', "cut_50_access_1800": None, "cut_50_seconds": 1700},
        {"stop_id": "D", "stop_name": "Delta", "cut_50_access_1800": 4, "cut_50_seconds": 0},
    ]


def test_an_origin_that_is_no_column_is_drawn_too(town: Town) -> None:
    """As in a matrix whose columns are other stops than its origins."""
    town.matrix(town_matrix(True, {name: {"D": TOWN[name]["D"][:3]} for name in TOWN}, stops=("A", "B", "C")))
    arguments = ["gis", "--feed", town.feed, "--out", town.path("p.geojson"), town.file]
    assert town.ran(*arguments)[1] == f"{town.path('p.geojson')}: 4 stops; 0 without coordinates\n"
    features = json.loads(Path(town.path("p.geojson")).read_text())["features"]
    assert [feature["properties"]["base_50_access_1800"] for feature in features] == [None, None, None, 2]


def test_squares_as_wide_as_the_file_says_and_marks_for_the_others(town: Town, monkeypatch: pytest.MonkeyPatch) -> None:
    matplotlib = pytest.importorskip("matplotlib.figure")
    figures: list[Any] = []
    monkeypatch.setattr(matplotlib.Figure, "savefig", lambda figure, *_, **__: figures.append(figure))
    town.matrix(town_matrix(True))
    arguments = [
        "--feed",
        town.feed,
        "--points",
        points(town),
        "--scenario",
        "cut",
        "--out",
        town.path("m.png"),
        town.file,
    ]
    assert town.ran("map", "times", "--origin", "D", *arguments) == ("", "", 0)
    assert town.ran("map", "access", *arguments) == ("", "", 0)
    times, access = figures
    assert times.texts[1].get_text() == "1 of 1 other points are reached, half of them within 29 minutes"
    assert "In brackets: number of points." in times.texts[-1].get_text().replace("\n", " ")
    squares = [collection for collection in access.axes[0].collections if type(collection).__name__ == "PolyCollection"]
    (corners,) = squares[0].get_paths()
    wide = corners.vertices.max(axis=0) - corners.vertices.min(axis=0)
    assert wide.tolist() == pytest.approx([0.4, 0.4])
    assert access.texts[0].get_text() == "Access from each point: opportunities within 30 minutes"
    classes = [text.get_text() for text in access.legends[0].get_texts()]
    assert classes[1:] == ["destinations  (1)", "where vehicles run"]
