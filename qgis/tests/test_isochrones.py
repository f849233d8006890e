"""Isochrones: squares of a grid, with the areas that their number gives."""

from __future__ import annotations

import math
from pathlib import Path
from typing import Any

import pytest

from helpers import MONDAY, points, rows_of, run, write_feed

SIDE = 0.1  # kilometres
RADIUS = 600 * 4.8 / 3600 / 1.3  # kilometres walked in ten minutes, as the crow flies


def given(tmp_path: Path, **more: Any) -> dict[str, Any]:
    times = {"DATE": MONDAY, "FROM": "07:59", "TO": "07:59", "CUTOFFS": "10,25", "OUTPUT": "TEMPORARY_OUTPUT"}
    ends = {"ORIGINS": points(["A"], crs="EPSG:27700"), "ORIGIN_ID": "id"}
    return {"FEED": str(write_feed(tmp_path / "feed")), **ends, **times, **more}


def test_areas_by_hand(with_program: str, tmp_path: Path) -> None:
    found = run("isochrones", **given(tmp_path))["OUTPUT"]
    assert found.crs().authid() == "EPSG:27700" and found.fields().names() == [
        "from_id",
        "minutes",
        "percentile",
        "square_km",
    ]
    rows = rows_of(found)
    assert [row[:3] for row in rows] == [("A", 25, 50), ("A", 10, 50)]
    # within 10 minutes the circle around A; within 25 also that around B, reached after 11 minutes
    circle = math.pi * RADIUS**2
    assert rows[1][3] == pytest.approx(circle, rel=0.1)
    assert rows[0][3] == pytest.approx(2 * circle, rel=0.1)
    shapes = [feature.geometry() for feature in found.getFeatures()]
    for shape, row in zip(shapes, rows):
        assert shape.area() / 1e6 == pytest.approx(row[3], rel=0.01)  # the grid's projection keeps areas
        assert round(row[3] / SIDE**2, 1) == pytest.approx(round(row[3] / SIDE**2), abs=0.3)  # whole squares
    assert shapes[0].contains(shapes[1].pointOnSurface())


def test_larger_cells_and_one_area_for_all(with_program: str, tmp_path: Path) -> None:
    ends = {"ORIGINS": points(["A", "B"]), "CELL": 200, "CUTOFFS": "9"}
    found = run("isochrones", **given(tmp_path, **ends))["OUTPUT"]
    joined = run("isochrones", **given(tmp_path, **ends, DISSOLVE=True))["OUTPUT"]
    assert joined.fields().names() == ["minutes", "percentile", "square_km"]
    areas = rows_of(found, "from_id", "square_km")
    assert [name for name, _ in areas] == ["A", "B"]
    ((minutes, percentile, area),) = rows_of(joined)
    assert (minutes, percentile, area) == (9, 50, pytest.approx(sum(area for _, area in areas), rel=0.01))


def test_an_origin_that_reaches_nothing_is_warned_of(with_program: str, tmp_path: Path) -> None:
    from helpers import layer_of

    log: list[str] = []
    ends = layer_of([(["A"], "POINT(-0.10 51.50)"), (["far"], "POINT(-0.3 51.3)")])
    found = run("isochrones", **given(tmp_path, ORIGINS=ends, CELL=200, CUTOFFS="10", log=log))["OUTPUT"]
    assert [row[0] for row in rows_of(found)] == ["A"]
    assert "Origins: 1 reach nothing, and have no area: far" in log
