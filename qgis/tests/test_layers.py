"""Layers of any projection and geometry, and those that are refused."""

from __future__ import annotations

from pathlib import Path
from typing import Any

import pytest

from helpers import MONDAY, layer_of, points, refusal, rows_of, run, write_feed

A = "POINT(-0.10 51.50)"


def given(tmp_path: Path, **more: Any) -> dict[str, Any]:
    ends = {"ORIGINS": points(["A"]), "ORIGIN_ID": "id", "DESTINATIONS": points(["B", "C"]), "DESTINATION_ID": "id"}
    times = {"DATE": MONDAY, "FROM": "08:00", "TO": "08:00", "OUTPUT": "TEMPORARY_OUTPUT", "PAIRS": "TEMPORARY_OUTPUT"}
    return {"FEED": str(write_feed(tmp_path / "feed")), **ends, **times, **more}


@pytest.mark.parametrize("crs", ["EPSG:27700", "EPSG:3857", "EPSG:4326"])
def test_projections_give_the_same(with_program: str, tmp_path: Path, crs: str) -> None:
    ends = {"ORIGINS": points(["A"], crs=crs), "DESTINATIONS": points(["B"], crs=crs), "FROM": "07:58", "TO": "07:58"}
    found = run("traveltimes", **given(tmp_path, **ends))
    assert 720 <= rows_of(found["PAIRS"])[0][2] <= 722  # a projection may move a place by centimetres
    assert found["OUTPUT"].crs().authid() == crs
    feature = next(found["OUTPUT"].getFeatures())
    original = next(points(["A"], crs=crs).getFeatures())
    assert feature.geometry().equals(original.geometry())


def test_areas_and_multipoints_count_as_a_point_inside(with_program: str, tmp_path: Path) -> None:
    around = [(["A"], "POLYGON((-0.1001 51.4999, -0.0999 51.4999, -0.0999 51.5001, -0.1001 51.5001, -0.1001 51.4999))")]
    found = run("traveltimes", **given(tmp_path, ORIGINS=layer_of(around, kind="Polygon")))
    assert 600 <= rows_of(found["PAIRS"])[0][2] < 640
    assert found["OUTPUT"].wkbType() == layer_of(around, kind="Polygon").wkbType()
    several = layer_of([(["A"], "MULTIPOINT((-0.10 51.50))")], kind="MultiPoint")
    assert rows_of(run("traveltimes", **given(tmp_path, ORIGINS=several))["PAIRS"])[0] == ("A", "B", 600)


def test_features_without_a_geometry_stay(with_program: str, tmp_path: Path) -> None:
    log: list[str] = []
    ends = {
        "ORIGINS": layer_of([(["none"], ""), (["A"], A)]),
        "DESTINATIONS": layer_of([(["B"], "POINT(-0.10 51.52)"), (["nowhere"], "")]),
    }
    found = run("traveltimes", **given(tmp_path, **ends, log=log))
    assert rows_of(found["OUTPUT"]) == [("none", None, None, None), ("A", "B", 600, 1)]
    pairs = [("none", "B", None), ("none", "nowhere", None), ("A", "B", 600), ("A", "nowhere", None)]
    assert rows_of(found["PAIRS"]) == pairs
    assert "Origins: 1 of 2 features have no geometry, and no result" in log


def test_selected_features_alone(with_program: str, tmp_path: Path) -> None:
    from qgis.core import QgsProcessingFeatureSourceDefinition, QgsProject

    layer = points(["A", "B", "C"])
    layer.selectByExpression("id = 'B'")
    QgsProject.instance().addMapLayer(layer)
    try:
        chosen = QgsProcessingFeatureSourceDefinition(layer.id(), True)
        found = run("traveltimes", **given(tmp_path, ORIGINS=chosen, DESTINATIONS=points(["C"])))
    finally:
        QgsProject.instance().removeMapLayer(layer.id())
    assert rows_of(found["PAIRS"]) == [("B", "C", 1800)]


def test_the_same_layer_twice_is_a_warning(with_program: str, tmp_path: Path) -> None:
    log: list[str] = []
    both = points(["A", "B"])
    found = run("traveltimes", **given(tmp_path, ORIGINS=both, DESTINATIONS=both, log=log))
    assert rows_of(found["OUTPUT"]) == [("A", "A", 0, 2), ("B", "B", 0, 1)]
    assert log == ["Origins and destinations are the same layer, so each origin reaches itself"]


def test_identifiers_of_features_without_a_field(with_program: str, tmp_path: Path) -> None:
    found = run("traveltimes", **given(tmp_path, ORIGIN_ID=None, DESTINATION_ID=None))
    assert rows_of(found["PAIRS"]) == [(1, 1, 600), (1, 2, 1800)]


def without_projection(layer: Any) -> Any:
    from qgis.core import QgsCoordinateReferenceSystem

    layer.setCrs(QgsCoordinateReferenceSystem())
    return layer


def test_layers_that_are_refused(with_program: str, tmp_path: Path) -> None:
    wrong = {
        "Origins: the layer has no coordinate reference system": without_projection(layer_of([(["A"], A)])),
        'Origins: two features have "A" in id': layer_of([(["A"], A), (["A"], A)]),
        "Origins: a feature has no value in the field id": layer_of([([None], A)]),
        "Origins: the layer has no features": layer_of([]),
        "Origins: no feature has a geometry": layer_of([(["A"], "")]),
        "Origins: feature 1 is a line": layer_of([(["A"], "LINESTRING(0 0, 1 1)")], kind="LineString"),
        'Origins: the layer has a field "p50_s" already': layer_of([(["A", 1], A)], "id:string,p50_s:integer"),
        "Origins: feature 1 is at 200, 10, which are no degrees": layer_of([(["A"], "POINT(200 10)")]),
    }
    found = {message: refusal("traveltimes", **given(tmp_path, ORIGINS=layer)) for message, layer in wrong.items()}
    assert {message: told for message, told in found.items() if message not in told} == {}
