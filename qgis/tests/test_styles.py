"""Styles: the classes have the breaks, labels and colours of `classes.json`, and each feature is in one of them."""

from __future__ import annotations

import gc
import json
from pathlib import Path
from typing import Any

import pytest

from helpers import MONDAY, ROOT, layer_of, points, run, write_feed

TABLE = json.loads((ROOT / "qgis/ttm_processing/styles/classes.json").read_text())
OF_MAPS = json.loads((ROOT / "tools/src/ttm_tools/views/assets/classes.json").read_text())


def classes_of(layer: Any, name: str) -> list[str]:
    """Returns the label of the class of each feature; each is in exactly one."""
    from qgis.core import QgsExpression, QgsExpressionContext

    found = []
    context = QgsExpressionContext()
    context.setFields(layer.fields())
    rules = layer.renderer().rootRule().children()
    for feature in layer.getFeatures():
        context.setFeature(feature)
        labels = [rule.label() for rule in rules if QgsExpression(rule.filterExpression()).evaluate(context)]
        assert len(labels) == 1, (name, feature.attributes(), labels)
        found += labels
    return found


def test_times_and_differences_look_as_on_the_maps_of_the_tools() -> None:
    scales, breaks = OF_MAPS["scales"], OF_MAPS["breaks"]
    assert (TABLE["times"]["breaks"], TABLE["times"]["colours"]) == (breaks["minutes"], scales["near"])
    differences = TABLE["differences"]
    assert (differences["breaks"], differences["loss"], differences["gain"]) == (
        breaks["percent"],
        scales["loss"],
        scales["gain"],
    )
    assert differences["same"] == OF_MAPS["marks"]["same"]["colour"] and TABLE["edge"] == OF_MAPS["tokens"]["mark-edge"]
    assert TABLE["hollow_edge"] == OF_MAPS["tokens"]["hollow-edge"]


def styled(classes: Any, rows: Any, fields: str, kind: str = "Point") -> Any:
    from ttm_processing.styles import renderer_of

    layer = layer_of(rows, fields, kind)
    layer.setRenderer(renderer_of(classes, layer.wkbType()))
    return layer


def test_times_have_the_classes_of_the_table(qgis: Any) -> None:
    from ttm_processing.classes import of_times

    seconds = [0, 600, 601, 1200, 5400, 5401, None]
    layer = styled(of_times("p50_s"), [([value], "POINT(0 0)") for value in seconds], "p50_s:integer")
    rules = layer.renderer().rootRule().children()
    breaks, colours = TABLE["times"]["breaks"], TABLE["times"]["colours"]
    assert [rule.symbol().color().name() for rule in rules[:-1]] == colours
    assert [rule.label() for rule in rules] == [
        f"up to {breaks[0]} min",
        *(f"{low} to {high} min" for low, high in zip(breaks, breaks[1:])),
        f"more than {breaks[-1]} min",
        TABLE["none"],
    ]
    assert classes_of(layer, "times") == [
        "up to 10 min",
        "up to 10 min",
        "10 to 20 min",
        "10 to 20 min",
        "60 to 90 min",
        "more than 90 min",
        "not reached",
    ]


def test_access_has_seven_classes_of_about_as_many(qgis: Any) -> None:
    from ttm_processing.classes import of_access

    many = [1e6 + n for n in range(70)]
    layer = styled(of_access("jobs_30", many), [([v], "POINT(0 0)") for v in many], "jobs_30:double")
    found = classes_of(layer, "access")
    assert [found.count(label) for label in dict.fromkeys(found)] == [10] * 7 and "up to 1,000,009" in found
    values = [float(n) for n in range(1, 71)]
    layer = styled(of_access("jobs_30", values), [([v], "POINT(0 0)") for v in values], "jobs_30:double")
    found = classes_of(layer, "access")
    assert {label: found.count(label) for label in found} == dict.fromkeys(
        ["up to 10", "10 to 20", "20 to 30", "30 to 40", "40 to 50", "50 to 60", "more than 60"], 10
    )
    rules = layer.renderer().rootRule().children()
    assert rules[6].symbol().color().name() == TABLE["times"]["colours"][0]  # dark is much
    few: list[list[float]] = [[5.0, 5.0], [], [1.0, 2.0]]
    for same in few:
        rows = [([value], "POINT(0 0)") for value in [*same, None]]
        assert len(classes_of(styled(of_access("a", same), rows, "a:double"), "access")) == len(same) + 1


@pytest.mark.parametrize("kind", ["Point", "Polygon"])
def test_changes_have_a_class_each(qgis: Any, kind: str) -> None:
    from ttm_processing.classes import of_changes

    rows = [
        ("cut off", -100, -100, "cut off"),
        ("loses", -30, -30, "at least 25 % less"),
        ("loses", -10, -10, "10 to 25 % less"),
        ("unchanged", 0, 0, "less than 2 % either way"),
        ("gains", 1, None, "at least 25 % more"),
        ("gains", 2, 2, "2 to 10 % more"),
        ("newly reached", 3, None, "newly reached"),
        (None, None, None, "not reached"),
    ]
    shape = {"Point": "POINT(0 0)", "Polygon": "POLYGON((0 0, 1 0, 1 1, 0 0))"}[kind]
    attributes = [(list(row[:3]), shape) for row in rows]
    layer = styled(of_changes("what", "percent"), attributes, "what:string,change:double,percent:double", kind)
    assert classes_of(layer, "changes") == [row[3] for row in rows]


def test_limits_have_a_class_each(qgis: Any) -> None:
    from ttm_processing.classes import of_limits

    rows = [([value], "POINT(0 0)") for value in (15, 30, None)]
    found = classes_of(styled(of_limits("within", [15, 30]), rows, "within:integer"), "limits")
    assert found == ["within 15 min", "within 30 min", "beyond all limits"]


def test_lines_and_stops_have_a_class_each(qgis: Any) -> None:
    from ttm_processing.classes import of_lines, of_stops

    rows = [(["tram", 1.0], "LINESTRING(0 0, 1 1)"), (["bus", 30.0], "LINESTRING(0 0, 1 1)")]
    layer = styled(of_lines("mode", "per_hour", ["tram", "bus"]), rows, "mode:string,per_hour:double", "LineString")
    assert classes_of(layer, "lines") == ["tram, up to 2 an hour", "bus, more than 12 an hour"]
    stops = styled(of_stops("per_hour"), [([6.0], "POINT(0 0)")], "per_hour:double")
    assert classes_of(stops, "stops") == ["2 to 6 an hour"]


def test_a_file_gets_its_style(with_program: str, tmp_path: Path) -> None:
    from qgis.core import QgsVectorLayer

    ends = {"ORIGINS": points(["A"]), "DESTINATIONS": points(["B"]), "DATE": MONDAY, "FROM": "08:00", "TO": "08:00"}
    path = tmp_path / "times.gpkg"
    run("traveltimes", FEED=str(write_feed(tmp_path / "feed")), PERCENTILES="75", **ends, OUTPUT=str(path))
    layer = QgsVectorLayer(str(path), "times", "ogr")
    assert classes_of(layer, "times") == ["up to 10 min"]
    assert layer.crs().authid() == "EPSG:4326"
    (tmp_path / "times.qml").write_text("mine")
    run("traveltimes", FEED=str(tmp_path / "feed"), **ends, OUTPUT=str(tmp_path / "times.geojson"))
    assert (tmp_path / "times.qml").read_text() == "mine"


def test_the_desktop_styles_a_layer_that_it_loads(qgis: Any) -> None:
    from qgis.core import QgsProcessingContext, QgsProject
    from ttm_processing.classes import of_times
    from ttm_processing.styles import apply_styles

    layer = layer_of([([60], "POINT(0 0)")], "p50_s:integer")
    context = QgsProcessingContext()
    context.setProject(QgsProject())
    context.addLayerToLoadOnCompletion(layer.id(), QgsProcessingContext.LayerDetails("x", context.project(), "OUTPUT"))
    apply_styles(context, layer.id(), of_times("p50_s"), layer.wkbType())
    gc.collect()  # nothing here refers to the post-processor
    context.layerToLoadOnCompletionDetails(layer.id()).postProcessor().postProcessLayer(layer, context, None)
    assert classes_of(layer, "times") == ["up to 10 min"]
