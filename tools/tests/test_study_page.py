"""A study reports the limits, people and columns that its page and figures leave out."""

import json
from pathlib import Path

import pytest

from test_study import STUDY, Place, place  # noqa: F401
from ttm_tools.study.results.page import limits_of_page

pytest.importorskip("jinja2")


@pytest.mark.parametrize(
    "cutoffs, kept, lost",
    [
        ([1, 30, 250], [1, 30, 250], []),
        ([0.5, 30, 300], [30], ["without the limits below 1 or above 250 minutes, 0.5, 300"]),
        ([0.5], [30], ["without the limits below 1 or above 250 minutes, 0.5; it has 30 instead"]),
    ],
)
def test_limits_that_a_page_cannot_have_are_named(cutoffs: list[float], kept: list[float], lost: list[str]) -> None:
    assert limits_of_page(cutoffs) == (kept, lost)


def test_a_page_says_what_it_leaves_out(place: Place) -> None:  # noqa: F811
    text = STUDY.replace("page = false", "page = true\ncutoffs = [0.5, 10]")
    place.lay_out(text)
    place.write("people.csv", "stop_id,jobs,residents", [[f"S{n}", 1, n] for n in range(9)])
    _, errors, status = place.ran("study", place.path("nine.toml"))
    lines = [line.strip() for line in errors.splitlines()]
    assert status == 0 and "page.html: without the limits below 1 or above 250 minutes, 0.5" in lines, errors
    assert (
        "page.html: without people by origin, since jobs of people is counted as what is reached, too" in lines
    ), errors


def test_a_report_warns_of_texts_that_are_not_summed(place: Place) -> None:  # noqa: F811
    pytest.importorskip("geopandas")
    place.lay_out(STUDY)
    features = []
    for number in range(9):
        south, west = 50 + 0.004 * number - 0.0004, 6.9995
        ring = [[west, south], [west + 0.001, south], [west + 0.001, south + 0.0008], [west, south]]
        shape = {"type": "Polygon", "coordinates": [ring]}
        own = {"id": f"c{number}", "homes": str(number), "jobs": number}
        features.append({"type": "Feature", "geometry": shape, "properties": own})
    Path(place.path("cells.geojson")).write_text(json.dumps({"type": "FeatureCollection", "features": features}))
    text = STUDY.replace('files = ["jobs.csv"]\n', "").replace('people = "people.csv"\n', "")
    place.say(text.replace("[opportunities]", '[points]\nfiles = ["cells.geojson"]\n[opportunities]'))
    assert place.ran("study", place.path("nine.toml"))[2] == 0
    report = Path(place.path("nine/report.md")).read_text().replace("\\", "")
    warnings = report[report.index("Warnings: ") :].split("\n\n")[0]
    assert "cells.geojson: the column homes is text, so its numbers are not summed" in warnings
    assert str(place.folder) not in report
