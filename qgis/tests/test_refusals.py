"""Values that the checks refuse before the work starts: the message names the parameter."""

from __future__ import annotations

from pathlib import Path
from typing import Any

import pytest

from helpers import MONDAY, points, refusal, write_feed

WRONG: dict[str, tuple[dict[str, Any], str]] = {
    "feed": ({"FEED": "/nowhere.zip"}, "Feed (GTFS zip or folder): /nowhere.zip does not exist"),
    "streets": ({"STREETS": "/nowhere.pbf"}, "Streets: /nowhere.pbf does not exist"),
    "percentiles": (
        {"PERCENTILES": "25,105"},
        'Percentiles: "25,105" is not allowed; give 1 to 8 different whole numbers of 1 to 100',
    ),
    "twice": (
        {"PERCENTILES": "50 50"},
        'Percentiles: "50 50" is not allowed; give 1 to 8 different whole numbers of 1 to 100',
    ),
    "decimals": (
        {"PERCENTILES": "50.5"},
        'Percentiles: "50.5" is not allowed; give 1 to 8 different whole numbers of 1 to 100',
    ),
    "seconds": ({"FROM": "08:00:30"}, "First departure: a time of whole minutes is needed, HH:MM"),
    "order": ({"FROM": "09:00", "TO": "08:00"}, "Last departure: 08:00 is before 09:00"),
    "walk": ({"MAX_WALK": 121}, "Incorrect parameter value for MAX_WALK"),
    "rides": ({"MAX_RIDES": 9}, "Incorrect parameter value for MAX_RIDES"),
    "date": ({"DATE": "2026-13-01"}, "Incorrect parameter value for DATE"),
}


@pytest.mark.parametrize("name", list(WRONG))
def test_parameters_that_are_refused(with_program: str, tmp_path: Path, name: str) -> None:
    ends = {"ORIGINS": points(["A"]), "DESTINATIONS": points(["B"]), "DATE": MONDAY, "OUTPUT": str(tmp_path / "x.gpkg")}
    given: dict[str, Any] = {"FEED": str(write_feed(tmp_path / "feed")), **ends, **WRONG[name][0]}
    assert refusal("traveltimes", **given) == WRONG[name][1]
    assert not (tmp_path / "x.gpkg").exists()


def test_a_folder_without_stops_is_refused(with_program: str, tmp_path: Path) -> None:
    ends = {"ORIGINS": points(["A"]), "DESTINATIONS": points(["B"]), "DATE": MONDAY, "OUTPUT": "TEMPORARY_OUTPUT"}
    assert "has no stops.txt, and no folder in it has one" in refusal("traveltimes", FEED=str(tmp_path), **ends)


def test_the_limits_of_lists(qgis: Any) -> None:
    from ttm_processing.values import whole_numbers

    assert whole_numbers(" 45, 15 30 ", "Within", "minutes", 8, 10000) == (15, 30, 45)
    for wrong in ("", "0", "10001", "1,2,3,4,5,6,7,8,9", "1;2", "-5", "x"):
        with pytest.raises(ValueError, match="Within: "):
            whole_numbers(wrong, "Within", "minutes", 8, 10000)


def test_the_shape_of_an_error(qgis: Any) -> None:
    from ttm_processing.tools import sentence

    error = {"file": "stop_times.txt", "record": 5, "column": "arrival_time", "value": "5:32:8", "line": "x"}
    allowed = {"allowed": "a time is H:MM:SS"}
    assert sentence({**error, **allowed}, "", 1) == (
        'stop_times.txt, record 5: column arrival_time is "5:32:8"; a time is H:MM:SS'
    )
    assert sentence({}, "ttm-tools points: no", 1) == "ttm-tools points: no"
    assert sentence({}, "", 70) == "ttm-tools ended with status 70"
    many = {"line": "places.csv: 4,000,001 walks are more than the 4,000,000 that ttm takes"}
    assert sentence(many, "", 1).endswith(". Use a shorter longest walk, or fewer places.")
