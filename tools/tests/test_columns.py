"""Matrices that have columns for some stops, or for none."""

import json
from pathlib import Path

from helpers import Town, read

ALONE = """\
scenario,origin,share,access_900,access_1800
base,A,50,2,3
base,D,50,1,2
cut,A,50,1,1
cut,D,50,1,2
"""
SOME = """\
scenario,origin,share,access_1800,D,B
base,A,50,3,2400,300
base,D,50,2,0,
cut,A,50,1,,360
cut,D,50,2,0,1700
"""


def test_access_alone_has_no_travel_times(town: Town) -> None:
    town.matrix(ALONE)
    out, errors, status = town.ran("long", "--access", town.file)
    rows = [(row["scenario"], row["origin"], row["within"], row["access"]) for row in read(out)]
    assert (errors, status, len(rows)) == ("", 0, 8)
    assert rows[:2] == [("base", "A", "900", "2"), ("base", "A", "1800", "3")]
    out, errors, status = town.ran("long", town.file)
    assert (out, errors, status) == ("scenario,share,origin,destination,seconds\n", "", 0)


def test_access_alone_is_compared(town: Town) -> None:
    town.matrix(ALONE)
    out, errors, status = town.ran("compare", "--by", "origin", "--within", "1800", town.file)
    assert status == 0
    assert "access within 30 minutes, percentile 50: of 2 origins 1 loses, 0 gain; in all -2" in out + errors
    assert "of 0 pairs 0 cut off" in out + errors


def test_pairs_are_those_of_the_columns(town: Town) -> None:
    town.matrix(SOME)
    out, errors, status = town.ran("compare", "--limit", "0", town.file)
    assert status == 0
    assert "of 4 pairs 1 cut off, 1 slower, 1 new, 0 faster" in out + errors


def test_origins_without_a_column_are_points(town: Town) -> None:
    for text, times in ((ALONE, {"A": None, "D": None}), (SOME, {"D": 2400, "B": 300, "A": None})):
        town.matrix(text)
        result = Path(town.path("made.geojson"))
        arguments = ["--feed", town.feed, "--scenario", "base", "--origin", "A", "--out", str(result)]
        assert town.ran("gis", *arguments, town.file)[2] == 0
        printed = [feature["properties"] for feature in json.loads(result.read_text())["features"]]
        assert {item["stop_id"]: item["base_50_seconds"] for item in printed} == times
        assert {item["stop_id"]: item["base_50_access_1800"] for item in printed if item["stop_id"] != "B"} == {
            "A": 3,
            "D": 2,
        }


def test_a_matrix_without_columns_is_no_open_matrix_file(town: Town) -> None:
    town.matrix(ALONE)
    message = "has no columns, as after a run whose --destinations has only a header: there is nothing to write"
    town.refused(f"{town.file}: {message}", "omx", "--out", town.path("made.omx"), town.file)
