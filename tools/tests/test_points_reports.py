"""What `points` reports of files of areas, and of numbers that `ttm` does not take."""

import json
from pathlib import Path
from typing import Any, Sequence

import pytest

from helpers import Room
from test_points import PACE, feed, place


def areas(room: Room, name: str, properties: Sequence[dict[str, Any]], side: float = 20) -> str:
    """Writes squares on a line, 30 metres north of A and further east."""
    features: list[dict[str, Any]] = []
    for number, own in enumerate(properties):
        (south, west), (north, east) = place(20, 60 * number), place(20 + side, 60 * number + side)
        ring = [[west, south], [east, south], [east, north], [west, north], [west, south]]
        shape = {"type": "Polygon", "coordinates": [ring]}
        features.append({"type": "Feature", "geometry": shape, "properties": {"id": number, **own}})
    path = Path(room.path(name))
    path.write_text(json.dumps({"type": "FeatureCollection", "features": features}))
    return str(path)


def test_a_column_of_texts_that_are_numbers_is_reported(room: Room) -> None:
    pytest.importorskip("geopandas")
    path, out = areas(room, "homes.geojson", [{"people": "12"}, {"people": "5"}]), room.path("doors")
    _, errors, status = room.ran("points", feed(room), path, "--out", out, *PACE)
    sentence = f"{path}: the column people is text, so its numbers are not summed"
    assert status == 0 and errors.splitlines()[0] == sentence
    assert Path(out, "labels.csv").read_text() == "id,people\n0,12\n1,5\n"
    stops = room.path("town")
    words = ["--grid", "100", "--limit", "300", "--people", path, "--out", room.path("grid"), *PACE]
    assert "no column of numbers" in room.ran("points", stops, *words)[1]


def test_a_column_of_texts_of_points_is_reported_by_a_grid(room: Room) -> None:
    pytest.importorskip("geopandas")
    path = Path(areas(room, "homes.geojson", [{"people": "12", "jobs": 3}, {"people": "5", "jobs": 4}]))
    found = json.loads(path.read_text())
    for feature in found["features"]:
        feature["geometry"] = {"type": "Point", "coordinates": feature["geometry"]["coordinates"][0][0]}
    path.write_text(json.dumps(found))
    words = ["--grid", "100", "--limit", "300", "--people", str(path), "--out", room.path("grid"), *PACE]
    _, errors, status = room.ran("points", feed(room), *words)
    assert status == 0 and f"{path}: the column people is text, so its numbers are not summed" in errors.splitlines()


def test_dates_of_areas_are_labels(room: Room) -> None:
    geopandas = pytest.importorskip("geopandas")
    import pandas

    path = areas(room, "homes.geojson", [{"people": 12}, {"people": 5}])
    dates = pandas.to_datetime(["2026-05-04", None])
    geopandas.read_file(path).assign(counted=dates).to_file(room.path("homes.gpkg"), driver="GPKG")
    out = room.path("doors")
    assert room.ran("points", feed(room), room.path("homes.gpkg"), "--out", out, *PACE)[2] == 0
    assert Path(out, "labels.csv").read_text() == "id,counted\n0,2026-05-04 00:00:00\n1,\n"


def test_a_number_that_is_too_large_is_named_by_its_file_and_record(room: Room) -> None:
    town, most = feed(room), 4_294_967_295
    far = room.write("far.csv", "id,lat,lon,jobs", [["1", *place(9000, 0), 3], ["2", *place(0, 0), most]])
    large = room.write("large.csv", "id,lat,lon,jobs", [["3", *place(10, 0), 3], ["4", *place(20, 0), most + 1]])
    message = f"{large}: record 3: jobs '{most + 1}' is invalid; allowed: a number from 0 to {most}"
    words = ["points", town, far, "--destinations", large, "--limit", "300", *PACE]
    room.refused(message, *words, "--out", room.path("doors"))
    room.refused(message, *words, "--out", room.path("doors"), "--leave-out")
    pytest.importorskip("geopandas")
    path = areas(room, "homes.geojson", [{"jobs": 12}, {"jobs": 5_000_000_000}])
    message = f"{path}: record 2: jobs '5000000000' is invalid; allowed: a number from 0 to {most}"
    room.refused(message, "points", town, path, "--out", room.path("doors"), *PACE)
