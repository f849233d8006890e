"""Grids of cells: which there are, what they are called, and numbers summed into them, by hand."""

import csv
import json
from pathlib import Path
from typing import Any

import numpy as np
import pytest

from helpers import EASTWARDS, NORTHWARDS, Room, Table, Town, town_matrix
from test_points import PACE, feed, place

NEAR = ["--limit", "300", *PACE]  # 300 metres


def cells_of(folder: str) -> list[dict[str, str]]:
    return list(csv.DictReader(Path(folder, "feed", "points.csv").read_text().splitlines()))


def polygons(room: Room, name: str, *shapes: tuple[dict[str, Any], float, float, float, float]) -> str:
    """A GeoJSON file of boxes: properties, and metres west, south, east and north."""
    features = []
    for properties, west, south, east, north in shapes:
        ring = [(west, south), (east, south), (east, north), (west, north), (west, south)]
        own = {"type": "Polygon", "coordinates": [[[1 + x * EASTWARDS, y * NORTHWARDS] for x, y in ring]]}
        features.append({"type": "Feature", "properties": properties, "geometry": own})
    Path(room.path(name)).write_text(json.dumps({"type": "FeatureCollection", "features": features}))
    return room.path(name)


def test_cells_lie_where_a_stop_is_within_a_walk(room: Room) -> None:
    town, out = feed(room), room.path("doors")
    _, errors, status = room.ran("points", town, "--grid", "250", "--out", out, *NEAR)
    assert (errors.splitlines()[0], status) == ("8 cells of 250 metres", 0)
    # rows begin 300 m south of the stops and columns 300 m west of A: their middles are at -175, 75, 325 ..;
    # from A and B, 1,000 m apart, those at -175 and 75 both ways are within 300 m, and (75, 325) is 334 m away
    found = cells_of(out)
    assert [item["id"] for item in found] == ["r1c1", "r1c2", "r1c5", "r1c6", "r2c1", "r2c2", "r2c5", "r2c6"]
    assert {item["width"] for item in found} == {"250"}
    assert float(found[0]["lat"]) == pytest.approx(-175 * NORTHWARDS, abs=1e-7)
    assert float(found[3]["lon"]) == pytest.approx(1 + 1075 * EASTWARDS, abs=1e-7)
    assert Path(out, "origins.csv").read_text() == Path(out, "destinations.csv").read_text()


def test_points_are_summed_by_cell_and_what_lies_outside_is_told(room: Room) -> None:
    town, out = feed(room), room.path("doors")
    rows = [["a", *place(-100, -100), 3, 1.5], ["b", *place(-60, -200), 2, 0], ["c", *place(0, 0), 4, 0]]
    people = room.write("people.csv", "id,lat,lon,people,jobs", [*rows, ["d", *place(9000, 0), 5, 0]])
    _, errors, status = room.ran("points", town, "--grid", "250", "--people", people, "--out", out, *NEAR)
    assert (errors.splitlines()[1], status) == (f"{people}: 5 of 14 people are outside all cells", 0)
    counted = {cell["id"]: (cell["people"], cell["jobs"]) for cell in cells_of(out) if cell["people"] != "0"}
    assert counted == {"r1c1": ("5", "1.5"), "r2c2": ("4", "0")}
    assert "r1c1,5\n" in Path(out, "opportunities_people.csv").read_text()


def test_cells_have_a_part_in_the_area_and_polygons_are_shared_out(room: Room) -> None:
    pytest.importorskip("geopandas")
    town, out = feed(room), room.path("doors")
    area = polygons(room, "area.geojson", ({}, 0, 0, 600, 250))
    # half of it lies over the second of three cells, a quarter over each of the others
    own = ({"people": 80, "id": "7"}, 125, 0, 625, 250), ({"people": None, "id": "8"}, 0, 0, 10, 10)
    outside = ({"people": 9, "id": "9"}, 700, 0, 800, 250)  # half of it is in the third cell, which ends at 750
    people = polygons(room, "people.geojson", *own, outside)
    arguments = ["--grid", "250", "--area", area, "--people", people, "--out", out]
    _, errors, status = room.ran("points", town, *arguments, *NEAR)
    assert (errors.splitlines()[:2], status) == (
        ["3 cells of 250 metres", f"{people}: 4.5 of 89 people are outside all cells"],
        0,
    )
    found = [(cell["id"], float(cell["people"])) for cell in cells_of(out)]
    assert [name for name, _ in found] == ["r1c1", "r1c2", "r1c3"]
    assert [number for _, number in found] == pytest.approx([20, 40, 24.5], rel=1e-6)


def test_a_hole_of_the_area_has_no_cells(room: Room) -> None:
    pytest.importorskip("geopandas")
    town, out = feed(room), room.path("doors")
    parts: list[tuple[dict[str, Any], int, int, int, int]] = [
        ({}, 0, 0, 100, 300),
        ({}, 200, 0, 300, 300),
        ({}, 100, 0, 200, 100),
        ({}, 100, 200, 200, 300),
    ]
    arguments = ["--grid", "100", "--area", polygons(room, "area.geojson", *parts), "--out", out]
    assert room.ran("points", town, *arguments, *NEAR)[2] == 0
    found = [cell["id"] for cell in cells_of(out)]
    assert found == ["r1c1", "r1c2", "r1c3", "r2c1", "r2c3", "r3c1", "r3c2", "r3c3"]


def test_cells_are_one_end_where_files_are_the_other(room: Room) -> None:
    town, out = feed(room), room.path("doors")
    schools = room.write("schools.csv", "id,lat,lon", [["s", *place(0, 990)]])
    assert room.ran("points", town, "--grid", "250", "--destinations", schools, "--out", out, *NEAR)[2] == 0
    assert Path(out, "destinations.csv").read_text() == "stop_id\ns\n"
    assert Path(out, "origins.csv").read_text().count("\n") == 9
    both = ["--destinations", schools, "--origins", schools]
    assert room.ran("points", town, "--grid", "250", *both, "--out", room.path("no"))[2] == 2


def test_what_is_refused(room: Room) -> None:
    town, out = feed(room), room.path("doors")
    arguments = ["points", town, "--out", out, *NEAR]
    assert room.ran(*arguments, "--people", "x.csv")[2] == 2
    room.refused(
        "grid: no cell of 9000 metres is within a walk of a stop: use smaller cells", *arguments, "--grid", "9000"
    )
    wide = [*arguments[:-6], "--limit", "7200", "--speed", "9", "--detour", "1"]
    message = "grid: 167,987,521 cells are too many: use larger cells, or a smaller area"
    room.refused(message, *wide, "--grid", "10")
    room.refused("grid: more than 65,535 cells, which is more than ttm takes: use larger cells", *wide, "--grid", "200")
    texts = room.write("texts.csv", "id,lat,lon,kind", [["a", *place(0, 0), "x"]])
    room.refused(f"{texts}: no column of numbers", *arguments, "--grid", "250", "--people", texts)
    counts = room.write("counts.csv", "id,lat,lon,people", [["a", *place(0, 0), 1]])
    message = f"{counts}: a column people is in another file too"
    room.refused(message, *arguments, "--grid", "250", "--people", counts, "--people", counts)


def test_negative_numbers_of_polygons_are_refused(room: Room) -> None:
    pytest.importorskip("geopandas")
    people = polygons(room, "people.geojson", ({"people": -1}, 0, 0, 10, 10))
    arguments = ["points", feed(room), "--out", room.path("doors"), *NEAR, "--grid", "250", "--people", people]
    room.refused(f"{people}: record 1: people '-1' is invalid; allowed: a number from 0 on", *arguments)


def test_cells_are_squares_for_a_geographic_information_system(town: Town) -> None:
    rows: Table = [["A", 60, 7], ["B", 60.01, 7], ["C", 59.99, 7]]
    town.write("stops.txt", "stop_id,stop_lat,stop_lon", [*rows, ["D", "", ""]])
    sides: Table = [[200, ""], [200, 100], ["", ""]]
    town.write("points.csv", "id,lat,lon,width,height", [[*row, *side] for row, side in zip(rows, sides)])
    town.matrix(town_matrix(False))
    out = town.path("cells.geojson")
    assert town.ran("gis", "--feed", town.feed, "--out", out, town.file)[2] == 0
    square, oblong, point = [feature["geometry"] for feature in json.loads(Path(out).read_text())["features"]]
    # a degree on the ellipsoid has 111,412 metres northwards and 55,800 eastwards at 60 degrees, 55,783 at 60.01
    up, right = 100 / 111_412.2, 100 / 55_799.5
    corners = np.array([[-1, -1], [1, -1], [1, 1], [-1, 1], [-1, -1]])
    assert np.allclose(square["coordinates"], [corners * [right, up] + [7, 60]], rtol=0, atol=2e-7)
    assert np.allclose(oblong["coordinates"], [corners * [100 / 55_782.7, up / 2] + [7, 60.01]], rtol=0, atol=2e-7)
    assert point == {"type": "Point", "coordinates": [7.0, 59.99]}
