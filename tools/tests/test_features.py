"""Files of people as polygons: what is repaired, and what is refused so that no people get lost; numbers by hand."""

import json
from pathlib import Path
from typing import Any

import pytest

from helpers import EASTWARDS, NORTHWARDS, Room
from test_grid import cells_of
from test_points import PACE, feed

pytest.importorskip("geopandas")
SQUARE = [(0, 0), (500, 0), (500, 250), (0, 250), (0, 0)]  # metres east and north: two cells of the grid
BOW = [
    (0, 0),
    (250, 250),
    (250, 0),
    (0, 250),
    (0, 0),
]  # two triangles in the first cell, whose signed areas add up to 0


def polygon(*rings: list[tuple[int, int]]) -> dict[str, Any]:
    """One polygon for each ring."""
    parts = [[[[1 + x * EASTWARDS, y * NORTHWARDS] for x, y in ring]] for ring in rings]
    return (
        {"type": "Polygon", "coordinates": parts[0]}
        if len(parts) == 1
        else {"type": "MultiPolygon", "coordinates": parts}
    )


def people(room: Room, *features: tuple[Any, dict[str, Any] | None]) -> str:
    items = [
        {"type": "Feature", "properties": own if isinstance(own, dict) else {"people": own}, "geometry": shape}
        for own, shape in features
    ]
    Path(room.path("people.geojson")).write_text(json.dumps({"type": "FeatureCollection", "features": items}))
    return room.path("people.geojson")


def arguments(room: Room, town: str, path: str) -> list[str]:
    area = room.path("area.geojson")
    feature = {"type": "Feature", "properties": {}, "geometry": polygon(SQUARE)}
    Path(area).write_text(json.dumps({"type": "FeatureCollection", "features": [feature]}))
    out = ["--out", room.path("doors"), "--limit", "600", *PACE]
    return ["points", town, "--grid", "250", "--area", area, "--people", path, *out]


def counted(room: Room, *features: tuple[Any, dict[str, Any] | None]) -> tuple[list[float], list[str]]:
    """The people of each cell, and what is said of the file."""
    path = people(room, *features)
    _, errors, status = room.ran(*arguments(room, feed(room), path))
    assert status == 0, errors
    said = [line.removeprefix(f"{path}: ") for line in errors.splitlines() if line.startswith(path)]
    return [float(cell["people"]) for cell in cells_of(room.path("doors"))], said


def test_a_bow_tie_counts_where_its_triangles_lie(room: Room) -> None:
    numbers, said = counted(room, (80, polygon(BOW)), (10, polygon(SQUARE)))
    assert numbers == pytest.approx([85, 5], rel=1e-4)
    assert said == ["1 invalid shape repaired: record 1 (self-intersection)"]


def test_parts_that_overlap_count_once(room: Room) -> None:
    wide = [(125, 0), (500, 0), (500, 250), (125, 250), (125, 0)]
    numbers, said = counted(room, (40, polygon(SQUARE, wide)))
    assert numbers == pytest.approx([20, 20], rel=1e-4)
    assert said == ["1 invalid shape repaired: record 1 (self-intersection)"]


def test_a_number_stored_as_text_is_a_number(room: Room) -> None:
    numbers, said = counted(
        room, (5, polygon(SQUARE)), ("7", polygon(SQUARE)), (None, polygon(SQUARE)), ("", polygon(SQUARE))
    )
    assert numbers == pytest.approx([6, 6], rel=1e-6) and said == []


def test_codes_of_digits_are_no_people(room: Room) -> None:
    numbers, said = counted(
        room, ({"people": 5, "zone": "0601"}, polygon(SQUARE)), ({"people": 1, "zone": "0602"}, polygon(SQUARE))
    )
    assert numbers == pytest.approx([3, 3], rel=1e-6)
    assert said == ["the column zone is text, so its numbers are not summed"]
    assert "zone" not in cells_of(room.path("doors"))[0]


@pytest.mark.parametrize(
    "second, message",
    [
        ((5000, None), "record 2: no shape, and 5000 people"),
        ((1, polygon([(0, 0), (10, 0), (20, 0), (0, 0)])), "record 2: a polygon without area"),
        (("n/a", polygon(SQUARE)), "record 2: people 'n/a' is invalid; allowed: a number from 0 on, or nothing"),
        ((-1, polygon(SQUARE)), "record 2: people '-1' is invalid; allowed: a number from 0 on"),
    ],
)
def test_what_would_lose_people_is_refused(room: Room, second: tuple[Any, dict[str, Any] | None], message: str) -> None:
    path, town = people(room, (3, polygon(SQUARE)), second), feed(room)
    room.ran(*arguments(room, town, path))
    room.refused(f"{path}: {message}", *arguments(room, town, path))


def test_a_record_without_shape_and_people_loses_nothing(room: Room) -> None:
    numbers, said = counted(room, (4, polygon(SQUARE)), (0, None), (None, None))
    assert numbers == pytest.approx([2, 2]) and said == []


def test_a_column_of_text_that_is_nearly_all_numbers_is_refused(room: Room) -> None:
    import geopandas
    from shapely.geometry import shape

    texts, zones = ["n/a", *["3"] * 11], geopandas.GeoSeries([shape(polygon(SQUARE))] * 12, crs=4326)
    path = room.path("people.gpkg")
    geopandas.GeoDataFrame({"people": texts, "jobs": range(12)}, geometry=zones).to_file(path, driver="GPKG")
    town = feed(room)
    room.ran(*arguments(room, town, path))
    message = "record 1: people 'n/a' is invalid; allowed: a number from 0 on, or nothing"
    room.refused(f"{path}: {message}", *arguments(room, town, path))


def test_points_of_a_file_are_checked_alike(room: Room) -> None:
    town = feed(room)
    path = people(room, ({"id": "a", "people": 5}, polygon(BOW)), ({"id": "b", "people": "7"}, polygon(SQUARE)))
    out = room.path("doors")
    ran = room.ran("points", town, path, "--out", out, "--limit", "600", *PACE)
    assert ran[2] == 0, ran[1]
    assert [(cell["id"], cell["people"]) for cell in cells_of(out)] == [("a", "5"), ("b", "7")]
    path = people(room, ({"id": "a", "people": 5}, polygon(BOW)), ({"id": "b", "people": "n/a"}, polygon(SQUARE)))
    message = f"{path}: record 2: people 'n/a' is invalid; allowed: a number from 0 on, or nothing"
    room.refused(message, "points", town, path, "--out", room.path("no"), "--limit", "600", *PACE)
