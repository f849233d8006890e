"""Isochrones: areas by hand of circles, squares and polygons, sums of people, and what is refused."""

import json
import math
from pathlib import Path
from typing import Any

import numpy as np
import pytest

from helpers import EASTWARDS, METRE, NORTHWARDS, Town, town_matrix

pytest.importorskip("shapely")
CORNERS = 48  # of a circle
ROUND = math.sin(2 * math.pi / CORNERS) / (2 * math.pi / CORNERS)  # the part of a circle that its corners enclose
PLAIN = ["--speed", "1", "--detour", "1"]  # a metre a second, as the crow flies


def isochrones(town: Town, *arguments: str) -> list[dict[str, Any]]:
    """The features that the command writes, and that it ends well."""
    out = town.path("areas.geojson")
    ran = town.ran("isochrones", "--feed", town.feed, "--origin", "A", *PLAIN, *arguments, "--out", out, town.file)
    assert (ran[0], ran[2]) == ("", 0), ran[1]
    features = json.loads(Path(out).read_text())["features"]
    assert isinstance(features, list)
    return features


def signed_area(ring: list[list[float]]) -> float:
    return sum(x * v - u * y for (x, y), (u, v) in zip(ring, ring[1:])) / 2


def test_circles_have_the_radius_that_the_time_left_allows(town: Town) -> None:
    town.matrix(town_matrix(True))
    wide, narrow = isochrones(town, "--scenario", "base", "--bands", "5,10")
    # after 10 minutes 600 m around A, 300 m around B, which lie 1,112 m apart; after 5 minutes 300 m around A alone
    assert wide["properties"]["square_km"] == pytest.approx(math.pi * (0.36 + 0.09) * ROUND, abs=1e-4)
    assert narrow["properties"]["square_km"] == pytest.approx(math.pi * 0.09 * ROUND, abs=1e-4)
    known = {"origin": "A", "scenario": "base", "percentile": 50}
    assert {name: wide["properties"][name] for name in known} == known
    assert [(item["properties"]["minutes"], item["properties"]["reached"]) for item in (wide, narrow)] == [
        (10, 2),
        (5, 2),
    ]


def test_circles_that_meet_are_one_shape_and_the_walk_has_a_limit(town: Town) -> None:
    town.matrix(town_matrix(True))
    (area,) = isochrones(town, "--scenario", "base", "--bands", "20", "--walk", "560")
    # A and B have 560 m each, and overlap; C, with 300 s left, lies 1,112 m north of B
    assert area["geometry"]["type"] == "MultiPolygon" and len(area["geometry"]["coordinates"]) == 2
    half = 1112 / 2
    lens = 2 * (560**2 * math.acos(half / 560) - half * math.sqrt(560**2 - half**2)) / 1e6
    wanted = math.pi * (2 * 0.56**2 + 0.3**2) - lens
    assert area["properties"]["square_km"] == pytest.approx(wanted, rel=0.01)
    assert all(signed_area(part[0]) > 0 for part in area["geometry"]["coordinates"])


def test_a_square_counts_whole_and_people_are_summed(town: Town) -> None:
    town.matrix(town_matrix(True))
    points = town.write("mine.csv", "id,lat,lon,width", [["A", 0, 9, 400], ["D", 0.02, 9, 200]])
    people = town.write("people.csv", "id,people,jobs", [["A", 70, 1], ["D", 5, 2.5]])
    arguments = ["--points", points, "--people", people, "--scenario", "base", "--bands", "10,40"]
    wide, narrow = isochrones(town, *arguments)
    assert narrow["properties"]["square_km"] == pytest.approx(0.16, abs=1e-4)
    assert wide["properties"]["square_km"] == pytest.approx(0.16 + 0.04, abs=1e-4)
    assert [(item["properties"]["people"], item["properties"]["jobs"]) for item in (wide, narrow)] == [
        (75, 3.5),
        (70, 1),
    ]


def test_polygons_of_the_points_are_taken_in_a_geopackage(town: Town) -> None:
    geopandas = pytest.importorskip("geopandas")
    from shapely.geometry import box

    town.matrix(town_matrix(False))
    side, high = 1000 * EASTWARDS, 1000 * NORTHWARDS  # a kilometre on the equator, in degrees
    areas = geopandas.GeoDataFrame({"id": ["A", "C"]}, geometry=[box(9, 0, 9 + side, high), box(9.01, 0, 9.02, 0.01)])
    areas.set_crs("EPSG:4326").to_file(town.path("areas.gpkg"), driver="GPKG")
    out = town.path("isochrones.gpkg")
    arguments = ["--points", town.path("areas.gpkg"), "--bands", "10", "--scenario", "cut", "--out", out, town.file]
    assert town.ran("isochrones", "--feed", town.feed, "--origin", "A", *arguments)[2] == 0
    result = geopandas.read_file(out)
    assert (list(result.scenario), list(result.reached), result.crs.to_epsg()) == (["cut"], [1], 4326)
    assert result.square_km[0] == pytest.approx(1.0, rel=1e-3) and result.geometry[0].bounds[2] == pytest.approx(
        9 + side
    )


def test_an_empty_band_has_an_empty_shape(town: Town) -> None:
    town.matrix(town_matrix(True, {"base": {"A": ["", "", "", 2400]}}))
    (area,) = isochrones(town, "--bands", "30")
    assert area["geometry"] == {"type": "MultiPolygon", "coordinates": []}
    assert (area["properties"]["reached"], area["properties"]["square_km"]) == (0, 0)


def test_polygons_in_a_collection_of_collections_are_kept() -> None:
    from shapely.geometry import GeometryCollection, LineString, MultiPolygon, Polygon, box
    from ttm_tools.views.isochrones import polygons_in

    squares = [box(0, 0, 1, 1), box(2, 0, 3, 1)]
    repaired = GeometryCollection([MultiPolygon(squares), LineString([(1, 0), (2, 0)]), Polygon()])
    found = polygons_in(repaired)
    assert [part.area for part in found] == [1, 1]
    assert all(part.exterior.is_ccw for part in found)


@pytest.mark.parametrize("seed", range(5))
def test_squares_around_rounded_middles_keep_their_area(seed: int) -> None:
    from shapely.geometry import box
    from shapely.ops import transform, unary_union
    from ttm_tools.gtfs.projection import Projection
    from ttm_tools.views.isochrones import StopGeometry

    draw = np.random.default_rng(seed)
    middles = [(x, y) + draw.uniform(-0.00005, 0.00005, 2) for x in range(12) for y in range(12) if draw.random() < 0.6]
    squares = unary_union([box(x - 0.5, y - 0.5, x + 0.5, y + 0.5) for x, y in middles])
    projection = Projection(np.array([51.5]), np.array([-0.1]))
    none: Any = None
    written = StopGeometry(none, projection, none, none, [], none).in_degrees(squares)
    assert transform(projection.kilometres, written).area == pytest.approx(len(middles), rel=0.001)


def test_what_is_refused(town: Town) -> None:
    town.matrix(town_matrix(True))
    arguments = ["isochrones", "--feed", town.feed, "--out", town.path("a.geojson"), "--origin"]
    town.refused(f"{town.file}: the scenario base has no origin B", *arguments, "B", town.file)
    named = "the scenario base has no origin Alpha1; the nearest is 'Alpha'"
    town.matrix(town_matrix(True, {"base": {"Alpha": [0, 1, 2, 3]}}))
    assert named in town.ran(*arguments, "Alpha1", town.file)[1]
    town.matrix(town_matrix(True))
    people = town.write("people.csv", "stop_id,people", [["Z", 1]])
    town.refused(f"{people}: record 2: no column is called Z", *arguments, "A", "--people", people, town.file)
    assert town.ran(*arguments[:4], town.path("a.shp"), "--origin", "A", town.file)[2] == 2


def crossroads(town: Town) -> str:
    """Two streets that cross at A: 1,000 metres to each side; none is near B, C and D."""
    from streets import write_osm

    ends = {1: (0, -1000), 2: (0, 0), 3: (0, 1000), 4: (-1000, 0), 5: (1000, 0)}
    moved = {node: (north, east + 8 / METRE) for node, (north, east) in ends.items()}
    road = {"highway": "residential"}
    return write_osm(town.folder / "streets.osm", moved, [([1, 2, 3], road), ([4, 2, 5], road)])


def test_one_walks_on_along_streets_to_squares(town: Town) -> None:
    for package in ("osmium", "scipy"):
        pytest.importorskip(package)
    from shapely.geometry import Point, shape as as_shape

    town.matrix(town_matrix(True))
    for walk, metres in ((600, 240), (120, 120)):
        words = ["--bands", "4", "--walk", str(walk), "--streets", crossroads(town)]
        (area,) = isochrones(town, "--scenario", "base", *words)
        # each of four arms is walked for `metres`; a street at the edge of squares of 100 metres takes two rows
        whole = area["properties"]["square_km"] / 0.01
        assert whole == pytest.approx(round(whole), abs=1e-6)
        assert 4 * (metres - 120) / 100 < whole < 2 * 4 * (metres + 150) / 100
        shape = as_shape(area["geometry"])
        for north, east in ((0, 1), (0, -1), (1, 0), (-1, 0)):
            end, far = metres - 90, metres + 130
            assert shape.contains(Point(9 + east * end * METRE, north * end * METRE))
            assert not shape.contains(Point(9 + east * far * METRE, north * far * METRE))


def test_from_the_place_where_most_is_left_one_comes_furthest() -> None:
    pytest.importorskip("scipy")
    from ttm_tools.core.walking import Walking
    from ttm_tools.streets.osm import Streets
    from ttm_tools.streets.router import Router
    from ttm_tools.streets.straight import points_of

    # a street of two pieces of 1,000 m along the equator, a way for both directions, with places at 0, 300 and 1,000 m
    ways = (np.array([0, 1]), np.array([1, 2]), np.array([True, True]), np.array([True, True]))
    streets = Streets("", np.zeros(3), np.array([0.0, 1000, 2000]) * METRE, *ways)
    places = np.array([0.0, 300, 1000]) * METRE
    router = Router(streets, points_of(np.array([0.0, 0, 10 * METRE]), places), Walking(3.6, 1, 600), 100)
    # the nodes are at 0, 1,000 and 2,000 m, then the places; 400 m from the first leave 100 m at the second, which is
    # more than 50
    assert router.within(np.array([400.0, 50, -1])).round().tolist() == [400, -1, -1, 400, 100, -1]
    # from the third, 10 m off the street
    assert router.within(np.array([-1.0, 50, 1260])).round().tolist() == [250, 1250, 250, 250, 550, 1250]


@pytest.mark.parametrize("seed", range(3))
def test_an_area_is_the_union_of_its_squares_without_narrow_gaps(seed: int) -> None:
    from shapely.geometry import box
    from shapely.ops import unary_union
    from ttm_tools.gtfs.projection import Projection
    from ttm_tools.places.street_grid import StreetGrid
    from ttm_tools.streets.osm import Streets

    draw = np.random.default_rng(seed)
    streets = Streets(
        "",
        draw.uniform(0, 0.02, 40),
        draw.uniform(0, 0.02, 40),
        *np.arange(40).reshape(2, 20),
        *[np.ones(20, bool)] * 2,
    )
    grid = StreetGrid(streets, Projection(streets.latitudes, streets.longitudes), 50)
    reached = draw.random(len(grid.cells)) < 0.5
    squares = [box(x, y, x + 50, y + 50) for x, y in (50.0 * grid.cells[reached]).tolist()]
    expected = unary_union(squares).buffer(50, join_style=2).buffer(-50, join_style=2)
    area = grid.area(reached)
    assert len(squares) > 50 and area.symmetric_difference(expected).area < 1e-6 * expected.area
    assert grid.area(np.zeros(len(grid.cells), np.bool_)).is_empty


def test_a_map_shows_the_areas_with_their_square_kilometres(town: Town, monkeypatch: pytest.MonkeyPatch) -> None:
    pytest.importorskip("matplotlib")
    from test_maps import figure

    town.matrix(town_matrix(True))
    arguments = ["isochrones", "--origin", "A", "--scenario", "base", "--breaks", "5,10", *PLAIN]
    texts, key, classes = figure(town, monkeypatch, *arguments)
    # 300 m around A within 5 minutes; within 10 minutes 600 m around A, and 300 m around B
    narrow, wide = (math.pi * number * ROUND for number in (0.3**2, 0.6**2 + 0.3**2))
    printed = [
        f"up to 5 minutes: {narrow:.1f} km²",
        f"up to 10 minutes: {wide:.1f} km²",
        "origin",
        "where vehicles run",
    ]
    assert (key, classes) == ("Reached within", printed)
    assert texts[:2] == ["Areas reached from Alpha (A)", f"{wide:.1f} km² within 10 minutes"]
    assert "50 % of departures" in texts[2].replace("\n", " ")
    ran = town.ran("map", "isochrones", "--feed", town.feed, "--out", town.path("map.png"), town.file)
    assert ran[2] == 2 and "isochrones needs --origin" in ran[1]


def test_bands_of_decimals_are_whole_seconds_as_cutoffs_are(town: Town) -> None:
    town.matrix(town_matrix(True, {"base": {"A": [0, 123, "", ""]}}))
    (area,) = isochrones(town, "--bands", "2.05")  # 2.05 * 60 is a little below 123
    assert area["properties"]["reached"] == 2


def test_polygons_in_collections_are_kept() -> None:
    from shapely.geometry import GeometryCollection, LineString, MultiPolygon, box
    from ttm_tools.views.isochrones import polygons_in

    # what `make_valid` returns of squares that touch at a corner after rounding
    squares = MultiPolygon([box(0, 0, 1, 1), box(5, 5, 6, 6)])
    found = polygons_in(GeometryCollection([squares, LineString([(1, 1), (2, 2)]), box(9, 9, 10, 10)]))
    assert [polygon.bounds for polygon in found] == [(0, 0, 1, 1), (5, 5, 6, 6), (9, 9, 10, 10)]
