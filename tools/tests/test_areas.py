"""Points that are areas keep their shapes: next to the feed's points, on maps, on pages, and in files of others."""

import json
from pathlib import Path
from typing import Any, Iterator

import numpy as np
import pytest

from browser import Browser
from helpers import TOWN, Town, town_matrix
from test_maps import figure
from ttm_tools.core.errors import InputError
from ttm_tools.gtfs.projection import Projection
from ttm_tools.gtfs.stops import Stops, read_stops
from ttm_tools.matrices import open_matrix
from ttm_tools.places.areas import AREAS_FILE, areas_beside
from ttm_tools.places.read import read_points
from ttm_tools.places.selection import select_points

pytest.importorskip("geopandas")
# the zone a reaches far to the north; b has a hole; c is two parts
A = [[[8.99, -0.01], [9.0, -0.01], [9.0, 0.04], [8.99, 0.04], [8.99, -0.01]]]
B = [
    [[9.0, -0.01], [9.03, -0.01], [9.03, 0.02], [9.0, 0.02], [9.0, -0.01]],
    [[9.01, 0.0], [9.01, 0.01], [9.02, 0.01], [9.02, 0.0], [9.01, 0.0]],
]
C = [
    [[[9.0, 0.02], [9.01, 0.02], [9.01, 0.03], [9.0, 0.02]]],
    [[[9.02, 0.02], [9.03, 0.02], [9.03, 0.03], [9.02, 0.02]]],
]
GEOMETRIES = {
    "a": {"type": "Polygon", "coordinates": A},
    "b": {"type": "Polygon", "coordinates": B},
    "c": {"type": "MultiPolygon", "coordinates": C},
}
TIMES = {name: dict(zip("abc", (row[:3] for row in TOWN["base"].values()))) for name in ("base", "cut")}
TIMES |= {
    "cut": {"a": [0, 900, ""], "b": [300, 0, 300], "c": ["", 60, 0]},
    "base": {letter: [0, 60, 120] for letter in "abc"},
}


@pytest.fixture(scope="module")
def browser() -> Iterator[Browser]:
    pytest.importorskip("jinja2")
    driver = Browser()
    yield driver
    driver.close()


def zones(town: Town, name: str = "zones.geojson", **geometries: Any) -> str:
    features = [
        {"type": "Feature", "properties": {"id": item, "name": f"Zone {item}", "people": 5}, "geometry": geometry}
        for item, geometry in (geometries or GEOMETRIES).items()
    ]
    Path(town.path(name)).write_text(json.dumps({"type": "FeatureCollection", "features": features}))
    return town.path(name)


def doors(town: Town) -> str:
    """A folder of the three zones, and a matrix of these; the feed in it."""
    town.write("routes.txt", "route_id", [["R"], ["Q"]])
    arguments = ["points", town.feed, zones(town), "--out", town.path("doors"), "--limit", "7200"]
    assert town.ran(*arguments)[2] == 0
    town.matrix(town_matrix(True, TIMES, stops="abc"))
    town.feed = town.path("doors/feed")
    return town.feed


def test_a_folder_of_points_keeps_their_areas(town: Town) -> None:
    result = areas_beside(f"{doors(town)}/points.csv")
    assert {name: len(area) for name, area in result.items()} == {"a": 1, "b": 1, "c": 2}
    assert [ring.tolist() for ring in result["b"][0]] == B and result["a"][0][0].tolist() == A[0]
    (town.folder / "cells.csv").write_text("id,lat,lon\np,0.0,9.0\n")
    assert town.ran("points", town.path("."), town.path("cells.csv"), "--out", town.path("bare"))[2] == 0
    assert not Path(town.path("bare/feed"), AREAS_FILE).exists()


def test_areas_of_points_whose_identifiers_are_taken_have_the_new_ones(town: Town) -> None:
    town.write("routes.txt", "route_id", [["R"], ["Q"]])
    files = [zones(town), zones(town, "more.geojson", a=GEOMETRIES["a"])]
    assert town.ran("points", town.feed, *files, "--out", town.path("doors"), "--limit", "7200")[2] == 0
    assert list(areas_beside(town.path("doors/feed/points.csv"))) == ["a", "b", "c", "more:a"]


@pytest.mark.parametrize(
    "text", ["[]", '{"features": [{}]}', '{"features": 7}', "{", '{"features": [{"geometry": []}]}']
)
def test_a_damaged_file_of_areas_is_told(town: Town, text: str) -> None:
    path = Path(doors(town), AREAS_FILE)
    path.write_text(text)
    town.refused_with(f"{path}: ", "map", "access", "--feed", town.feed, "--out", town.path("m.png"), town.file)
    path.write_text(json.dumps({"features": [feature_of("a", [[[[500, 0], [0, 1], [1, 1], [500, 0]]]])]}))
    with pytest.raises(InputError, match="the area of a has an invalid ring"):
        areas_beside(f"{town.feed}/points.csv")


def feature_of(name: str, parts: Any) -> dict[str, Any]:
    return {"properties": {"id": name}, "geometry": {"type": "MultiPolygon", "coordinates": parts}}


def test_areas_named_by_a_file_and_those_of_a_folder_are_alike(town: Town) -> None:
    plain = read_stops(town.feed)
    feed = doors(town)
    for choice in (None, town.path("zones.geojson")):
        stops = select_points(open_matrix(town.file), feed, choice)[1]
        assert stops is not None and set(stops.of(["a", "c"]).areas) == {"a", "c"}
    assert plain.areas == {} and read_points(town.path("zones.geojson")).only(np.array([1])).areas.keys() == {"b"}


def test_a_map_draws_areas_with_their_holes(town: Town, monkeypatch: pytest.MonkeyPatch) -> None:
    pytest.importorskip("matplotlib")
    from matplotlib.collections import PathCollection
    from matplotlib.figure import Figure

    doors(town)
    figures: list[Any] = []
    monkeypatch.setattr(Figure, "savefig", lambda figure, *_, **__: figures.append(figure))
    assert (
        town.ran("map", "times", "--origin", "a", "--feed", town.feed, "--out", town.path("m.png"), town.file)[2] == 0
    )
    (axes,) = figures[0].axes
    drawn = [
        path
        for collection in axes.collections
        if isinstance(collection, PathCollection)
        for path in collection.get_paths()
    ]
    corners = [len(path.vertices) for path in drawn]
    assert 10 in corners and 8 in corners  # b with its hole, and c; a is the origin, which has a star
    figures[0].canvas.draw()
    pixels = np.asarray(figures[0].canvas.buffer_rgba())
    matrix, stops = select_points(open_matrix(town.file), town.feed, None)
    assert stops is not None
    there = stops.of(matrix.stops)
    on_map = Projection(there.latitudes, there.longitudes)

    def colour(east: float, north: float) -> list[int]:
        kilometres = np.stack(on_map.kilometres([east], [north]), axis=1)
        across, up = axes.transData.transform(kilometres)[0]
        return [int(pixel) for pixel in pixels[len(pixels) - 1 - round(up), round(across), :3]]

    assert colour(9.017, 0.003) == [255, 255, 255] != colour(9.025, 0.015)
    (left, right), (bottom, top) = axes.get_xlim(), axes.get_ylim()
    assert right - left > 0.04 * 111 and top - bottom > 0.05 * 110  # the areas' own extent
    monkeypatch.undo()
    assert figure(town, monkeypatch, "times", "--origin", "a")[2][0].startswith("up to 10 min  (2)")


@pytest.mark.parametrize("kind", ["geojson", "gpkg"])
def test_files_for_others_have_areas(town: Town, kind: str) -> None:
    import geopandas

    doors(town)
    assert town.ran("gis", "--feed", town.feed, "--out", town.path(f"out.{kind}"), town.file)[2] == 0
    frame = geopandas.read_file(town.path(f"out.{kind}")).set_index("stop_id")
    given = geopandas.read_file(town.path("zones.geojson")).set_index("id")
    for name in "abc":
        assert frame.geometry[name].symmetric_difference(given.geometry[name]).area < 1e-12
    if kind == "gpkg":
        assert set(frame.geom_type) == {"MultiPolygon"}


def test_a_page_shows_areas_and_takes_clicks_in_them(town: Town, browser: Browser) -> None:
    doors(town)
    path = Path(town.path("page.html"))
    assert town.ran("page", "--feed", town.feed, "--out", str(path), town.file)[2] == 0
    browser.open(path, "view=times&from=b&minutes=120&scenario=base")
    script = "return [...numbers['area-rings']].map((it, at) => (at % 2 ? it : head.identifiers[it]))"
    assert sorted(zip(*[iter(browser.run(script))] * 2)) == [("a", 4), ("b", 4), ("b", 4), ("c", 3), ("c", 3)]
    at = "const to = page.map.latLngToContainerPoint([arguments[0], arguments[1]]);"
    at += "const found = page.placeAt(to); return found < 0 ? '' : head.identifiers[found];"
    tops = {(0.039, 8.991): "a", (-0.009, 9.029): "b", (0.029, 9.0095): "c", (0.0201, 9.021): "c", (0.039, 9.02): ""}
    assert {place: browser.run(at, *place) for place in tops} == tops
    inside = "const map = page.map.getContainer().getBoundingClientRect();"
    inside += "const at = page.map.latLngToContainerPoint([arguments[0], arguments[1]]);"
    inside += "return at.x > 0 && at.y > 0 && at.x < map.width && at.y < map.height"
    assert all(browser.run(inside, *place) for place in tops)
    colour = "const canvas = document.querySelector('canvas.places'), box = canvas.getBoundingClientRect();"
    colour += "const map = page.map.getContainer().getBoundingClientRect();"
    colour += "const at = page.map.latLngToContainerPoint([arguments[0], arguments[1]]);"
    colour += "const x = at.x + map.left - box.left, y = at.y + map.top - box.top;"
    colour += "return [...canvas.getContext('2d').getImageData(Math.round(x), Math.round(y), 1, 1).data]"
    assert browser.run(colour, 0.002, 9.012)[3] == 0 and browser.run(colour, 0.015, 9.025)[3] == 255  # hole, and area
    assert browser.complaints() == []


def test_stops_without_areas_are_as_before() -> None:
    none = np.zeros(0)
    assert Stops("", [], [], none, none, np.zeros(0, np.int8), []).areas == {}
