"""Areas along streets on the page, in a real browser: by hand, and compared with the search of `isochrones`."""

import random
from pathlib import Path
from typing import Iterator

import numpy as np
import pytest

from browser import Browser
from helpers import METRE, Cell, Town, town_matrix
from streets import write_osm
from test_isochrones import crossroads
from test_page import page
from ttm_tools.gtfs.stops import read_stops
from ttm_tools.core.walking import Walking
from ttm_tools.streets.osm import read_streets
from ttm_tools.streets.router import Router
from ttm_tools.streets.walks import points_of
from ttm_tools.web.page import make

for package in ("jinja2", "osmium", "scipy"):
    pytest.importorskip(package)
AT = """
const at = page.map.latLngToContainerPoint([arguments[0], arguments[1]]);
const canvas = document.querySelector('canvas.places'), box = canvas.getBoundingClientRect();
const map = document.getElementById('map').getBoundingClientRect(), fine = canvas.width / box.width;
const place = [at.x + map.left - box.left, at.y + map.top - box.top].map((it) => Math.round(it * fine));
return canvas.getContext('2d').getImageData(...place, 1, 1).data[3];
"""


@pytest.fixture(scope="module")
def browser() -> Iterator[Browser]:
    driver = Browser()
    yield driver
    driver.close()


def opened(browser: Browser, path: Path, arguments: str) -> None:
    """Opens a page with its areas, and waits for the streets."""
    browser.open(path, f"view=times&scenario=base&from=A&areas=1&{arguments}")
    browser.awaited("await bands.ready;")


def is_painted(browser: Browser, north: float, east: float) -> bool:
    """Whether there is a colour at these metres from A."""
    return bool(browser.run(AT, north * METRE, 9 + east * METRE))


def test_one_walks_on_along_streets_as_in_isochrones(town: Town, browser: Browser) -> None:
    """240 seconds from A are 319 metres along the arms. B, which is reached after 5 minutes, lies 112 metres, or 145
    with the detour, from the end of the street to the east: 174 metres of that are left.
    """
    town.matrix(town_matrix(True))
    path = page(town, "--streets", crossroads(town), "--walk", "240")
    opened(browser, path, "minutes=10")
    for north, east in ((0, 200), (0, -200), (200, 0), (-300, 0), (0, 355), (30, 200), (0, 950), (0, 790)):
        assert is_painted(browser, north, east), (north, east)
    for north, east in ((150, 150), (0, 400), (400, 0), (80, 200), (0, 700), (0, 1070)):
        assert not is_painted(browser, north, east), (north, east)
    browser.run("page.map.setView([0, 9], page.map.getZoom() + 2, { animate: false })")
    assert is_painted(browser, 0, 200) and not is_painted(browser, 80, 200)
    browser.press("#areas")
    assert not is_painted(browser, 0, 200)
    assert browser.complaints() == []


def test_a_page_without_streets_has_circles(town: Town, browser: Browser) -> None:
    town.matrix(town_matrix(True))
    browser.open(page(town, "--walk", "240"), "view=times&scenario=base&from=A&areas=1&minutes=10")
    assert is_painted(browser, 150, 150) and browser.run("return bands.ready") is None


def drawn_streets(town: Town, draw: random.Random) -> str:
    """A grid of streets with gaps and one-way walks, round the four stops."""
    nodes = {
        100 * row + column + 1: (-300 + 300 * row + draw.uniform(-90, 90), 8 / METRE - 300 + 300 * column)
        for row in range(9)
        for column in range(6)
    }
    ways = []
    for node in nodes:
        for other in (node + 1, node + 100):
            if other in nodes and draw.random() < 0.8:
                tags = {"highway": "residential"}
                ways.append(([node, other], tags | ({"oneway:foot": "yes"} if draw.random() < 0.2 else {})))
    return write_osm(town.folder / "drawn.osm", nodes, ways)


@pytest.mark.parametrize("seed", range(4))
def test_what_is_left_at_each_node_is_that_of_isochrones(town: Town, browser: Browser, seed: int) -> None:
    draw = random.Random(seed)
    some: list[Cell] = [0, 300, 620, 900, ""]
    times = {"base": {name: [draw.choice(some) for _ in "ABCD"] for name in "AD"}}
    town.matrix(town_matrix(True, times))
    path = drawn_streets(town, draw)
    opened(browser, page(town, "--streets", path, "--walk", "900"), "minutes=30")
    ours = "Array.from(bands.areas.leftOf(current.now, head.walk, arguments[0]))"
    nodes = np.array(browser.run("return Array.from(bands.areas.streets.points)")).reshape(-1, 2)
    stops, walking = read_stops(town.feed).of(list("ABCD")), Walking(max_seconds=900)
    router = Router(read_streets(path), points_of(stops.latitudes, stops.longitudes), walking, 100)
    longitudes = nodes[:, 0] / 256 * 360 - 180
    latitudes = np.degrees(2 * np.arctan(np.exp(np.pi * (1 - nodes[:, 1] / 128))) - np.pi / 2)
    for end in (10, 20, 30):
        minutes = np.array([np.inf if time == "" else -(-int(time) // 60) for time in times["base"]["A"]])
        metres = np.minimum(60 * (end - minutes), 900) * walking.speed
        wanted = np.maximum(router.within(np.where(minutes < end, metres, -1.0)), 0)
        found = np.array(browser.run(f"return {ours}", end))
        far = (router.degrees[:, 1, None] - latitudes) ** 2 + (router.degrees[:, 0, None] - longitudes) ** 2
        nearest = far.argmin(axis=1)
        known = far.min(axis=1) < (2 * METRE) ** 2  # others no walk of the page leads to
        assert known[wanted > 0].all()
        assert np.abs(found[nearest] - wanted)[known].max(initial=0) < 2.5  # metres: coordinates are rounded
        assert (found > 0).sum() > 3 or (wanted > 0).sum() <= 3


def test_more_streets_than_a_page_takes_are_told(town: Town, monkeypatch: pytest.MonkeyPatch) -> None:
    town.matrix(town_matrix(True))
    monkeypatch.setattr(make, "MOST_NODES", 3)
    text = page(town, "--streets", crossroads(town)).read_text()
    assert "nodes, and a page takes 3: areas are circles." in text and 'id="street-nodes"' not in text
    assert '"streets":null' in text


def test_cells_need_no_streets(town: Town) -> None:
    town.matrix(town_matrix(True))
    rows = [["A", 0, 9, 400], ["B", 0, 9.01, 400], ["C", 0.01, 9.01, 400], ["D", 0.02, 9, 400]]
    points = town.write("mine.csv", "id,lat,lon,width", rows)
    text = page(town, "--points", points, "--streets", crossroads(town)).read_text()
    assert '"streets":null' in text
