"""Any point of the map of `ttm-tools explore`: the walks from there, and travel times, by hand."""

import os
import subprocess
import sys
from pathlib import Path
from typing import Iterator

import numpy as np
import pytest

from browser import Browser
from exploring import Explored, canned, explored, village
from helpers import LAUNCHER, METRE
from test_explore_making import write_streets

pytestmark = pytest.mark.xdist_group("browser")
pytest.importorskip("flask")
pytest.importorskip("jinja2")
pytest.importorskip("pandas")

from ttm_tools.gtfs.stops import read_stops  # noqa: E402
from ttm_tools.core.walking import Walking  # noqa: E402
from ttm_tools.web.point import Point, streets_around, walks_from  # noqa: E402

TIMES = "times?first=08:00&last=08:00&trips=4&tab=a&turn=1&version=1"
MINUTES = "Object.fromEntries(Array.from(numbers.columns, (it, at) => [head.identifiers[it], current.now[at]]))"


@pytest.fixture(scope="module")
def browser() -> Iterator[Browser]:
    driver = Browser()
    yield driver
    driver.close()


def north_of_alpha(metres: float) -> Point:
    return Point(47.0 + metres * METRE, 8.0)


def test_walks_by_straight_lines(tmp_path: Path) -> None:
    """300 metres are 390 of way, 293 seconds at 4.8 km/h; ten minutes lead 615 metres away."""
    stops = read_stops(str(village(tmp_path)))
    assert walks_from(north_of_alpha(300), stops, Walking(max_seconds=600), None) == [("A", 293)]
    assert walks_from(north_of_alpha(615), stops, Walking(max_seconds=600), None) == [("A", 600)]
    assert walks_from(north_of_alpha(617), stops, Walking(max_seconds=600), None) == []


def test_walks_by_entrances(tmp_path: Path) -> None:
    """Alpha's station has an entrance 200 metres to the north of it, so walks from the south pass it, too."""
    feed = village(tmp_path)
    rows = ["S,Square,47,8,1,", f"E,Entrance,{47.0 + 200 * METRE},8,2,S", "A,Alpha,47,8,0,S", "B,Beta,47,8.02,0,"]
    (feed / "stops.txt").write_text(
        "\n".join(["stop_id,stop_name,stop_lat,stop_lon,location_type,parent_station", *rows, ""])
    )
    stops = read_stops(str(feed))
    assert walks_from(north_of_alpha(300), stops, Walking(max_seconds=600), None) == [("A", 293)]
    assert walks_from(north_of_alpha(-100), stops, Walking(max_seconds=600), None) == [("A", 488)]  # 300, and 200 back


def test_walks_along_streets(tmp_path: Path) -> None:
    """The point lies on a street of 500 metres, 100 from Alpha; Epsilon is 400 metres on, and 400 round the corner."""
    from ttm_tools.streets.osm import read_streets

    feed = village(tmp_path)
    stop = f"E,Epsilon,{47.0 + 500 * METRE},{8.0 + 400 * METRE / 0.682}\n"
    (feed / "stops.txt").write_text((feed / "stops.txt").read_text() + stop)
    pytest.importorskip("osmium")
    streets, stops = read_streets(write_streets(tmp_path)), read_stops(str(feed))
    found = dict(walks_from(north_of_alpha(100), stops, Walking(max_seconds=700), streets))
    assert set(found) == {"A", "E"} and found["A"] == 76 and abs(found["E"] - 600) <= 1
    assert dict(walks_from(north_of_alpha(100), stops, Walking(max_seconds=590), streets)) == {"A": 76}


def test_only_streets_around_are_looked_at(tmp_path: Path) -> None:
    from ttm_tools.streets.osm import Streets

    ends = np.array([47.0, 47.001, 48.0, 48.001, 46.0, 49.0])
    begin, end, both = np.array([0, 2, 4]), np.array([1, 3, 5]), np.ones(3, dtype=np.bool_)
    streets = Streets("streets", ends, np.full(6, 8.0), begin, end, both, both)
    kept = streets_around(Point(47.0, 8.0), streets, 500)
    assert [kept.latitudes[item].tolist() for item in (kept.begin, kept.end)] == [[47.0, 46.0], [47.001, 49.0]]


@pytest.fixture(scope="module")
def refusing(tmp_path_factory: pytest.TempPathFactory) -> Iterator[Explored]:
    folder = tmp_path_factory.mktemp("points")
    with explored(village(folder), canned(folder)) as started:
        yield started


@pytest.mark.parametrize(
    "arguments", ["lat=91&lon=8", "lat=47", "lon=8", "lat=nan&lon=8", "lat=1e1&lon=8", "lat=47&lon=-180.1", "lat=&lon="]
)
def test_bad_points_are_told(refusing: Explored, arguments: str) -> None:
    assert refusing.status(f"{TIMES}&{arguments}") == 422


def click_north_of(browser: Browser, stop: str, metres: float) -> None:
    """Clicks on the map at these metres to the north of a stop."""
    from selenium.webdriver.common.action_chains import ActionChains

    pixels = browser.run(
        "const at = (lat) => page.map.latLngToContainerPoint([lat, 8]).y; return at(47) - at(47 + arguments[0])",
        metres * METRE,
    )
    where = browser.driver.find_element("id", "map")
    (across, down), middle = browser.pixel(stop), (where.size["width"] // 2, where.size["height"] // 2)
    move = ActionChains(browser.driver).move_to_element_with_offset(
        where, across - middle[0], down - round(pixels) - middle[1]
    )
    move.click().perform()
    browser.settle()


@pytest.mark.program
def test_a_click_between_stops_and_the_study_that_is_saved(program: str, tmp_path: Path, browser: Browser) -> None:
    """One walks 300 metres to Alpha, in 294 seconds or so, and waits there for the bus of 08:10, which is at Beta at
    08:15 and at Gamma at 08:20. The train to Delta leaves at 08:45 and takes ten minutes.
    """
    from ttm_tools.matrices import open_matrix

    out = tmp_path / "saved"
    with explored(village(tmp_path), program, "--out", str(out)) as served:
        browser.visit(served.address)
        click_north_of(browser, "A", 300)
        assert browser.text("heading").startswith("Travel times from the point 47.00")
        assert browser.run(f"return {MINUTES}") == {"A": 5, "B": 15, "C": 20, "D": 55}
        arguments = browser.address()
        numbers = browser.run("return keep.numbers()").splitlines()
        click_north_of(browser, "A", 700)
        assert browser.run(f"return {MINUTES}") == {"A": 255, "B": 255, "C": 255, "D": 255}
        browser.visit(served.address, arguments)
        assert browser.run(f"return {MINUTES}") == {"A": 5, "B": 15, "C": 20, "D": 55}
        browser.awaited("await routes.read_; await routes.add({ do: 'remove_route', route: 1 });")
        assert browser.run(f"return {MINUTES}") == {"A": 5, "B": 15, "C": 20, "D": 255}
        browser.press("#undo")
        browser.awaited("await routes.changing;")
        browser.press("#save-study")
        browser.awaited("while (document.getElementById('kept').textContent === '') await new Promise(setTimeout);")
        assert browser.complaints() == []
    path = out / "1" / "study.toml"
    how = {**os.environ, "TTM_PROGRAM": program}
    ran = subprocess.run([sys.executable, LAUNCHER, "study", str(path)], env=how, capture_output=True, text=True)
    assert ran.returncode == 0, ran.stderr
    matrix = open_matrix(str(path.with_suffix("") / "matrix.omx"))
    seconds = matrix.seconds("base", 50, "point")
    own = {row.split(",")[0].strip('"'): row.split(",")[4] for row in numbers[1:]}
    assert own == {item: str(int(seconds[matrix.places[item]])) for item in "ABCD"}
