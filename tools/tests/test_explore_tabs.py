"""Tabs of `ttm-tools explore`: each has its own changes, and gets the numbers of its own network."""

import json
from pathlib import Path
from typing import Any, Iterator

import pytest

from browser import Browser
from exploring import Explored, canned, explored, village
from helpers import wait_until

pytest.importorskip("flask")
pytest.importorskip("jinja2")
pytest.importorskip("pandas")

REMOVED = [{"do": "remove_route", "route": 0}]
CELLS = 5 * 4 * 4  # bytes of a scenario: percentiles, stops, and bytes of a number


@pytest.fixture
def served(tmp_path: Path) -> Iterator[Explored]:
    with explored(village(tmp_path), canned(tmp_path), "--out", str(tmp_path / "saved")) as started:
        yield started


def change(served: Explored, tab: str, actions: list[Any], walk: int = 600) -> int:
    """The number of the network with some changes."""
    found = served.sent("changes", {"actions": actions, "walk": walk, "tab": tab})
    assert found["status"] == 200, found
    return int(found["version"])


def answer(served: Explored, tab: str, version: int, turn: int = 1) -> tuple[int, int, str | None]:
    """The status of a question, the bytes of its answer, and the number of the network that answered."""
    words = f"times?origin=0&first=08:00&last=08:00&trips=4&tab={tab}&turn={turn}&version={version}"
    with served.requested(words, None) as connection:
        response = connection.getresponse()
        return response.status, len(response.read()), response.headers.get("X-Version")


def test_a_tab_keeps_its_network_while_another_one_changes_its_own(served: Explored, tmp_path: Path) -> None:
    """With a change there are two scenarios: today and the changed one."""
    assert answer(served, "b", 1) == (200, CELLS, "1")
    version = change(served, "a", REMOVED)
    assert version == 2
    assert answer(served, "b", 1, 2) == (200, CELLS, "1")
    assert answer(served, "a", 2) == (200, 2 * CELLS, "2")
    assert answer(served, "b", 1, 3) == (200, CELLS, "1")
    body = {"first": "08:00", "last": "08:10", "trips": 4, "origin": -1}
    plans = [Path(str(served.sent("study", {**body, "version": n, "tab": t})["path"])) for n, t in ((1, "b"), (2, "a"))]
    assert [(path.parent / "plan.toml").exists() for path in plans] == [False, True]
    assert change(served, "a", []) == 1  # undone: the same network as at first
    assert answer(served, "a", 1, 2) == (200, CELLS, "1")
    assert served.status() == 200


def test_a_network_of_no_tab_ends_and_begins_again_where_it_is_asked_for(served: Explored) -> None:
    assert answer(served, "a", 1) == (200, CELLS, "1")
    assert change(served, "a", REMOVED) == 2
    assert len(served.children()) == 2  # the one before answers until the tab asks the new one
    assert answer(served, "a", 2, 2) == (200, 2 * CELLS, "2")
    wait_until(lambda: len(served.children()) == 1)
    assert answer(served, "b", 1) == (200, CELLS, "1")
    assert len(served.children()) == 2
    for number in range(6):
        version = change(served, f"t{number}", REMOVED, 60 * number)
        assert answer(served, f"t{number}", version) == (200, 2 * CELLS, str(version))
    wait_until(lambda: len(served.children()) == 4)
    assert answer(served, "b", 1, 2) == (200, CELLS, "1")


def test_a_change_that_is_refused_leaves_no_network(served: Explored) -> None:
    body = {"actions": [{"do": "cut", "route": 0, "way": 9, "after": 0}], "walk": 600, "tab": "a"}
    assert served.sent("changes", body)["status"] == 422
    assert answer(served, "a", 2)[0] == 422
    assert answer(served, "a", 1, 2) == (200, CELLS, "1")


def test_two_tabs_show_their_own_changes(tmp_path: Path) -> None:
    browser = Browser()
    try:
        with explored(village(tmp_path), canned(tmp_path)) as served:
            browser.visit(served.address)
            first = browser.driver.current_window_handle
            browser.click("A")
            browser.driver.switch_to.new_window("tab")
            browser.visit(served.address)
            browser.click("A")
            browser.awaited(
                f"await routes.read_; await routes.change({{ actions: {json.dumps(REMOVED)}, walk: 600 }});"
            )
            assert browser.run("return [live.version, head.scenarios.length]") == [2, 2]
            browser.driver.switch_to.window(first)
            browser.awaited("await set({ place: 2 });")
            script = "return [live.version, head.scenarios.length, keep.numbers().split('\\n')[0].split(',').length]"
            assert browser.run(script) == [1, 1, 2 + 5]
            assert browser.text("fault") == "" and browser.complaints() == []
    finally:
        browser.close()


@pytest.fixture(scope="module")
def browser() -> Iterator[Browser]:
    driver = Browser()
    yield driver
    driver.close()


AREAS = """
const found = new ReachedAreas(page), canvas = document.createElement("canvas"), ends = [];
found.paintBand = (area, view, cells, walk, all, at) => ends.push([all[at].end, area.fillStyle]);
Object.assign(canvas, { width: 10, height: 10 });
found.paint(canvas.getContext("2d"), { width: 10, height: 10 }, current.now, 600);
const shades = colours(classEnds.length + 1).map((it) => it.toLowerCase());
return ends.map(([end, colour]) => [end, shades.indexOf(colour)]);
"""


def test_areas_end_where_the_slider_stands(served: Explored, browser: Browser) -> None:
    """With bands of ten minutes, 15 minutes are in the second band, and 75 beyond the sixth."""
    browser.visit(served.address)
    browser.click("A")
    for minutes, ends in (
        (5, [[5, 0]]),
        (10, [[10, 0]]),
        (15, [[15, 1], [10, 0]]),
        (20, [[20, 1], [10, 0]]),
        (75, [[75, 6], *([10 * end, end - 1] for end in range(6, 0, -1))]),
    ):
        browser.awaited(f"await set({{ minutes: {minutes} }});")
        assert browser.run(AREAS) == ends
    # C is reached in ten minutes: at 15 minutes five are left to walk on
    browser.press("#areas")
    drawn = list[str]()
    for minutes in (10, 15):
        browser.awaited(f"await set({{ minutes: {minutes} }});")
        drawn.append(browser.colour("C", right=12))
    assert drawn[0] == "#000000" != drawn[1]
    assert browser.complaints() == []


def test_the_text_at_the_pointer_is_of_the_answer_that_is_shown(served: Explored, browser: Browser) -> None:
    """From everywhere the stops take 0, 5, 10 and 15 minutes to the median, and a fraction more or less at others."""
    from selenium.webdriver.common.action_chains import ActionChains

    browser.visit(served.address)
    browser.click("A")
    where, (across, down) = browser.driver.find_element("id", "map"), browser.pixel("C")
    middle = (where.size["width"] // 2, where.size["height"] // 2)
    pointer = ActionChains(browser.driver).move_to_element_with_offset(where, across - middle[0], down - middle[1])
    pointer.perform()
    assert browser.text("tip") == "Gamma (C): 10 min"
    browser.awaited("await set({ share: 4 });")  # the percentile 90: 40 seconds more
    assert browser.text("tip") == "Gamma (C): 11 min"
    browser.awaited("await set({ place: -1 });")
    assert browser.text("tip") == "Gamma (C)"
    browser.driver.execute_script("page.map.fire('mouseout')")
    browser.awaited("await set({ place: 0 });")
    assert browser.text("tip") == ""
