"""Opposite stops on the map of a page and of explore: one mark where two would lie over one another."""

from pathlib import Path
from typing import Iterator

import pytest

from browser import Browser
from exploring import STOPS, canned, explored, village, write
from helpers import METRE, Town, town_matrix
from test_page import page

PAIR = "1 pair of opposite stops shares a mark"
NOTHING = "#000000"  # the colour of a pixel that is not painted
WRITTEN = """
const pens = CanvasRenderingContext2D.prototype, { fillText } = pens, written = [];
pens.fillText = function (text, ...where) { written.push(text); fillText.call(this, text, ...where); };
await pictureOf(page, "");
pens.fillText = fillText;
return written;
"""


@pytest.fixture(scope="module")
def browser() -> Iterator[Browser]:
    driver = Browser()
    yield driver
    driver.close()


def opposite(town: Town) -> Path:
    """A page of the town in which C is called Delta and lies 30 metres east of D."""
    town.matrix(town_matrix(True))
    stops = [["A", "Alpha", 0.0, 9.0], ["B", "Beta", 0.0, 9.01], ["C", "Delta", 0.02, 9 + 30 * METRE]]
    town.write("stops.txt", "stop_id,stop_name,stop_lat,stop_lon", [*stops, ["D", "Delta", 0.02, 9.0]])
    return page(town)


def colours(browser: Browser) -> list[str]:
    return list(browser.run("return timeClasses().marks.map(({ colour }) => colour)"))


def test_opposite_stops_share_a_mark_as_long_as_two_would_overlap(town: Town, browser: Browser) -> None:
    """All of the town in the map, 30 metres are 7 pixels and a mark is 10 wide; two steps closer they are 30 and 18."""
    browser.open(opposite(town), "view=times&scenario=base&from=A&minutes=90")
    counts = {"up to 10 min": "2", "11 to 20 min": "1", "31 to 45 min": "1"}
    assert (browser.key(), browser.text("key-pairs")) == (counts, PAIR)
    assert [browser.colour("C"), browser.colour("D")] == [colours(browser)[1], NOTHING]  # 15 and 40 minutes
    browser.run("page.map.setView([0.02, 9], page.map.getZoom() + 2, { animate: false })")
    assert (browser.key(), browser.text("key-pairs")) == (counts, "")
    assert [browser.colour("C"), browser.colour("D")] == [colours(browser)[1], colours(browser)[3]]
    assert browser.complaints() == []


def test_a_click_on_a_shared_mark_takes_the_stop_that_it_shows(town: Town, browser: Browser) -> None:
    browser.open(opposite(town), "view=times&scenario=base&from=A&minutes=90")
    browser.click("D")
    assert browser.text("heading") == "Travel times from Delta (C)"
    browser.open(opposite(town), "view=times&scenario=base&from=A&minutes=90")
    browser.run("page.map.setView([0.02, 9], page.map.getZoom() + 2, { animate: false })")
    browser.click("D")
    assert browser.text("heading") == "Travel times from Delta (D)"


def test_of_access_the_greater_keeps_the_mark(town: Town, browser: Browser) -> None:
    """C is no origin of the matrix: D keeps the mark."""
    browser.open(opposite(town), "view=access&scenario=base")
    assert browser.run("return [...page.leftOut]") == [0, 0, 1, 0]
    assert browser.text("key-pairs") == PAIR


def test_what_is_cut_off_keeps_its_mark(town: Town, browser: Browser) -> None:
    """From A, C takes 17 minutes more in the scenario, and D is not reached any more."""
    browser.open(opposite(town), "view=times&scenario=cut&difference=1&from=A&minutes=90")
    key = {"cut off": "1", "15 min or more slower": "1", "less than 2 min either way": "2"}
    assert (browser.key(), browser.text("key-pairs")) == (key, "")
    assert browser.run("return [...page.leftOut]") == [0, 0, 0, 0]


def test_explore_and_its_picture_say_that_stops_share_a_mark(tmp_path: Path, browser: Browser) -> None:
    """D lies 33 metres north of C; the canned program reaches the n-th stop in n times five minutes."""
    feed = village(tmp_path)
    stops = [[*stop[:1], name, *stop[2:]] for stop, name in zip(STOPS[:3], ("Alpha", "Beta", "Mill"))]
    write(feed / "stops.txt", ["stop_id", "stop_name", "stop_lat", "stop_lon"], [*stops, ["D", "Mill", 47.0003, 8.04]])
    with explored(feed, canned(tmp_path)) as served:
        browser.visit(served.address, "from=A")
        assert browser.key() == {"up to 10 min": "3", "11 to 20 min": "1"}
        assert browser.text("key-pairs") == PAIR
        assert [browser.colour("C"), browser.colour("C", right=12)] == [colours(browser)[0], NOTHING]
        assert f"Travel time, waiting included · {PAIR}" in browser.awaited(WRITTEN)
        browser.size(390, 844)
        browser.visit(served.address, "from=A")
        assert browser.text("key-pairs") == ""
        browser.press("#key-more")
        assert browser.text("key-pairs") == PAIR
        browser.size(1280, 800)
