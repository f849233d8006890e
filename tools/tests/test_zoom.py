"""The page of explore at a browser's zoom of 200 %: nothing is cut, and the map, the answer and the controls work."""

from typing import Iterator

import pytest

from browser import Browser
from exploring import Explored, canned, explored, village
from test_shell import IN_VIEW, SMALL, SIZES

ASIDE = "return document.documentElement.scrollWidth - document.documentElement.clientWidth"
PARTS = [
    "#headline",
    "#headline-of",
    "#told",
    "#curve svg",
    "#key li",
    "#map",
    "#tabs button[value=change]",
    "#minutes",
]
TO_SEE = "document.querySelector(arguments[0]).scrollIntoView({ block: 'center' })"


@pytest.fixture(scope="module")
def browser() -> Iterator[Browser]:
    driver = Browser()
    yield driver
    driver.close()


@pytest.fixture(scope="module")
def served(tmp_path_factory: pytest.TempPathFactory) -> Iterator[Explored]:
    folder = tmp_path_factory.mktemp("zoom")
    with explored(village(folder), canned(folder), "--opportunities", str(folder / "jobs.csv")) as started:
        yield started


def zoomed(browser: Browser, size: tuple[int, int]) -> None:
    """A window of a size at 200 %: half as wide and high in the page's own pixels, each as large as four."""
    how = {"width": size[0] // 2, "height": size[1] // 2, "deviceScaleFactor": 2, "mobile": False}
    browser.driver.execute_cdp_cmd("Emulation.setDeviceMetricsOverride", how)


@SIZES
def test_all_parts_are_there_at_twice_the_size(served: Explored, browser: Browser, size: tuple[int, int]) -> None:
    """The page is scrolled down and up alone, and shows each part whole, the map at least 190 pixels high."""
    zoomed(browser, size)
    browser.visit(served.address, "from=A")
    browser.awaited("await routes.read_;")
    assert browser.run(ASIDE) == 0 and browser.run("return page.map.getSize().y") >= 190
    for part in PARTS:
        browser.run(TO_SEE, part)
        assert browser.run(IN_VIEW, [part]) == []
    assert browser.run(SMALL, 44) == []
    browser.click("C")
    assert browser.text("heading") == "Travel times from Gamma (C)"
    heights = [browser.run("return element('answer').clientHeight")]
    for _ in range(2):
        browser.press("#handle")
        heights.append(browser.run("return element('answer').clientHeight"))
    assert heights == [240, 480, 96]
    assert browser.complaints() == []
