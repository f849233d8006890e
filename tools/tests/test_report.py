"""A study's report on a screen, a phone and paper, and its counts compared with those of the other commands."""

import re
from pathlib import Path
from typing import Iterator

import pytest

from browser import Browser
from helpers import Room
from test_study import NO_MAPS, Place, place  # noqa: F401
from ttm_tools.core.columns import OF_PEOPLE, names_of
from ttm_tools.measures.columns import header as columns_of
from ttm_tools.measures.comparison import KINDS
from ttm_tools.measures.equity import Equity
from ttm_tools.study.document import Document
from ttm_tools.study.report import as_phrase

SPREAD = ["jobs_in_the_centre", 50, 30, "households_of_one", "evening_twice", *[1234567, "123456.7891"], "123456.7891"]
SPREAD += ["12.3456", "0.1234", "12.3456", "123456.7891", "-12345.6789"]
ORIGIN = ["cell_123456", "Hauptbahnhof Süd, Bussteig 3", *[1234567] * 2, -1234567, "-100.0", *[123456] * 4]
PAPER = 680  # pixels, of 96 to the inch: an A4 sheet without its margins of 15 mm


@pytest.fixture(scope="module")
def browser() -> Iterator[Browser]:
    driver = Browser()
    yield driver
    driver.close()


def report(room: Room) -> Path:
    """A report with wide tables, a sum and a long line."""
    document = Document("Report")
    header = [as_phrase(item) for item in (*names_of(OF_PEOPLE), *columns_of(Equity))]
    document.table("Access by groups of people (equity.csv)", header, [[str(item) for item in SPREAD]] * 3)
    header = [
        as_phrase(name) for name in ("origin", "origin_name", "access_before", "access_after", "change", "percent")
    ]
    origin = [str(item) for item in ORIGIN]
    document.table("Who gains most, of all origins (compare_evening.csv has all)", [*header, *KINDS], [origin] * 3)
    document.table(
        "Files", ["File", "SHA-256"], [["published/feed_of_the_whole_region_2026.zip", "0123456789abcdef" * 4]]
    )
    document.code(["ttm --feed inputs/feed " + "--scenario inputs/scenarios/evening.csv " * 5])
    path = Path(room.path("report.html"))
    path.write_text(document.as_html())
    return path


def beyond(browser: Browser, right: int) -> list[str]:
    """The texts that reach beyond this number of pixels."""
    script = "return [...document.querySelectorAll('td, th, caption, pre, p, h1, h2')].filter((it) =>"
    return list(
        browser.run(script + " it.getBoundingClientRect().right > arguments[0]).map((it) => it.innerText)", right)
    )


def test_captions_of_a_report_are_read_on_a_phone(room: Room, browser: Browser) -> None:
    path = report(room)
    browser.size(320, 700)
    browser.driver.get(path.as_uri())
    right = browser.run("return document.querySelector('caption').getBoundingClientRect().right")
    assert browser.run("return document.querySelector('table').getBoundingClientRect().right") > 320 >= right
    assert browser.run("return document.documentElement.scrollWidth") == 320  # a wide table moves in its own frame
    browser.size(1280, 800)


def test_nothing_of_a_report_is_cut_off_on_paper(room: Room, browser: Browser) -> None:
    path = report(room)
    browser.size(PAPER, 1000)
    browser.driver.execute_cdp_cmd("Emulation.setEmulatedMedia", {"media": "print"})
    browser.driver.get(path.as_uri())
    assert beyond(browser, PAPER) == []
    assert browser.run("return document.documentElement.scrollWidth") == PAPER
    browser.driver.execute_cdp_cmd("Emulation.setEmulatedMedia", {"media": ""})
    browser.size(1280, 800)


def test_the_report_counts_who_loses_and_gains_as_compare_does(place: Place) -> None:  # noqa: F811
    assert place.ran("study", place.lay_out(NO_MAPS))[2] == 0
    arguments = ["compare", "--by", "origin", "--share", "50", "--within", "1800", "--out", place.path("c.csv")]
    _, errors, status = place.ran(*arguments, place.path("nine/matrix.omx"))
    counts = re.search(r"[0-9]+ lose[^,]*, [0-9]+ gain( \([^)]*\))?", errors)
    assert status == 0 and counts is not None, errors
    lines = [
        line
        for line in Path(place.path("nine/report.md")).read_text().splitlines()
        if " lose" in line and "gain" in line
    ]
    assert lines and all(counts[0] in line.replace("\\", "") for line in lines), (counts[0], lines)
