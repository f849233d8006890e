"""The nearest on the page, and areas that are reached: in a real browser, by hand."""

from pathlib import Path
from typing import Iterator

import pytest

from browser import Browser
from helpers import Town, town_matrix
from test_page import page

pytest.importorskip("jinja2")
pytest.importorskip("pandas")


@pytest.fixture(scope="module")
def browser() -> Iterator[Browser]:
    driver = Browser()
    yield driver
    driver.close()


def schools(town: Town) -> list[str]:
    """A school at B and two at C; of the origins A and D."""
    town.matrix(town_matrix(True))
    town.write("schools.csv", "stop_id,schools", [["B", 1], ["C", 2]])
    town.write("people.csv", "stop_id,residents", [["A", 7], ["D", 50]])
    return ["--opportunities", town.path("schools.csv"), "--people", town.path("people.csv"), "--nearest", "1,3"]


def test_the_time_to_the_nearest_is_that_of_the_matrix(town: Town, browser: Browser) -> None:
    browser.open(page(town, *schools(town)), "view=access&scenario=base&of=nearest+schools&within=0")
    assert browser.text("heading") == "Time to the nearest: school"
    # from A 300 seconds to B, from D 600 to C
    assert browser.text("told") == "base: reached from 2 of 2 places, from half of these within 5 min."
    assert browser.key() == {"up to 10 min": "2", "not an origin of the matrix": "2"}
    browser.choose("within", "the 3 nearest")
    # from A all three within 900 seconds; from D no more than the two at C
    assert browser.key() == {"11 to 20 min": "1", "not reached": "1", "not an origin of the matrix": "2"}
    assert browser.text("told") == "base: reached from 1 of 2 places, from half of these within 15 min."
    browser.choose("weight", "residents")
    bars = browser.run("return [...document.querySelectorAll('#histogram title')].map((it) => it.textContent)")
    assert [bar.split(": ")[1] for bar in bars if not bar.endswith(": 0 residents")] == ["7 residents"]
    assert browser.complaints() == []


def test_a_page_opens_at_the_nearest_where_it_has_that(town: Town, browser: Browser) -> None:
    path = page(town, *schools(town))
    browser.open(path)
    assert browser.text("heading") == "Time to the nearest: school" and "of=nearest+schools" in browser.address()
    browser.open(path, "view=access&of=schools")
    assert browser.text("heading").startswith("Access: schools within ")


def test_the_difference_says_who_waits_longer_for_the_nearest(town: Town, browser: Browser) -> None:
    arguments = "view=access&scenario=cut&difference=1&of=nearest+schools&within=1&from=A"
    browser.open(page(town, *schools(town)), arguments)
    # in cut A reaches the third school after 1,900 seconds; D, which reached two, has all three after 1,700
    assert browser.key() == {
        "15 min or more slower": "1",
        "newly reached": "1",
        "not an origin of the matrix": "2",
    }
    assert browser.lines("sums")[1] == ["schools", "15 min", "32 min", "+17"]
    assert browser.lines("losers")[1:] == [["Alpha (A)", "15 min", "32 min", "+17"]]
    browser.choose("within", "the nearest")
    assert browser.lines("sums")[1] == ["schools", "5 min", "6 min", "+1"]
    browser.press("#from-here")
    assert browser.text("headline-of") == "within 30 min of Alpha"


def test_areas_that_are_reached_lie_below_the_places(town: Town, browser: Browser) -> None:
    path = page(town, *schools(town)[:4], "--walk", "300")
    browser.open(path, "view=times&scenario=base&from=A&minutes=30")
    aside = 12  # pixels, outside of the marks
    assert browser.colour("B", aside) == "#000000"  # nothing is drawn there
    browser.press("#areas")
    assert browser.colour("B", aside) != "#000000"
    assert "areas=1" in browser.address()
    browser.press("#areas")
    assert browser.colour("B", aside) == "#000000"


def test_cells_are_areas_themselves(town: Town, browser: Browser) -> None:
    arguments = schools(town)
    points = town.write("mine.csv", "id,lat,lon,width", [["A", 0, 9, 400], ["B", 0, 9.01, 400], ["C", 0.01, 9.01, 400]])
    browser.open(page(town, "--points", points, *arguments[:4]), "view=times&scenario=base&from=A")
    assert browser.run("return document.getElementById('areas-field').hidden")


def test_the_nearest_of_nothing_is_refused(town: Town) -> None:
    town.matrix(town_matrix(True))
    ran = town.ran("page", "--feed", town.feed, "--nearest", "1", "--out", town.path("a.html"), town.file)
    assert ran[2] == 2 and "--nearest needs --opportunities" in ran[1]
    assert not Path(town.path("a.html")).exists()
