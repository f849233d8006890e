"""The shell of page and explore in a real browser, at three sizes: what is in view, and how it is used."""

from pathlib import Path
from typing import Iterator

import pytest

from browser import Browser
from exploring import Explored, canned, explored, village
from helpers import wait_until

pytestmark = pytest.mark.xdist_group("browser")
pytest.importorskip("flask")
pytest.importorskip("jinja2")
pytest.importorskip("pandas")

DESKTOP, LAPTOP, PHONE = (1440, 900), (1280, 720), (390, 844)
SIZES = pytest.mark.parametrize("size", [DESKTOP, LAPTOP, PHONE], ids=["desktop", "laptop", "phone"])
ENTER, TAB = "\ue007", "\ue004"

# Whether all of an element is in the window and nothing lies over its middle and its lowest line.
IN_VIEW = """
return arguments[0].filter((selector) => {
  const it = document.querySelector(selector), box = it.getBoundingClientRect();
  const isInside = box.width > 0 && box.top >= 0 && box.bottom <= innerHeight && box.right <= innerWidth;
  const isOnTop = (y) => it.contains(document.elementFromPoint(box.left + box.width / 2, y));
  return !isInside || !isOnTop(box.top + box.height / 2) || !isOnTop(box.bottom - 2);
});
"""
SMALL = """
const typed = "input:not([type=radio]):not([type=checkbox]):not([type=range])";
const names = `button, select, summary, ${typed}, .segments label`;
return [...document.querySelectorAll(names)].filter((it) => it.checkVisibility() && it.id !== "search")
  .map((it) => [it.id || it.textContent.trim(), Math.round(it.getBoundingClientRect().height)])
  .filter(([name, high]) => high < arguments[0] && name !== "");
"""


@pytest.fixture(scope="module")
def browser() -> Iterator[Browser]:
    driver = Browser()
    yield driver
    driver.close()


@pytest.fixture(scope="module")
def folder(tmp_path_factory: pytest.TempPathFactory) -> Path:
    return tmp_path_factory.mktemp("shell")


@pytest.fixture(scope="module")
def served(folder: Path) -> Iterator[Explored]:
    jobs = ["--opportunities", str(folder / "jobs.csv"), "--out", str(folder / "saved")]
    with explored(village(folder), canned(folder), *jobs) as started:
        yield started


def begin(browser: Browser, served: Explored, size: tuple[int, int], arguments: str = "") -> None:
    browser.size(*size)
    browser.visit(served.address, arguments)
    browser.awaited("await routes.read_;")


@SIZES
def test_after_a_click_number_curve_and_key_are_in_view(
    served: Explored, browser: Browser, size: tuple[int, int]
) -> None:
    begin(browser, served, size)
    browser.click("A")
    # the canned program reaches the n-th stop in n times five minutes
    assert browser.text("headline") == "4,321 jobs"
    assert browser.text("curve-title") == "Half of 4,321 jobs take at most 15 min"
    assert browser.run(IN_VIEW, ["#headline", "#headline-of", "#told", "#curve-title", "#curve svg", "#key li"]) == []
    browser.run("routes.add({ do: 'remove_route', route: 0 })")
    browser.awaited("await routes.changing;")
    browser.settle()
    assert browser.run(IN_VIEW, ["#headline", "#headline-from", "#told", "#curve svg", "#key li"]) == []
    assert browser.complaints() == []


@SIZES
def test_the_key_lies_beside_the_map_and_every_place_is_on_it(
    served: Explored, browser: Browser, size: tuple[int, int]
) -> None:
    begin(browser, served, size, "from=A")
    bottom, top, right = browser.run(
        "const map = document.getElementById('map').getBoundingClientRect();"
        "const key = document.getElementById('key-part').getBoundingClientRect();"
        "return [map.bottom, key.top, document.documentElement.scrollWidth]"
    )
    assert bottom <= top and right == size[0]
    wide, high = browser.run("const { x, y } = page.map.getSize(); return [x, y]")
    for identifier in "ABCD":
        across, down = browser.pixel(identifier)
        assert 0 < across < wide and 0 < down < high


@SIZES
def test_what_is_pressed_is_large_enough(served: Explored, browser: Browser, size: tuple[int, int]) -> None:
    begin(browser, served, size, "from=A")
    least = 44 if size == PHONE else 32
    assert browser.run(SMALL, least) == []
    for panel in ("ask", "change"):
        browser.run("openPanel(arguments[0]); setMode('route'); routes.choose(0)", panel)
        assert browser.run(SMALL, least) == []


def test_an_error_stands_at_the_field_that_has_it(served: Explored, browser: Browser) -> None:
    begin(browser, served, DESKTOP, "from=A")
    browser.run("routes.choose(0)")
    for name, value, said in (
        ("headway-every", "0", "0: allowed are whole numbers from 1 to 240"),
        ("headway-from", "25:00", "25:00 is no time: write HH:MM, such as 06:30"),
    ):
        browser.run("for (const it of ['headway-every', 'headway-from']) element(it).value = element(it).defaultValue")
        browser.run("element(arguments[0]).value = arguments[1]", name, value)
        browser.press("#headway")
        assert browser.text(f"{name}-error") == said
        assert browser.run("return [document.activeElement.id, document.activeElement.ariaInvalid]") == [name, "true"]
    assert browser.run("return live.actions.length") == 0
    browser.run("element('headway-from').value = '7:05'")
    browser.press("#headway")
    browser.awaited("await routes.changing;")
    assert browser.run("return live.actions[0].from") == "07:05"
    assert browser.run("return document.querySelectorAll('.field-error').length") == 0


def test_back_and_forward_lead_from_choice_to_choice(served: Explored, browser: Browser) -> None:
    begin(browser, served, DESKTOP)
    for identifier in "AC":
        browser.click(identifier)
        browser.address()  # waits until it is written
    browser.awaited("await set({ minutes: 12 });")
    browser.address()
    for step, wanted in (("back", "A"), ("forward", "C")):
        browser.run(f"history.{step}()")
        wait_until(lambda: str(browser.run("return head.identifiers[state.place]")) == wanted)
    assert browser.run("return state.minutes") == 12  # a slider is no step of its own


def test_the_map_by_keys(served: Explored, browser: Browser) -> None:
    begin(browser, served, DESKTOP)
    where = "[numbers.places[2 * arguments[0]] / 1e6, numbers.places[2 * arguments[0] + 1] / 1e6]"
    centre = f"page.map.setView({where}, page.map.getZoom(), {{ animate: false }});"
    for identifier, key, found in (("B", ENTER, "state.place"), ("D", "e", "journey.end")):
        place = browser.run("return head.identifiers.indexOf(arguments[0])", identifier)
        browser.run(centre + "element('map').focus({ focusVisible: true })", place)
        assert browser.run("return getComputedStyle(element('crosshair')).display") == "block"
        browser.driver.switch_to.active_element.send_keys(key)
        browser.settle()
        assert browser.run(f"return {found}") == place
    assert browser.text("headline-of") == "within 30 min of Beta"


def test_the_first_tab_leads_past_the_bar(served: Explored, browser: Browser) -> None:
    begin(browser, served, DESKTOP)
    browser.driver.find_element("css selector", "body").send_keys(TAB)
    assert browser.run("return document.activeElement.className") == "skip"
    browser.driver.switch_to.active_element.send_keys(ENTER)
    assert browser.run("return document.activeElement.id") == "search"


def test_somebody_sees_that_it_computes(served: Explored, browser: Browser, folder: Path) -> None:
    begin(browser, served, DESKTOP)
    hold = folder / "village" / "hold"
    hold.touch()
    try:
        browser.run("set({ place: 1 })")
        wait_until(lambda: str(browser.run("return document.body.dataset.asking")) == "1")
        assert browser.run("return getComputedStyle(element('working')).display") == "block"
    finally:
        hold.unlink()
    browser.settle()
    assert browser.run("return getComputedStyle(element('working')).display") == "none"


def test_the_panel_of_a_phone_has_three_heights(served: Explored, browser: Browser) -> None:
    begin(browser, served, PHONE, "from=A")
    heights = [browser.run("return element('answer').clientHeight")]
    for _ in range(3):
        browser.press("#handle")
        heights.append(browser.run("return element('answer').clientHeight"))
    half, full, peek, again = heights
    assert peek == 96 < half < full and again == half
    browser.run("document.getElementById('handle').click(); document.getElementById('handle').click()")
    assert browser.run(IN_VIEW, ["#headline"]) == []
    browser.press("#tabs button[value=change]")
    assert browser.run(IN_VIEW, ["#to-route", "#undo"]) == []


def test_no_stop_in_reach_offers_the_nearest(program: str, tmp_path: Path, browser: Browser) -> None:
    """A point 2.2 kilometres north of D, more than ten minutes from any stop."""
    with explored(village(tmp_path), program) as started:
        begin(browser, started, DESKTOP)
        browser.run("point.choose({ lat: 47.04, lng: 8.04 })")
        wait_until(lambda: bool(browser.run("return !element('notice').hidden")))
        said = "No stop within 10 min on foot. The nearest is Delta (D), 2,220 m away."
        assert browser.text("notice-told") == said
        browser.press("#notice-do")
        assert browser.text("headline-of") == "within 30 min of Delta"
        assert browser.run("return element('notice').hidden")


def test_on_a_phone_the_change_stands_next_to_its_number_and_covers_nothing(served: Explored, browser: Browser) -> None:
    begin(browser, served, PHONE, "from=A")
    browser.awaited("await routes.read_; await routes.add({ do: 'remove_route', route: 0 });")
    browser.settle()
    script = """
const text = document.createRange(), from = element("headline-from").getBoundingClientRect();
text.selectNodeContents(element("headline-of"));
return [text.getBoundingClientRect().right, from.left, from.right, window.innerWidth];"""
    right, left, end, wide = browser.run(script)
    assert right + 8 <= left and end <= wide
