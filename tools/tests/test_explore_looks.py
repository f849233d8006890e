"""How the page of `ttm-tools explore` looks to people: its texts stand out from what is behind them, and whoever goes
through it by keyboard sees where they are.
"""

from typing import Any, Iterator

import pytest

from browser import Browser
from exploring import Explored, canned, explored, village

pytestmark = pytest.mark.xdist_group("browser")
pytest.importorskip("flask")
pytest.importorskip("jinja2")
pytest.importorskip("pandas")

LEAST, LEAST_LARGE = 4.5, 3.0  # of contrast; texts of 24 pixels, or bold ones of 18.66, are large
TAB = "\ue004"

# The luminance of each colour and the contrast of each visible text with what is behind it, as WCAG 2.2 defines them.
CONTRASTS = """
const numbersOf = (colour) => (colour.match(/[0-9.]+/g) ?? []).map(Number);
const over = (top, below) => {
  const alpha = top.length > 3 ? top[3] : 1;
  return [0, 1, 2].map((at) => alpha * top[at] + (1 - alpha) * below[at]);
};
const luminance = (colour) => {
  const [red, green, blue] = colour.map((it) => it / 255).map((it) => (
    it <= 0.04045 ? it / 12.92 : ((it + 0.055) / 1.055) ** 2.4));
  return 0.2126 * red + 0.7152 * green + 0.0722 * blue;
};
const behind = (element) => {
  const colours = [];
  for (let at = element; at !== null; at = at.parentElement) {
    colours.unshift(numbersOf(getComputedStyle(at).backgroundColor));
  }
  return colours.reduce((below, top) => over(top, below), [255, 255, 255]);
};
const found = [], walker = document.createTreeWalker(document.body, NodeFilter.SHOW_TEXT);
while (walker.nextNode()) {
  const element = walker.currentNode.parentElement, style = getComputedStyle(element);
  const isDrawn = element instanceof SVGElement, text = walker.currentNode.textContent.trim();
  if (!text || !element.checkVisibility() || element.matches("script, style, option, :disabled, :disabled *")) {
    continue;
  }
  const back = behind(element), ink = over(numbersOf(isDrawn ? style.fill : style.color), back);
  const [light, dark] = [luminance(ink), luminance(back)].sort((one, other) => other - one);
  const size = parseFloat(style.fontSize), isLarge = size >= 24 || size >= 18.66 && Number(style.fontWeight) >= 700;
  found.push([text, (light + 0.05) / (dark + 0.05), isLarge]);
}
return found;
"""

FOCUSED = """
const it = document.activeElement, style = getComputedStyle(it);
return [it.id || it.value || it.textContent || it.className, style.outlineStyle, parseFloat(style.outlineWidth),
  it === document.body];
"""


@pytest.fixture(scope="module")
def browser() -> Iterator[Browser]:
    driver = Browser()
    yield driver
    driver.close()


@pytest.fixture(scope="module")
def served(tmp_path_factory: pytest.TempPathFactory) -> Iterator[Explored]:
    folder = tmp_path_factory.mktemp("looks")
    jobs = ["--opportunities", str(folder / "jobs.csv"), "--out", str(folder / "saved")]
    with explored(village(folder), canned(folder), *jobs) as started:
        yield started


def unfold(browser: Browser, served: Explored) -> None:
    """Shows all that the page can show: a change of the network, a fault, a route, and what is folded."""
    browser.visit(served.address, "from=A")
    browser.awaited("await routes.read_; await routes.add({ do: 'remove_route', route: 1 }); routes.choose(0);")
    browser.run("for (const it of document.querySelectorAll('details')) it.open = true")
    browser.settle()
    browser.awaited("await routes.add({ do: 'speed', route: 0, factor: '1' });")
    browser.run("tellFault(new Error('A fault of the server.'))")


def contrasts(browser: Browser) -> list[tuple[str, float, bool]]:
    """Each visible text, its contrast, and whether it is large."""
    found: list[Any] = browser.run(CONTRASTS)
    return [(str(text), float(ratio), bool(large)) for text, ratio, large in found]


@pytest.mark.parametrize("scheme", ["light", "dark"])
@pytest.mark.parametrize("width", [1280, 320])
def test_texts_stand_out_from_what_is_behind_them(served: Explored, browser: Browser, width: int, scheme: str) -> None:
    browser.size(width, 900)
    media = {"features": [{"name": "prefers-color-scheme", "value": scheme}]}
    browser.driver.execute_cdp_cmd("Emulation.setEmulatedMedia", media)
    unfold(browser, served)
    assert browser.text("fault") != "" and "changes no time" in browser.text("faster-error")
    found = list[tuple[str, float, bool]]()
    for panel in ("answer", "ask", "change"):  # a wide page shows all of them
        browser.run("openPanel(arguments[0])", panel)
        found += contrasts(browser)
    browser.driver.execute_cdp_cmd("Emulation.setEmulatedMedia", {"features": []})
    assert len(found) > 100
    assert [item for item in found if item[1] < (LEAST_LARGE if item[2] else LEAST)] == []


def test_faint_texts_are_found(served: Explored, browser: Browser) -> None:
    browser.visit(served.address)
    browser.run("document.getElementById('heading').style.cssText = 'color: #8a8a8a; font-size: 16px'")
    assert [round(ratio, 2) for text, ratio, _ in contrasts(browser) if text == browser.text("heading")] == [3.45]


def test_whoever_tabs_through_the_page_sees_where_they_are(served: Explored, browser: Browser) -> None:
    browser.size(1280, 900)
    unfold(browser, served)
    browser.run("document.querySelector('.skip').focus()")
    seen = list[str]()
    for _ in range(150):
        browser.driver.switch_to.active_element.send_keys(TAB)
        name, style, wide, is_body = browser.run(FOCUSED)
        if is_body:
            break
        assert (style, wide >= 2) == ("solid", True), name
        seen.append(str(name))
    fields = "input:not(:disabled), select:not(:disabled), button:not(:disabled)"
    shown = browser.run(
        f"return [...document.querySelectorAll('{fields}')].filter((it) => it.checkVisibility() && it.type !== 'radio')"
        ".map((it) => it.id || it.value || it.textContent || it.className)"
    )
    assert [name for name in shown if name not in seen] == [] and len(shown) > 25
