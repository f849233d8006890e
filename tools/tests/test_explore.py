"""`ttm-tools explore` in a real browser with the real program: each number by hand, by clicks and by keyboard."""

import os
import subprocess
import sys
from pathlib import Path
from typing import Iterator
from urllib.parse import parse_qs, quote

import pytest

from browser import Browser
from exploring import Explored, explored, village
from helpers import LAUNCHER, wait_until

pytestmark = [pytest.mark.program, pytest.mark.xdist_group("browser")]
pytest.importorskip("flask")
pytest.importorskip("jinja2")
pytest.importorskip("pandas")

ENTER, DOWN, LEFT, RIGHT, SPACE = "\ue007", "\ue015", "\ue012", "\ue014", " "
PLAN = """\
[[scenario]]
name = "no route 2"
[[scenario.action]]
do = "remove_route"
route = "Q"
"""


@pytest.fixture(scope="module")
def browser() -> Iterator[Browser]:
    driver = Browser()
    yield driver
    driver.close()


@pytest.fixture(scope="module")
def program(request: pytest.FixtureRequest) -> str:
    """The built program, for all tests of this file."""
    path = request.config.getoption("--program")
    if path is None:
        pytest.skip("without the program")
    return str(Path(str(path)).resolve())


@pytest.fixture(scope="module")
def room(tmp_path_factory: pytest.TempPathFactory) -> Path:
    return tmp_path_factory.mktemp("explored")


@pytest.fixture(scope="module")
def server(program: str, room: Path) -> Iterator[Explored]:
    """A server for all tests of this file."""
    arguments = ["--opportunities", str(room / "jobs.csv"), "--out", str(room / "saved"), "--to", "08:09"]
    with explored(village(room), program, *arguments) as started:
        yield started


@pytest.fixture
def served(server: Explored, browser: Browser) -> Explored:
    """The server with the network as it was at first, and its page."""
    browser.size(1280, 900)
    browser.visit(server.address)
    if browser.run("return live.actions.length + head.scenarios.length") > 1:
        browser.awaited("await routes.read_; await routes.change({ actions: [], walk: 600 });")
        browser.visit(server.address)
    return server


def minutes(browser: Browser) -> dict[str, int]:
    """Minutes to each place, as they are shown; 255 where one isn't reached."""
    script = (
        "return Object.fromEntries(Array.from(numbers.columns, (it, at) => [head.identifiers[it], current.now[at]]))"
    )
    return dict(browser.run(script))


def slide(browser: Browser, identifier: str, value: int) -> None:
    """Moves a slider to a value by keys: from its end on, so that each step is one key."""
    unfold = "for (let it = element(arguments[0]).closest('details'); it; it = it.parentElement.closest('details'))"
    browser.run(f"{unfold} it.open = true", identifier)
    element = browser.driver.find_element("id", identifier)
    now, step = int(element.get_attribute("value")), int(element.get_attribute("step"))
    element.send_keys((RIGHT if value > now else LEFT) * (abs(value - now) // step))
    browser.settle()


def changed(browser: Browser) -> None:
    """Waits until the changes that were asked for are there."""
    browser.awaited("await routes.changing;")
    browser.settle()


def test_a_click_shows_travel_times_access_and_the_curve(served: Explored, browser: Browser) -> None:
    """Departures 08:00 to 08:09, of which half attain: B in 5 to 14 minutes, so that five of ten have at most 9: those
    of 08:00 and of 08:06 on. D by 08:25 from the train at 08:15, which all of these but those after 08:05 catch by the
    bus at 08:00 and 08:10 ...
    """
    slide(browser, "last", 480)
    browser.click("A")
    assert browser.text("heading") == "Travel times from Alpha (A)"
    assert minutes(browser) == {"A": 0, "B": 5, "C": 10, "D": 25}
    assert browser.lines("sums")[1:] == [["places", "4", "4"], ["jobs", "4,321", "4,321"]]
    slide(browser, "minutes", 24)
    assert browser.lines("sums")[1:] == [["places", "3", "4"], ["jobs", "321", "4,321"]]
    label = browser.run("return document.querySelector('#curve svg').getAttribute('aria-label')")
    assert label == "jobs, base: 321 within 24 minutes"
    assert browser.colour("D") != browser.colour("C")
    assert browser.complaints() == []


def test_sliders_ask_again_or_do_not(served: Explored, browser: Browser) -> None:
    slide(browser, "last", 480)
    browser.click("A")
    turn = browser.run("return live.turn")
    browser.choose("percentile", "Most days (90 % of departures)")
    slide(browser, "minutes", 25)
    slide(browser, "step", 15)
    assert browser.run("return live.turn") == turn  # all percentiles came with the answer
    assert browser.key() == {"up to 15 min": "3", "16 to 30 min": "1"}
    slide(browser, "first", 481)  # the last departure goes with it: at 08:01 one waits nine minutes
    assert (browser.text("last-told"), minutes(browser)["B"]) == ("08:01", 14)
    slide(browser, "trips", 1)
    assert minutes(browser)["D"] == 255
    assert browser.run("return live.turn") > turn


def test_percentiles_by_hand(served: Explored, browser: Browser) -> None:
    """From 08:00 to 08:09 the bus to B takes 5, 14, 13 .. 6 minutes: a tenth of the departures has 5, half has 9."""
    browser.click("A")
    assert [minutes(browser)["B"]] == [9]
    browser.choose("percentile", "Best tenth of departures")
    assert minutes(browser)["B"] == 5
    browser.choose("percentile", "Most days (90 % of departures)")
    assert minutes(browser)["B"] == 13


def test_areas_are_drawn_around_what_is_reached(served: Explored, browser: Browser) -> None:
    browser.click("A")
    before = browser.colour("A", right=20)
    browser.press("#areas")
    assert browser.colour("A", right=20) != before
    assert "areas=1" in browser.address()


def test_a_journey_leg_by_leg_and_its_saw_tooth(served: Explored, browser: Browser) -> None:
    slide(browser, "last", 480)
    browser.click("A")
    browser.press("input[name=click][value=end]")
    browser.click("D")
    wait_for(browser, "return journey.found !== null")
    assert browser.text("journey-title") == "Journey to Delta (D): 25 min, leaving at 08:00"
    legs = [
        "08:00:00 route 1 (R) from Alpha (A) to Gamma (C), 08:10:00",
        "wait 5:00 min, 08:15:00 route 2 (Q) from Gamma (C) to Delta (D), 08:25:00",
    ]
    assert browser.text("legs").splitlines() == legs
    slide(browser, "last", 489)
    wait_for(browser, "return journey.found !== null && journey.found.durations.length === 10")
    # the train of 08:15 is caught from 08:00 alone; else that of 08:45, by the bus at 08:30 at the latest
    assert browser.run("return journey.found.durations.map((it) => it / 60)") == [25, *range(54, 45, -1)]
    assert browser.run("return document.querySelectorAll('#departures polyline').length") == 1
    assert browser.run("return head.identifiers[state.place]") == "A"
    assert browser.complaints() == []


def wait_for(browser: Browser, script: str) -> None:
    wait_until(lambda: bool(browser.run(script)))


def test_a_route_is_taken_out_undone_and_redone_by_clicks(served: Explored, browser: Browser) -> None:
    slide(browser, "last", 480)
    browser.click("A")
    browser.awaited("await routes.read_")
    browser.press("input[name=click][value=route]")
    between(browser, "C", "D")
    assert browser.text("route-told") == "Route 2 (Q): 4 departures on Mon 4 May 2026."
    browser.press("#take-out")
    changed(browser)
    assert browser.run("return head.scenarios") == ["today", "changed"]
    assert browser.text("heading") == "changed, compared with today"
    assert browser.text("told") == "1 of 4 places cut off"
    assert browser.text("headline") == "\u22124,000 jobs"  # those at D
    assert browser.text("within-picture") == "In this view: 1 of 4 places cut off"
    assert browser.text("changes") == "remove route 2 (Q)"
    assert browser.content("changes-told").startswith("changed: 1 remove_route Q: trips 4 taken out")
    assert "removed trips" in browser.text("lines-key")
    assert browser.colour("D") == "#000000"
    browser.press("#undo")
    changed(browser)
    assert browser.run("return head.scenarios") == ["base"] and minutes(browser)["D"] == 25
    browser.press("#redo")
    changed(browser)
    assert minutes(browser)["D"] == 255
    assert browser.complaints() == []


def between(browser: Browser, one: str, other: str) -> None:
    """Clicks on the map halfway between two places."""
    from selenium.webdriver.common.action_chains import ActionChains

    where = browser.driver.find_element("id", "map")
    (a, b), (c, d) = browser.pixel(one), browser.pixel(other)
    middle = (where.size["width"] // 2, where.size["height"] // 2)
    across, down = (a + c) // 2 - middle[0], (b + d) // 2 - middle[1]
    ActionChains(browser.driver).move_to_element_with_offset(where, across, down).click().perform()
    browser.settle()


def test_how_often_how_fast_and_where_a_route_ends(served: Explored, browser: Browser) -> None:
    slide(browser, "last", 489)
    browser.click("A")
    browser.awaited("await routes.read_; routes.choose(0)")
    browser.run("for (const [name, at] of [['from', '08:00'], ['to', '10:00']]) element(`headway-${name}`).value = at")
    browser.run("document.getElementById('headway-every').value = 5")
    browser.press("#headway")
    changed(browser)
    # every five minutes: 5, 9, 8, 7, 6, 5, 9 .. so half of them have at most 7
    assert minutes(browser)["B"] == 7 and browser.text("changes") == "route 1 (R) every 5 minutes from 08:00 to 10:00"
    browser.press("#undo")
    changed(browser)
    browser.press("#twice")  # twelve departures in two hours, so 24: the same
    changed(browser)
    assert minutes(browser)["B"] == 7
    browser.press("#undo")
    changed(browser)
    browser.press("#route-more summary")
    browser.press("#speed")  # by a fifth: four minutes to B instead of five
    changed(browser)
    assert minutes(browser)["B"] == 8
    browser.press("#undo")
    changed(browser)
    browser.press("#cut")  # at B, the one stop between the ends
    changed(browser)
    assert (minutes(browser)["B"], minutes(browser)["C"]) == (9, 255)
    assert browser.text("changes") == "route 1 (R) ends at Beta (B)"
    assert browser.complaints() == []


def test_a_line_is_drawn_by_clicks_and_a_route_goes_on(served: Explored, browser: Browser) -> None:
    slide(browser, "last", 480)
    browser.click("A")
    browser.awaited("await routes.read_")
    browser.press("input[name=click][value=stops]")
    browser.click("A")
    browser.click("D")
    assert browser.text("stops").splitlines() == ["Alpha (A)", "Delta (D)"]
    browser.press("#add-line")
    changed(browser)
    # 3.76 kilometres at 20 km/h are 11 minutes and some seconds
    assert minutes(browser)["D"] == 12
    assert browser.text("told") == "1 of 4 places faster"
    assert browser.text("changes") == "new line New line: Alpha (A), Delta (D), every 10 minutes"
    assert "added trips" in browser.text("lines-key")
    browser.press("#undo")
    changed(browser)
    browser.run("routes.choose(0)")
    browser.press("input[name=click][value=stops]")
    browser.click("D")
    browser.press("#extend")  # from C to D, 2.2 kilometres, behind twenty seconds at C
    changed(browser)
    assert minutes(browser)["D"] == 18
    assert browser.text("changes") == "route 1 (R) extended to Delta (D)"


def test_a_fault_of_a_change_is_told_and_nothing_changes(served: Explored, browser: Browser) -> None:
    browser.click("A")
    browser.awaited("await routes.read_; routes.choose(0); await routes.add({ do: 'speed', route: 0, factor: '1' });")
    assert "changes no time" in browser.text("faster-error")  # at the field
    assert browser.run("return [live.actions.length, head.scenarios.length]") == [0, 1]
    assert browser.run("return document.getElementById('fault').getAttribute('role')") == "alert"
    assert minutes(browser)["B"] == 9
    browser.awaited("await routes.add({ do: 'speed', route: 0, factor: '0.8' });")
    assert browser.text("fault") == "" and minutes(browser)["B"] == 8


def test_the_longest_walk_begins_another_network(program: str, tmp_path: Path, browser: Browser) -> None:
    feed = village(tmp_path)
    walks = tmp_path / "walks.csv"
    walks.write_text("from_stop_id,to_stop_id,seconds\nC,D,540\n")
    with explored(feed, program, "--footpaths", str(walks)) as served:
        browser.visit(served.address)
        browser.click("A")
        assert minutes(browser)["D"] == 19
        slide(browser, "walk", 480)
        changed(browser)
        assert (browser.text("walk-told"), minutes(browser)["D"]) == ("8", 25)


def test_a_plan_is_compared_with_today_and_a_change_comes_beside_it(
    program: str, tmp_path: Path, browser: Browser
) -> None:
    feed = village(tmp_path)
    (tmp_path / "plan.toml").write_text(PLAN)
    with explored(feed, program, "--plan", str(tmp_path / "plan.toml")) as served:
        browser.visit(served.address, "from=A")
        assert browser.run("return head.scenarios") == ["today", "no route 2"]
        assert browser.text("heading") == "no route 2, compared with today"
        assert browser.text("told").startswith("1 of 4 places cut off")
        browser.awaited("await routes.read_; await routes.add({ do: 'remove_route', route: 0 });")
        assert browser.run("return head.scenarios") == ["today", "no route 2", "changed"]
        assert minutes(browser) == {"A": 0, "B": 255, "C": 255, "D": 255}
        browser.choose("scenario", "no route 2")
        assert minutes(browser) == {"A": 0, "B": 5, "C": 10, "D": 255}
        browser.press("#view-beside")
        assert browser.run("return [...document.querySelectorAll('.side')].map((it) => it.textContent)") == [
            "today",
            "no route 2",
        ]


def test_the_card_says_what_a_change_costs_before_it_is_applied(served: Explored, browser: Browser) -> None:
    """Route R leaves A every ten minutes from 08:00 to 09:50, and takes ten minutes."""
    browser.click("A")
    browser.awaited("await routes.read_;")
    browser.run("routes.choose(0)")

    def costs(name: str, **values: str) -> str:
        for field, value in values.items():
            script = "const it = element(arguments[0]); it.value = arguments[1]; it.dispatchEvent(new Event('input'));"
            browser.run(script, f"{name}-{field}", value)
        browser.awaited("await show(); await new Promise((it) => setTimeout(it, 400)); await cost.asked_;")
        return browser.text("headway-cost" if name == "headway" else "line-cost")

    assert (
        costs("headway", **{"from": "08:00", "to": "10:00", "every": "5"}) == "+12 departures, +2 vehicle hours a day"
    )
    assert costs("headway", every="30") == "\u22128 departures, \u22121.3 vehicle hours a day"
    assert costs("headway", every="10") == "±0 departures, ±0 vehicle hours a day"
    assert costs("headway", every="0") == ""
    assert browser.run("return live.actions.length") == 0
    browser.awaited("await routes.add({ do: 'remove_route', route: 0 });")
    browser.run("setMode('stops'); routes.keepStops([head.identifiers.indexOf('A'), head.identifiers.indexOf('D')])")
    said = costs("line", first="08:00", last="08:30", every="15", speed="60", dwell="0")
    metres = browser.run("return page.map.distance([47.0, 8.0], [47.02, 8.04])")
    hours = round(6 * metres / 1000 / 60, 1)
    assert said == f"+6 departures, +{hours:g} vehicle hours a day"


def test_an_address_holds_the_view_with_its_changes(served: Explored, browser: Browser) -> None:
    slide(browser, "last", 485)
    slide(browser, "trips", 3)
    slide(browser, "step", 15)
    browser.click("A")
    browser.awaited("await routes.read_; await routes.add({ do: 'remove_route', route: 1 });")
    arguments = browser.address()
    assert parse_qs(arguments)["actions"] == ['[{"do":"remove_route","route":"Q"}]']
    shown, printed = minutes(browser), browser.text("told")
    browser.press("#undo")
    changed(browser)
    browser.visit(served.address, arguments)
    changed(browser)
    assert (minutes(browser), browser.text("told"), browser.text("changes")) == (shown, printed, "remove route 2 (Q)")
    assert browser.run("return [live.last, live.trips, sliders.step]") == ["08:05", 3, 15]


def test_a_link_with_a_route_of_another_feed_says_so(served: Explored, browser: Browser) -> None:
    actions = '[{"do":"remove_route","route":"X9"},{"do":"remove_route","route":"Q"}]'
    browser.visit(served.address, f"from=A&walk=600&actions={quote(actions)}")
    changed(browser)
    assert browser.text("changes") == "remove route 2 (Q)"
    assert browser.text("changing") == "The link names X9, which this feed does not have: such changes are left out."


def test_a_saved_study_computes_the_same_numbers(served: Explored, browser: Browser, program: str, room: Path) -> None:
    from ttm_tools.matrices import open_matrix

    browser.click("A")
    browser.awaited("await routes.read_; await routes.add({ do: 'remove_route', route: 1 });")
    rows = browser.run("return keep.numbers()").splitlines()
    heads, cells = rows[0].split(","), {row.split(",")[0].strip('"'): row.split(",")[2:] for row in rows[1:]}
    browser.press("#save-study")
    wait_for(browser, "return document.getElementById('kept').textContent !== ''")
    path = room / "saved" / "1" / "study.toml"
    assert browser.text("kept").endswith(f"ttm-tools study {path}")
    how = {**os.environ, "TTM_PROGRAM": program}
    ran = subprocess.run([sys.executable, LAUNCHER, "study", str(path)], env=how, capture_output=True, text=True)
    assert ran.returncode == 0, ran.stderr
    matrix = open_matrix(str(path.with_suffix("") / "matrix.omx"))
    for place, head in enumerate(heads[2:]):
        scenario, share = head.strip('"').rsplit(" p", 1)
        seconds = matrix.seconds(scenario, int(share), "A")
        for stop, own in cells.items():
            time_there = seconds[matrix.places[stop]]
            assert own[place] == ("" if time_there != time_there else str(int(time_there)))


SAVED = """
const texts = window.texts = [], old = CanvasRenderingContext2D.prototype.fillText;
CanvasRenderingContext2D.prototype.fillText = function (text, ...more) {
  texts.push(text);
  old.call(this, text, ...more);
};
const picture = await createImageBitmap(await keep.picture()), canvas = document.createElement("canvas");
CanvasRenderingContext2D.prototype.fillText = old;
Object.assign(canvas, { width: picture.width, height: picture.height });
const pen = canvas.getContext("2d"), box = page.map.getContainer().getBoundingClientRect();
pen.drawImage(picture, 0, 0);
const above = 16 + 28 + 20 * 2 + 8;
const colours = ["B", "C"].map((stop) => {
  const at = page.pixelOf(head.identifiers.indexOf(stop));
  const [red, green, blue] = pen.getImageData(Math.round(2 * at.x), Math.round(2 * (above + at.y)), 1, 1).data;
  return "#" + [red, green, blue].map((it) => it.toString(16).padStart(2, "0")).join("");
});
return [picture.width, picture.height, box.width, box.height, ...colours];
"""


def test_a_picture_and_numbers_are_kept(served: Explored, browser: Browser) -> None:
    browser.click("A")
    wide, high, map_wide, map_high, *colours = browser.awaited(SAVED)
    assert (wide, high > 2 * map_high + 200) == (2 * map_wide, True)
    at = {stop: browser.colour(stop) for stop in "BC"}
    assert dict(zip("BC", colours)) == at and at["B"] != at["C"]
    title, drawn, when, *key = browser.run("return texts")
    assert title == "321 jobs within 30 min of Alpha"
    assert drawn == "Travel times from Alpha (A) · of 4,321 (7\u202f%) · 4 of 4 places reached"
    assert when == "Mon 4 May 2026, 08:00–08:09 · Usual journey (half of departures)"
    north = [text for text in key if text == "N"]
    assert north and any(text.endswith((" km", " m")) for text in key)
    assert [text for text in key if text.startswith(("up to 10 min  ", "11 to 20 min  ", "where vehicles run"))]
    assert key[-1].startswith("Explore: village · Lines are ")
    rows = browser.run("return keep.numbers()").splitlines()
    assert rows[0] == 'stop_id,name,"base p10","base p25","base p50","base p75","base p90"'
    assert '"B","Beta",300,420,540,720,780' in rows


def test_by_keyboard_and_on_a_phone(served: Explored, browser: Browser) -> None:
    browser.size(320, 700)
    browser.visit(served.address)
    browser.type("search", "alpha", ENTER)
    assert browser.text("heading") == "Travel times from Alpha (A)"
    browser.press("#tabs button[value=ask]")
    browser.press("#conditions summary")
    browser.type("last", LEFT)
    assert browser.text("last-told") == "08:08"
    browser.driver.find_element("css selector", "input[name=click][value=start]").send_keys(DOWN)
    assert browser.run("return modeOf()") == "end"
    browser.run("document.getElementById('search').value = ''")
    browser.type("search", "delta", ENTER)
    wait_for(browser, "return journey.found !== null")
    assert browser.text("journey-title").startswith("Journey to Delta (D)")
    browser.driver.find_element("css selector", "input[name=click][value=end]").send_keys(DOWN)
    browser.awaited("await routes.read_")
    browser.type("route", DOWN, DOWN)
    assert browser.text("route-told") == "Route 2 (Q): 4 departures on Mon 4 May 2026."
    browser.type("take-out", ENTER)
    changed(browser)
    browser.press("#tabs button[value=change]")
    assert browser.text("changes") == "remove route 2 (Q)"
    browser.type("undo", SPACE)
    changed(browser)
    assert browser.text("changes") == ""
    assert browser.run("return document.documentElement.scrollWidth") == 320
    fields = "[...document.querySelectorAll('input, select, button')]"
    unnamed = "!it.labels?.length && !it.textContent"
    names = f"return {fields}.filter((it) => {unnamed}).map((it) => it.id)"
    assert browser.run(names) == []
    browser.size(1280, 900)
