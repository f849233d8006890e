"""The page to send, in a real browser: what is clicked on and read is what the matrix says; and what is refused."""

import math
import random
import shutil
import subprocess
from pathlib import Path
from typing import Iterator

import numpy as np
import pytest

from browser import Browser
from helpers import TOWN, Table, Town, read, town_matrix

pytest.importorskip("jinja2")
pytest.importorskip("pandas")

from ttm_tools.matrices import open_matrix  # noqa: E402
from ttm_tools.views import classes  # noqa: E402
from ttm_tools.web.page import make, parts, places  # noqa: E402

LINE, FAINT = (classes.TOKENS[name] for name in ("route", "route-faint"))  # colours of lines
HOSTILE = [
    '<script>document.title = "run"</script>',
    '"><img src=x onerror="document.title=1">',
    "</script><b>x",
    "&amp;",
]


@pytest.fixture(scope="module")
def browser() -> Iterator[Browser]:
    driver = Browser()
    yield driver
    driver.close()


def page(town: Town, *arguments: str, name: str = "a page.html") -> Path:
    """Writes a page of the town's matrix into a folder with spaces in its name."""
    folder = town.folder / "to the council"
    folder.mkdir(exist_ok=True)
    out = folder / name
    said, errors, status = town.ran("page", "--feed", town.feed, "--out", str(out), *arguments, town.file)
    assert (said, status) == ("", 0), errors
    return out


def jobs(town: Town) -> list[str]:
    town.write("jobs.csv", "stop_id,opportunities", [["A", 1], ["B", 20], ["C", 300], ["D", 4000]])
    town.write("people.csv", "stop_id,residents", [["A", 7], ["D", 50]])
    return ["--opportunities", town.path("jobs.csv"), "--people", town.path("people.csv")]


def channels(colour: str) -> list[int]:
    """Red, green and blue of a colour; where alpha is not whole, a browser rounds them."""
    return [int(colour[at : at + 2], 16) for at in (1, 3, 5)]


def test_a_click_shows_the_travel_times_of_the_matrix(town: Town, browser: Browser) -> None:
    town.matrix(town_matrix(True))
    browser.open(page(town, *jobs(town)), "view=times&scenario=base")
    browser.click("A")
    assert browser.text("heading") == "Travel times from Alpha (A)"
    assert browser.text("told") == "4 of 4 places reached"
    browser.press("#all-part summary")
    # 0, 300, 900 and 2400 seconds, in minutes rounded up
    times = [["Alpha (A)", "0 min"], ['Béta, "the" square (B)', "5 min"], ["C", "15 min"], ["Delta (D)", "40 min"]]
    assert browser.lines("all")[1:] == times
    assert browser.key() == {"up to 10 min": "2", "11 to 20 min": "1", "beyond 30 min": "1"}
    assert browser.colour("C") == browser.run("return timeClasses().marks[1].colour")
    browser.press("#view-scenario")
    # 360 seconds are 6 minutes, 1900 are 32; D isn't reached any more
    assert [row[1] for row in browser.lines("all")[1:]] == ["0 min", "6 min", "32 min", "not reached"]
    assert browser.complaints() == []


def test_small_marks_have_the_colour_of_their_class(town: Town, browser: Browser) -> None:
    town.matrix(town_matrix(True))
    browser.open(page(town, *jobs(town)), "view=times&scenario=base&from=A")
    large, empty = browser.colour("C", right=3), browser.colour("C", right=40)
    browser.run("page.radius = () => 2; page.drawing.draw()")
    assert browser.colour("C") == large == browser.run("return timeClasses().marks[1].colour")
    assert browser.colour("C", right=3) == empty
    browser.run("state.minutes = 1; page.radius = () => 2.4; return show()")
    assert channels(browser.colour("D")) == pytest.approx(channels(classes.TOKENS["hollow-edge"]), abs=2)  # beyond it


def test_many_marks_are_stamped_as_a_pen_draws_them(town: Town, browser: Browser) -> None:
    """A stamp is off by at most an eighth of a pixel, so pixels at its edge differ a little."""
    town.matrix(town_matrix(True))
    drawn = (
        "page.many = arguments[0]; page.radius = () => 3; page.drawing.draw();"
        "const canvas = document.querySelector('canvas.places'), pen = canvas.getContext('2d');"
        "const { data } = pen.getImageData(0, 0, canvas.width, canvas.height), before = window.alphas;"
        "const alphas = window.alphas = data.filter((_, at) => at % 4 === 3);"
        "const far = before?.reduce((most, it, at) => Math.max(most, Math.abs(it - alphas[at])), 0);"
        "return [far, alphas.reduce((sum, it) => sum + it, 0) / 255];"
    )
    for words in ("scenario=base&minutes=6", "scenario=cut&difference=1"):
        browser.open(page(town, *jobs(town)), f"view=times&from=A&{words}")
        (_, by_pen), colours = browser.run(drawn, 1000), [browser.colour(it) for it in "BCD"]
        far, by_stamps = browser.run(drawn, 1)
        assert far < 96 and abs(by_stamps - by_pen) < 0.02 * by_pen and by_pen > 100
        for place, colour in zip("BCD", colours):
            assert channels(browser.colour(place)) == pytest.approx(channels(colour), abs=2)
    assert browser.complaints() == []


def test_a_slider_that_is_dragged_leaves_the_last_address(town: Town, browser: Browser) -> None:
    """Browsers take two hundred changes of the address in ten seconds."""
    town.matrix(town_matrix(True))
    browser.open(page(town, *jobs(town)), "view=times&scenario=base&from=A")
    written, millis = browser.awaited(
        "let count = 0; const kept = history.replaceState, begin = performance.now();"
        "history.replaceState = (...all) => { count++; kept.apply(history, all); };"
        "for (let at = 1; at <= 40; at++) await set({ minutes: at });"
        "return [count, performance.now() - begin];"
    )
    assert written <= 1 + millis / 250 and "minutes=40" in browser.address()
    assert browser.complaints() == []


def test_the_difference_has_who_is_cut_off_as_a_class(town: Town, browser: Browser) -> None:
    town.matrix(town_matrix(True))
    browser.open(page(town, *jobs(town)), "view=times&scenario=cut&difference=1&from=A")
    assert browser.text("heading") == "cut, compared with base"
    assert browser.text("told") == "1 of 4 places slower, 1 cut off"
    assert browser.text("headline").startswith("\u2212") and browser.text("headline-of") == "within 30 min of Alpha"
    key = {"cut off": "1", "15 min or more slower": "1", "less than 2 min either way": "2"}
    assert browser.key() == key
    assert browser.colour("D") == "#000000"
    browser.press("#all-part summary")
    assert browser.lines("all")[1:3] == [
        ["Delta (D)", "40 min", "not reached", "cut off"],
        ["C", "15 min", "32 min", "+17"],
    ]
    browser.click("D")
    assert browser.key() == {"less than 2 min either way": "3", "newly reached": "1"}


def test_the_slider_counts_what_is_reached(town: Town, browser: Browser) -> None:
    town.matrix(town_matrix(True))
    browser.open(page(town, *jobs(town)), "view=times&scenario=base&from=A&minutes=15")
    lines = [["places", "3", "4"], ["jobs", "321", "4,321"], ["residents", "7", "57"]]
    assert browser.lines("sums") == [["Within 15 minutes", "reached", "of"], *lines]
    browser.type("minutes", "\ue012")  # the key to the left
    assert browser.lines("sums")[1] == ["places", "2", "4"]
    browser.open(page(town, *jobs(town)), "view=times&scenario=cut&from=A&minutes=31")
    assert browser.lines("sums")[1:3] == [["places", "3", "2", "-1"], ["jobs", "321", "21", "-300"]]


def test_access_its_change_and_who_loses_most(town: Town, browser: Browser) -> None:
    town.matrix(town_matrix(True))
    browser.open(page(town, *jobs(town)))
    rows = read(town.ran("compare", "--by", "origin", "--feed", town.feed, town.file)[0])
    losers = [row for row in rows if int(row["change"]) < 0]
    wanted = [[f"{row['origin_name']} ({row['origin']})", row["access_before"], row["access_after"]] for row in losers]
    assert [row[:3] for row in browser.lines("losers")[1:]] == wanted != []
    assert "of 2 places 1 loses, 1 gains" in browser.text("told")
    assert browser.key() == {"25 % or more lost": "1", "25 % or more gained": "1", "not an origin of the matrix": "2"}
    browser.press("#losers button")
    assert browser.lines("sums")[1] == ["opportunities", "3", "2", "-1", "-33.3 %"]
    browser.choose("counted", "jobs")
    browser.choose("within", "60 minutes")
    # from A 4,321 jobs within an hour, now 321; from D 1 + 300 + 4000, now with B's 20, too
    assert browser.lines("losers")[1:] == [["Alpha (A)", "4,321", "321", "-4,000", "-92.6 %", "7"]]
    browser.choose("weight", "residents")
    bars = browser.run("return [...document.querySelectorAll('#histogram title')].map((it) => it.textContent)")
    assert [bar for bar in bars if not bar.endswith(": 0 residents")] == [bars[0], bars[-1]]
    assert bars[0].endswith(": 7 residents") and bars[-1].endswith(": 50 residents")
    browser.press("#from-here")
    assert browser.text("headline-of") == "within 30 min of Alpha"


def test_names_are_text_and_nothing_is_fetched(town: Town, browser: Browser) -> None:
    town.write(
        "stops.txt",
        "stop_id,stop_name,stop_lat,stop_lon",
        [[f"S{n}", name, n / 50, 9] for n, name in enumerate(HOSTILE)],
    )
    town.write("stop_times.txt", "trip_id,arrival_time,departure_time,stop_id,stop_sequence", [])
    stops = [f"S{number}" for number in range(4)]
    scenarios: dict[str, dict[str, list[int | str]]] = {
        "base": {"S0": [0, 60, 120, 180]},
        "<i>&": {"S0": [0, 60, 60, ""]},
    }
    town.matrix(town_matrix(True, scenarios, stops=stops))
    town.write("jobs.csv", "stop_id,<u>jobs</u>", [["S1", 5]])
    arguments = ["--title", HOSTILE[0], "--note", HOSTILE[1], "--words", "--date '</script><b>'", "--unit", "<b>jobs"]
    browser.open(page(town, *arguments, "--opportunities", town.path("jobs.csv"), name="x & <y>.html"))
    assert browser.driver.title == browser.driver.find_element("tag name", "h1").text == HOSTILE[0]
    browser.open(page(town, *arguments, "--opportunities", town.path("jobs.csv")), "view=times&from=S0")
    browser.press("#all-part summary")
    assert sorted(row[0] for row in browser.lines("all")[1:]) == sorted(
        f"{name} (S{n})" for n, name in enumerate(HOSTILE)
    )
    assert browser.lines("sums")[2][0] == "<u>jobs</u>"
    browser.type("search", "onerror")
    assert browser.text("found") == f"{HOSTILE[1]} (S1)"
    assert browser.run("return document.querySelectorAll('img, b, i, u').length") == 0
    assert browser.run("return performance.getEntriesByType('resource').length") == 0
    assert browser.complaints() == []


def test_by_keyboard_on_a_phone_and_on_paper(town: Town, browser: Browser) -> None:
    town.matrix(town_matrix(True))
    browser.size(360, 740)
    browser.open(page(town, *jobs(town)), "view=times&scenario=cut")
    browser.type("search", "BETA")  # without its accent
    assert browser.text("found") == 'Béta, "the" square (B)'
    browser.type("search", "\ue007")  # Enter
    assert browser.text("told") == "This place is not an origin of the matrix: choose another one."
    browser.run("document.getElementById('search').value = ''")
    browser.type("search", "a", "\ue015", "\ue015", "\ue007")  # down twice: Alpha, then those with an a within
    assert browser.text("headline-of") == "within 30 min of Delta"
    assert browser.run("return document.documentElement.scrollWidth") == 360
    browser.press("#tabs button[value=ask]")
    browser.press("input[value=access]")
    browser.press("#tabs button[value=answer]")
    assert browser.lines("losers")[0] == ["Place", "before", "after", "change", "", "residents"]
    assert browser.run("return document.documentElement.scrollWidth") == 360
    browser.size(1280, 800)
    empty = browser.colour("A", right=40)  # lines are on a canvas below, but on paper
    browser.run("window.dispatchEvent(new Event('beforeprint'))")
    assert (empty, browser.colour("A", right=40) != empty) == ("#000000", True)
    browser.run("window.dispatchEvent(new Event('afterprint'))")
    printed = browser.driver.execute_cdp_cmd("Page.printToPDF", {"preferCSSPageSize": True})["data"]
    assert printed.startswith("JVBERi0")  # %PDF- in base64
    assert browser.run("return document.body.className") == ""


def test_drawn_matrices_come_out_as_they_are(town: Town, browser: Browser) -> None:
    """All cells of some scenarios and shares, of which the page draws some rows, read in the browser."""
    seed = random.randrange(1 << 30)
    print("seed", seed)
    draw = np.random.default_rng(seed)
    stops = [f"S{number}" for number in range(40)]
    town.write("stops.txt", "stop_id,stop_lat,stop_lon", [[stop, *draw.uniform(1, 1.2, 2)] for stop in stops])
    town.write("stop_times.txt", "trip_id,arrival_time,departure_time,stop_id,stop_sequence", [])
    cells = draw.choice([*range(0, 7200, 7), 15240, 20000, -1], (3, 30, 40))
    scenarios: dict[str, dict[str, list[int | str]]] = {
        name: {stops[row]: ["" if cell < 0 else cell for cell in cells[place, row].tolist()] for row in range(30)}
        for place, name in enumerate(["base", "one", "two"])
    }
    town.matrix(town_matrix(True, scenarios, shares=(25, 50), stops=stops))
    browser.open(page(town))
    script = "return Promise.all(Array.from(numbers.rows, async (it) => Array.from(await minutesFrom(it, %d, %d))))"
    rows, columns = (
        browser.run(f"return Array.from(numbers.{name}, (at) => head.identifiers[at])") for name in ("rows", "columns")
    )
    matrix = open_matrix(town.file)
    assert (sorted(rows), sorted(columns)) == (sorted(stops[:30]), sorted(stops))
    for scenario, name in enumerate(matrix.scenarios):
        for place, share in enumerate(matrix.shares):
            wanted = [
                [minutes(matrix.seconds(name, share, row)[matrix.places[column]]) for column in columns] for row in rows
            ]
            assert browser.awaited(script % (scenario, place)) == wanted


def minutes(seconds: float) -> int:
    """A cell by its definition."""
    return 255 if math.isnan(seconds) else min(254, math.ceil(seconds / 60))


def test_where_there_is_no_room_for_all_rows_are_drawn_or_named(
    town: Town, browser: Browser, monkeypatch: pytest.MonkeyPatch
) -> None:
    town.matrix(town_matrix(True))
    monkeypatch.setattr(make, "MOST_CELLS", 8)
    out = town.path("few.html")
    errors = town.ran("page", "--feed", town.feed, "--out", out, "--seed", "3", town.file)[1]
    how = "which were chosen at random with the seed 3, and access from all."
    line = f"The page has the travel times from 1 of 2 origins, {how}"
    assert errors.splitlines()[1] == line
    browser.open(Path(out), "view=times&from=A")
    assert line in browser.content("meaning-part")
    drawn = browser.run("return head.identifiers[numbers.rows[0]]")
    other = {"A": "D", "D": "A"}[drawn]
    assert browser.key() == {"with travel times": "1", "without travel times": "3"} or drawn == "A"
    browser.open(Path(out), f"view=times&from={other}")
    assert (
        browser.text("told") == "The page has the access of this place, but not its travel times: choose another one."
    )
    named = town.write("named.csv", "stop_id", [[other]])
    errors = town.ran("page", "--feed", town.feed, "--out", out, "--origins", named, town.file)[1]
    assert "from 1 of 2 origins, which were named" in errors
    named = town.write("both.csv", "stop_id", [["A"], ["D"]])
    errors = f"{named}: travel times from its stops are 16, and a page takes 8"
    town.refused(errors, "page", "--feed", town.feed, "--origins", named, town.file)


def test_points_alone_as_squares_and_a_new_line(town: Town, browser: Browser) -> None:
    """A study on points: the scenario `today` lacks trip U, which the scenario `tram` has; stop B is no point."""
    scenarios = {"base": TOWN["base"], "today": TOWN["cut"], "tram": TOWN["base"]}
    town.matrix(town_matrix(True, scenarios))
    points: Table = [["A", 0.0, 9.0, "First cell", 500], ["C", 0.01, 9.01, "", 500], ["D", 0.02, 9.0, "Last cell", 500]]
    cells = town.write("cells.csv", "id,lat,lon,name,width", [*points, ["Z", 1, 1, "elsewhere", 1]])
    files = [town.write("today.csv", "action,id,seconds", [["remove_trip", "U", ""]])]
    files += [town.write("tram.csv", "action,id,seconds", [])]
    arguments = [word for path in files for word in ("--edits", path)] + ["--base", "today", "--scenario", "tram"]
    browser.open(page(town, *arguments, "--points", cells), "view=times&from=A&minutes=120")
    assert sorted(browser.run("return head.identifiers")) == ["A", "C", "D"]
    assert browser.run("return head.scenarios") == ["today", "tram"]
    assert browser.text("heading") == "tram, compared with today"
    assert browser.text("told") == "1 of 3 places faster, 1 newly reached"
    assert "added trips" in browser.text("lines-key") and "taken out" not in browser.text("lines-key")
    aside = int(browser.run("return 0.4 * page.sideOf(0) * 2 ** page.map.getZoom()"))  # pixels, within the square
    assert [browser.colour(letter, right=aside) for letter in "CD"] == [
        classes.GAIN[-1],
        classes.TABLE["marks"]["new"]["colour"],
    ]
    town.write("jobs.csv", "stop_id,jobs", [["A", 5], ["B", 20]])  # B isn't shown, but reached in 6 or 5 minutes
    arguments += ["--points", cells, "--opportunities", town.path("jobs.csv")]
    browser.open(page(town, *arguments), "view=access&of=points")
    assert browser.text("heading") == "Access: points within 30 minutes"
    browser.choose("counted", "jobs")
    browser.click("A")
    assert browser.lines("sums")[1] == ["jobs", "25", "25", "0", "0 %"]
    message = "jobs: part of them is at stops that aren't shown; access counts all of them, the slider none."
    assert message in browser.content("meaning-part")
    browser.press("#from-here")
    assert [row[0] for row in browser.lines("sums")] == ["Within 30 minutes", "places"]


def test_a_plan_brings_its_scenario_files_and_leaves_the_base_out(town: Town, browser: Browser) -> None:
    """Route Q gives way to others on A, B and C, and no longer goes to D; the new calls are those of trip T."""
    town.matrix(town_matrix(True, {"base": TOWN["base"], "today": TOWN["cut"], "tram": TOWN["base"]}))
    (town.folder / "scenarios").mkdir()
    town.write("scenarios/today.csv", "action,id,seconds", [["remove_trip", "T", ""]])
    town.write("scenarios/tram.csv", "action,id,seconds", [["remove_trip", "U", ""]])
    errors = town.ran("page", "--feed", town.feed, "--out", town.path("plan.html"), town.file)[1]
    assert errors.splitlines()[0] == f"{town.file}: base, which has the trips of all scenarios at once, is left out"
    browser.open(Path(town.path("plan.html")))
    assert browser.run("return head.scenarios") == ["today", "tram"]
    key = ["where vehicles run", "removed trips", "changed trips"]
    assert browser.text("lines-key").splitlines()[:3] == key
    counts = "return CHANGED_LINES.map((it) => numbers[`${it}-1`].length / 4)"
    assert browser.run(counts) == [1, 2, 0]  # from A to D; A to B to C


def test_a_background_map_is_fetched_from_where_it_is_asked_for(town: Town, browser: Browser) -> None:
    town.matrix(town_matrix(True))
    tiles = ["--tiles", "http://127.0.0.1:9/{z}/{x}/{y}.png", "--attribution", "© <b>Somebody</b>"]
    browser.open(page(town, *tiles))
    assert browser.driver.find_element("class name", "leaflet-control-attribution").text == "© <b>Somebody</b>"
    assert browser.run("return [...document.images].every((it) => it.src.startsWith('http://127.0.0.1:9/'))")
    assert browser.run("return document.images.length") > 0
    message = "ttm-tools page: --tiles and --attribution go together\n"
    assert town.ran("page", "--feed", town.feed, "--tiles", "https://x", town.file) == ("", message, 2)
    message = "ttm-tools page: --tiles begins with https:// or http://\n"
    assert town.ran("page", "--feed", town.feed, "--tiles", "x", "--attribution", "y", town.file) == ("", message, 2)


def test_the_town_as_the_program_computes_it(town: Town, browser: Browser, program: str) -> None:
    feedgen = Path(__file__).resolve().parents[2] / "bench" / "feedgen.py"
    if not feedgen.is_file():
        pytest.skip("without the maker of the town")
    subprocess.run(
        ["/usr/bin/env", "python3", str(feedgen), "town", town.path("made")], check=True, capture_output=True
    )
    town.feed = town.path("made")
    cut = town.write("no13.csv", "action,id,seconds", [["remove_route", "L0013", ""]])
    run = "--date 20260504 --from 07:30 --to 07:59 --trips 4 --walk 600 --share 50 --within 1800 --workers 1 --tries 1"
    town.take(program, f"--feed {town.feed} {run} --footpaths {town.feed}/footpaths.csv {cut}")
    browser.open(page(town, "--edits", cut, "--words", run))
    matrix = open_matrix(town.file)
    for origin in random.Random(1).sample(matrix.stops, 3):
        browser.run("return set({ view: 'times', scenario: 1, difference: true })")
        browser.click(origin)
        browser.press("#all-part summary")
        chosen = browser.run("return head.identifiers[state.place]")  # another place may lie over it
        times = [matrix.seconds(name, 50, chosen) for name in ("base", "no13")]
        shown = {row[0]: row[1:3] for row in browser.lines("all")[1:]}
        names = browser.run("return head.identifiers.map((_, place) => nameOf(place))")
        printed = dict(zip(browser.run("return head.identifiers"), names))
        texts = [["not reached" if minutes(item) == 255 else f"{minutes(item)} min" for item in row] for row in times]
        assert shown == {printed[stop]: list(pair) for stop, pair in zip(matrix.stops, zip(*texts))}
        browser.press("#all-part summary")
    sources = browser.run("return document.getElementById('sources').textContent")
    assert "2026-05-04" in sources and "07:30 to 07:59" in sources


def test_bad_input_is_told_in_one_line(town: Town) -> None:
    town.matrix(town_matrix(True))

    def refused(message: str, *arguments: str) -> None:
        town.refused(message, "page", "--feed", town.feed, "--out", town.path("page.html"), *arguments, town.file)

    lost = town.path("no")
    refused(f"no {lost}/leaflet.min.js, which the page needs: apt-get install libjs-leaflet", "--leaflet", lost)
    late = town.write("late.csv", "action,id,seconds", [])
    refused(f"{late}: no scenario late on the page; it has base, cut", "--edits", late)
    points = town.write("cells.csv", "id,lat,lon", [["X", 1, 2]])
    refused(f"{town.file}: it has no point of {points}", "--points", points)
    origins = town.write("origins.csv", "stop_id", [["B"]])
    refused(f"{origins}: record 2: the matrix has no origin B", "--origins", origins)
    arguments = jobs(town)
    town.write("people.csv", "stop_id,jobs", [["A", 7]])
    refused(f"{town.path('people.csv')}: a column jobs is among the opportunities too", *arguments)
    town.matrix(town_matrix(True).replace("cut,D,", "cut,C,"))
    refused(f"{town.file}: 1 of 2 origins of base aren't in cut: D; 1 of 2 origins of cut aren't in base: C")
    town.matrix(town_matrix(True))
    town.write("stops.txt", "stop_id", [["A"], ["B"], ["C"], ["D"]])
    refused(f"{town.feed}/stops.txt: none of the stops has coordinates, so there is nothing to show")


def test_the_same_words_give_the_same_bytes_and_a_fault_leaves_nothing(town: Town) -> None:
    town.matrix(town_matrix(False))
    first, second = (page(town, *jobs(town), name=name).read_bytes() for name in ("one.html", "two.html"))
    assert first == second
    assert b'"seconds":null' in first  # a matrix that doesn't name its limit
    shutil.rmtree(town.folder / "to the council")
    assert town.ran("page", "--feed", town.feed, "--out", town.path("no/page.html"), town.file)[2] == 1
    assert not any(".part." in name for name in town.names())


def test_cells_are_minutes_rounded_up_and_written_less_those_before(town: Town) -> None:
    seconds = np.array([[0, 1, 60, 61, 15180, 15181, 99999, np.nan]], np.float32)
    cells = parts.minutes_of(seconds)
    assert cells.tolist() == [[0, 1, 1, 2, 253, 254, 254, 255]]
    both = np.array([[1, 2], [3, 255]], np.uint8)
    assert [item.tolist() for item in parts.blocks_of(both, None)] == [[[1, 2], [2, 253]]]
    assert [item.tolist() for item in parts.blocks_of(both, np.array([[1, 1], [1, 1]], np.uint8))] == [
        [[0, 1], [2, 253]]
    ]


def test_neighbours_stand_together() -> None:
    """Along the line no step is longer than to a neighbour on a grid, each of whose cells comes once."""
    at = np.arange(16) * (places.CELLS // 16) + 5
    x, y = (item.ravel() for item in np.meshgrid(at, at))
    order = np.argsort(places.along_hilbert(x.astype(np.int64), y.astype(np.int64)))
    steps = np.abs(np.diff(x[order])) + np.abs(np.diff(y[order]))
    assert (steps == places.CELLS // 16).all()
    assert places.ranks(np.array([1.0, np.nan]), np.array([2.0, np.nan]))[1] == np.inf


def test_a_page_opens_with_something_to_see_and_the_focus_is_seen(town: Town, browser: Browser) -> None:
    town.matrix(town_matrix(True, {"base": TOWN["base"]}, limits=(900, 1800)))
    browser.open(page(town, *jobs(town)))
    assert browser.text("heading").startswith("Access: ") and len(browser.key()) > 1
    style = "return getComputedStyle(document.querySelector(arguments[0])).outlineWidth"
    for name in ("#map", ".leaflet-control-zoom-in"):
        browser.run("document.querySelector(arguments[0]).focus({ focusVisible: true })", name)
        assert browser.run(style, name) == "3px"


def test_what_loses_can_be_pressed_by_a_finger(town: Town, browser: Browser) -> None:
    town.matrix(town_matrix(True))
    browser.open(page(town, *jobs(town)), "view=access&scenario=cut")
    box = browser.run(
        "const it = document.querySelector('#losers button').getBoundingClientRect(); return [it.width, it.height]"
    )
    assert min(box) >= 24


def test_cells_have_a_height_of_their_own(town: Town, browser: Browser) -> None:
    town.matrix(town_matrix(True))
    rows = [["A", 0.0, 9.0, 200, 800], ["D", 0.02, 9.0, 300, ""]]
    cells = town.write("cells.csv", "id,lat,lon,width,height", rows)
    browser.open(page(town, "--points", cells))
    sides = browser.run(
        "return [...numbers.widths].map((wide, place) => [head.identifiers[place], wide, numbers.heights[place]])"
    )
    assert sorted(sides) == [["A", 200, 800], ["D", 300, 300]]


@pytest.mark.parametrize("stops, wanted", [(1990, [LINE, 1.5]), (2020, [FAINT, 0.75])])
def test_lines_of_a_city_leave_its_places_visible(
    town: Town, browser: Browser, stops: int, wanted: list[str | float]
) -> None:
    """From 2,000 pieces of lines on they are thinner and fainter."""
    town.matrix(town_matrix(True))
    names = [*"ABCD", *[f"X{n}" for n in range(stops)]]
    rows = [[name, 0.0001 * n, 9.0 + 0.0001 * (n % 7)] for n, name in enumerate(names)]
    town.write("stops.txt", "stop_id,stop_lat,stop_lon", rows)
    times = [["T", "", "", name, n] for n, name in enumerate(names)]
    town.write("stop_times.txt", "trip_id,arrival_time,departure_time,stop_id,stop_sequence", times)
    browser.open(page(town, *jobs(town)))
    script = "const found = [], kind = CanvasRenderingContext2D.prototype, stroke = kind.stroke;"
    script += "kind.stroke = function () { found.push([this.strokeStyle, this.lineWidth]); return stroke.call(this) };"
    script += "page.map.fire('viewreset'); kind.stroke = stroke; return found"
    drawn = browser.run(script)
    assert any(colour == wanted[0] and width == pytest.approx(wanted[1]) for colour, width in drawn), drawn[:9]
    both = [mark[0] for mark in drawn if mark[0] in (LINE, FAINT)]
    assert set(both) == {wanted[0]}
