"""`Matrix.to_html` in a real browser: travel times, access and notes are those of the matrix; and what is refused."""

from collections.abc import Iterator
from pathlib import Path
from typing import Any

import numpy as np
import pytest

from browser import Browser

for package in ("geopandas", "jinja2"):
    pytest.importorskip(package)
import geopandas  # noqa: E402
from shapely.geometry import Point, box  # noqa: E402

from ttm_tools.api.chosen import Context  # noqa: E402
from ttm_tools.api.matrix import Matrix  # noqa: E402
from ttm_tools.core.errors import InputError  # noqa: E402
from ttm_tools.core.notes import Note  # noqa: E402
from ttm_tools.core.question import Question  # noqa: E402
from ttm_tools.matrices.array_matrix import ArrayMatrix  # noqa: E402

NONE = np.nan
CELLS = {("today", 50): [[0, 601, NONE], [60, 120, 1800]], ("tram", 50): [[0, 500, 900], [NONE, 120, 1860]]}
QUESTION = Question("2026-05-04", "08:00", "08:59", max_travel="45 min")


@pytest.fixture(scope="module")
def browser() -> Iterator[Browser]:
    driver = Browser()
    yield driver
    driver.close()


def matrix_of(ids: list[Any], cells: dict[tuple[str, int], Any] = CELLS) -> Matrix:
    """Two homes, of which the first is a square, and three places with jobs."""
    shapes = [box(-0.01, 50.99, 0.01, 51.01), Point(0, 51.1)]
    homes = geopandas.GeoDataFrame({"id": ids, "name": ["First", " "]}, geometry=shapes, crs=4326).to_crs(27700)
    points = [Point(0.2, 51), Point(0, 51.1), Point(0, 51.2)]
    ends = geopandas.GeoDataFrame({"id": ["x", "y", "z"], "jobs": [1, 2, 4]}, geometry=points, crs=4326)
    arrays = {key: np.array(rows, np.float32) for key, rows in cells.items()}
    context = Context(homes, ends, QUESTION, (Note("unreachable", "origins: 1 place far <off>", 1),))
    return Matrix(ArrayMatrix([str(one) for one in ids], ["x", "y", "z"], arrays), context)


def test_the_page_has_the_cells_of_the_matrix(tmp_path: Path, browser: Browser) -> None:
    saved = matrix_of([7, 8]).to_html(tmp_path / "page.html", title="Our <town>", opportunities=["jobs"])
    assert saved.path == tmp_path / "page.html" and saved.path.read_bytes().startswith(b"<!DOCTYPE html>")
    browser.open(saved.path, "view=times&scenario=today&difference=0&from=7&minutes=15")
    assert browser.text("heading") == "Travel times from First (7)" and browser.run("return document.title") == (
        "Our <town>"
    )
    browser.press("#all-part summary")
    shown = [row for row in browser.lines("all")[1:] if row[0] in ("x", "y", "z")]
    assert sorted(shown) == [["x", "0 min"], ["y", "11 min"], ["z", "not reached"]]  # 601 seconds, rounded up
    assert ["jobs", "3", "7"] in browser.lines("sums")  # 1 and 2 within a quarter of an hour
    assert browser.content("lines-key") == "" and browser.complaints() == []


def test_access_is_counted_of_the_columns_that_are_named(tmp_path: Path, browser: Browser) -> None:
    saved = matrix_of([7, 8]).to_html(tmp_path / "page.html", opportunities="jobs")
    browser.open(saved.path, "view=access&of=jobs&within=1&scenario=tram")
    # within half an hour 8 reaches 1 + 2 + 4 jobs today, with the tram 2
    losers = browser.lines("losers")
    assert losers[1][:4] == ["8", "7", "2", "-5"]
    assert "far <off>" in browser.run("return document.body.textContent")
    assert "Pairs beyond 45 min count as not reached." in browser.run("return document.body.textContent")
    assert browser.run("return head.measures.map((it) => it.of)") == ["destinations"] * 4 + ["jobs"] * 4


def test_a_part_is_a_page_of_its_own(tmp_path: Path, browser: Browser) -> None:
    part = matrix_of([7, 8]).sel(scenario="tram", from_id=8, to_id=["z", "y"])
    browser.open(part.to_html(tmp_path / "page.html").path, "view=times&from=8")
    script = "return Promise.all(Array.from(numbers.rows, async (it) => Array.from(await minutesFrom(it, 0, 0))))"
    columns = browser.run("return Array.from(numbers.columns, (at) => head.identifiers[at])")
    assert dict(zip(columns, browser.awaited(script)[0])) == {"z": 31, "y": 2}
    assert browser.run("return head.scenarios") == ["tram"]


def test_an_origin_with_the_identifier_of_another_place_stays_apart(tmp_path: Path, browser: Browser) -> None:
    browser.open(matrix_of(["x", "y"]).to_html(tmp_path / "page.html").path, "view=times")
    assert sorted(browser.run("return head.identifiers")) == ["x", "x (origin)", "y", "y (origin)", "z"]
    same = matrix_of(["z", "y"]).sel(from_id="y")
    browser.open(same.to_html(tmp_path / "same.html").path, "view=times")
    assert sorted(browser.run("return head.identifiers")) == ["x", "y", "z"]


def test_a_notebook_shows_the_page_inline(tmp_path: Path, browser: Browser) -> None:
    saved = matrix_of([7, 8]).to_html(tmp_path / "page.html")
    around = tmp_path / "notebook.html"
    around.write_text(f"<!DOCTYPE html><body>{saved._repr_html_()}</body>", encoding="utf-8")
    browser.driver.get(around.as_uri())
    browser.driver.switch_to.frame(browser.driver.find_element("css selector", "iframe"))
    browser.settle()
    assert "1 loses, 1 gains" in browser.text("told") and browser.complaints() == []


def test_what_no_page_can_show_is_refused_and_nothing_is_written(tmp_path: Path) -> None:
    matrix, path = matrix_of([7, 8]), tmp_path / "page.html"
    with pytest.raises(InputError, match="destinations: job has no column; the nearest is 'jobs'"):
        matrix.to_html(path, opportunities=["job"])
    with pytest.raises(InputError, match="origins: record 1: id two identifiers read 7 as texts"):
        matrix_of([7, "7"]).to_html(path)
    assert list(tmp_path.iterdir()) == []
