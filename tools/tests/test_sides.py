"""Losers and winners: map, page, report and tables have one definition."""

import random
import re
from pathlib import Path
from typing import Iterator

import numpy as np
import pytest

from browser import Browser
from helpers import Town
from test_maps import figure
from ttm_tools.measures.comparison import sides_of


@pytest.fixture(scope="module")
def browser() -> Iterator[Browser]:
    pytest.importorskip("jinja2")
    driver = Browser()
    yield driver
    driver.close()


def two_scenarios(access: list[list[int]]) -> str:
    """A matrix of four origins with this access in base and in the scenario cut."""
    lines = ["scenario,origin,access,A"]
    lines += [
        f"{name},{stop},{item},0" for name, row in zip(("base", "cut"), access) for stop, item in zip("ABCD", row)
    ]
    return "\n".join(lines) + "\n"


def test_an_origin_that_gains_from_nothing_is_newly_reached(town: Town, monkeypatch: pytest.MonkeyPatch) -> None:
    town.matrix(two_scenarios([[0, 5, 1000, 7], [1, 0, 999, 7]]))
    texts, _, classes = figure(town, monkeypatch, "difference")
    message = "Of 4 stops 2 lose (1 of them cut off), 1 gains (1 of them newly reached); the greatest loss: 100 %"
    assert texts[1].startswith(message)
    wanted = ["cut off: all of it lost  (1)", "less than 2 % either way  (2)", "newly reached: none before  (1)"]
    assert classes[:3] == wanted


def test_the_sides_of_origins() -> None:
    sides = sides_of(np.array([0, 5, 1000, 7, 0]), np.array([1, 0, 999, 8, 0]))
    assert [item.tolist() for item in (sides.lose, sides.gain, sides.cut_off, sides.newly_reached)] == [
        [False, True, True, False, False],
        [True, False, False, True, False],
        [False, True, False, False, False],
        [True, False, False, False, False],
    ]


@pytest.mark.parametrize("seed", range(3))
def test_map_page_and_compare_count_alike(
    town: Town, monkeypatch: pytest.MonkeyPatch, browser: Browser, seed: int
) -> None:
    draw = random.Random(seed)
    town.matrix(two_scenarios([[draw.choice([0, 0, 1, 1000, 1001]) for _ in "ABCD"] for _ in range(2)]))
    texts = figure(town, monkeypatch, "difference")[0]
    monkeypatch.undo()
    _, errors, _ = town.ran("compare", "--by", "origin", "--feed", town.feed, "--out", town.path("c.csv"), town.file)
    assert town.ran("page", "--feed", town.feed, "--out", town.path("p.html"), town.file)[2] == 0
    browser.open(Path(town.path("p.html")), "view=access")
    counts = re.search(r"[0-9]+ loses?( \([0-9]+ of them cut off\))?, [0-9]+ gains?( \([^)]* reached\))?", errors)
    assert counts is not None, errors
    assert texts[1].startswith(f"Of 4 stops {counts[0]}")
    assert browser.text("told") == f"cut compared with base: of 4 places {counts[0]}."
