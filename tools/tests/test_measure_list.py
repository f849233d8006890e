"""Measures and the columns of their tables are listed once: options and the page of measures have them all."""

from dataclasses import fields
from pathlib import Path
from typing import Any

import pytest

from ttm_tools.core.columns import BY_ORIGIN, EXPLAINED, JOURNEYS, TableColumn, explained, names_of
from ttm_tools.measures.columns import header, markdown_table
from ttm_tools.measures.comparison import KINDS
from ttm_tools.measures.equity import Equity
from ttm_tools.measures.gains import Gains
from ttm_tools.measures.nearness import Nearness
from ttm_tools.measures.registry import COMPETITIONS, DECAYS, FAIRNESS, Measure, markdown_table as measure_table
from ttm_tools.measures.service import Service
from ttm_tools.views.itineraries import JourneyParts

from helpers import Room

PAGE = Path(__file__).resolve().parents[2] / "docs" / "reference" / "measures.md"
LISTS = [
    ("access", "--decay", "*w(t)*", DECAYS),
    ("access", "--competition", "What an origin has", COMPETITIONS),
    ("equity", "--measure", "What it is", FAIRNESS),
]


@pytest.mark.parametrize("command, option, what, measures", LISTS)
def test_options_and_page_have_all_measures(
    room: Room, command: str, option: str, what: str, measures: dict[str, Measure]
) -> None:
    assert measure_table(option, what, measures.values()) in PAGE.read_text()
    out, _, status = room.ran(command, "--help")
    assert status == 0 and f"{option} {{{','.join(measures)}}}" in " ".join(out.split())
    assert all(callable(measure.compute()) for measure in measures.values())


@pytest.mark.parametrize("kind", [Equity, Gains, Nearness, Service])
def test_the_page_has_all_columns(kind: type[Any]) -> None:
    table = markdown_table(kind)
    assert table in PAGE.read_text()
    assert all(f"`{name}`" in table for name in header(kind) if name != "people")


@pytest.mark.parametrize("columns", EXPLAINED.values(), ids=EXPLAINED)
def test_the_page_explains_the_columns_of_printed_tables(columns: tuple[TableColumn, ...]) -> None:
    table = explained(columns)
    assert table in PAGE.read_text()
    assert all((f"`{column.name}`" in table) == bool(column.what) for column in columns)


def test_columns_stand_in_the_order_in_which_lines_have_them() -> None:
    assert names_of(BY_ORIGIN)[-len(KINDS) :] == [kind.replace(" ", "_") for kind in KINDS]
    parts = [f"{part.name}_seconds" for part in fields(JourneyParts)]
    assert [name for name in names_of(JOURNEYS) if name.endswith("_seconds")] == parts
