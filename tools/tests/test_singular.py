"""Messages name one thing in the singular: a count before a plural noun goes through `quantity`."""

import ast
import re
from pathlib import Path
from typing import Iterator

import pytest

import ttm_tools

ROOT = Path(ttm_tools.__file__).parent
NOUNS = (
    "places points vehicles stops cells origins destinations trips rows records walks footpaths routes lines files "
    "windows pairs columns scenarios days departures parts fields pieces maps calls shapes edits"
)
PLURAL = re.compile(rf" ({'|'.join(NOUNS.split())})\b")
# counts that are never 1, by the text in front of which they stand
NEVER_ONE = {
    "departures, and ttm": "above the limit",
    "departures": "above the limit of a line",
    "stops and stations; ttm takes ": "above the limit",
    "records, and ttm takes ": "above the limit",
    "records, and ttm ": "above the limit",
    "records; ttm takes ": "above the limit",
    "walks are more than the ": "above the limit",
    "walks are more than fit into the memory": "above the limit",
    "points are more than the ": "above the limit of both together",
    "cells are more than the ": "above the limit",
    "lines, of which a spreadsheet shows ": "above the limit",
    "records": "at most so many",
    "files are as ": "a study has many",
    "places have": "a single one has a sentence of its own",
    "windows": "those of which a picture leaves some out",
    "cells are too many: use larger cells, or a smaller area": "above the limit",
}


def counts_before_plurals(source: str) -> Iterator[tuple[int, str]]:
    """The line and the text behind each number of a message that is followed by a plural noun."""
    for node in ast.walk(ast.parse(source)):
        for before, after in zip(node.values, node.values[1:]) if isinstance(node, ast.JoinedStr) else ():
            if not isinstance(before, ast.FormattedValue) or not isinstance(after, ast.Constant):
                continue
            is_limit = re.fullmatch(r"(\w+\.)*[A-Z_]+", ast.unparse(before.value)) is not None
            if PLURAL.match(str(after.value)) and not is_limit:
                yield node.lineno, str(after.value)[1:]


@pytest.mark.parametrize("path", sorted(ROOT.rglob("*.py")), ids=lambda path: str(path.relative_to(ROOT)))
def test_no_message_counts_one_thing_in_the_plural(path: Path) -> None:
    found = counts_before_plurals(path.read_text(encoding="utf-8"))
    assert [(line, text) for line, text in found if text not in NEVER_ONE] == []


def test_the_sweep_finds_a_plural() -> None:
    source = "f\"{len(found):,} places at {MOST:,} points, {count} stops, {quantity(count, 'trip')} of it\""
    assert [text for _, text in counts_before_plurals(source)] == ["places at ", "stops, "]
