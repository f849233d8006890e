"""Tables of Markdown pages, as rows of cells."""

from __future__ import annotations

import re
from collections.abc import Collection, Iterator

SEPARATOR = re.compile(r"\|[-:| ]+\|")
CRATE = re.compile(r"`(\w+)`")


def section(page: str, heading: str) -> str:
    """What a page has below a heading of the second level that begins so, up to the next one; empty if it has none."""
    return page.partition(f"\n## {heading}")[2].split("\n## ", 1)[0]


def rows_of(text: str) -> Iterator[list[str]]:
    """The rows of all tables in a text, without their headers."""
    lines = text.splitlines()
    for line, below in zip(lines, [*lines[1:], ""]):
        if line.startswith("|") and not SEPARATOR.fullmatch(line) and not SEPARATOR.fullmatch(below):
            yield [cell.strip() for cell in line.strip("|").split("|")]


def rows_by_crate(text: str, crates: Collection[str]) -> Iterator[list[str]]:
    """The rows of tables that say in their first column of which crate they are: the name of the crate, and the other
    cells. An empty first cell repeats the one above. Where the text before a table says "All in `crate`", the table has
    no such column.
    """
    for part in re.split(r"\n### ", text):
        all_in = re.search(r"All in `(\w+)`", part)
        crate = all_in[1] if all_in else ""
        for cells in rows_of(part):
            first = CRATE.match("" if all_in else cells[0])
            crate = first[1] if first else crate
            if crate in crates:
                yield [crate, *(cells if all_in else cells[1:])]
