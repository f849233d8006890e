"""Tables of some columns of words and others of numbers, as CSV or Markdown."""

from typing import BinaryIO, Sequence

from ..core.tables import write_rows
from ..core.text import display_text, markdown

CSV, MARKDOWN = "csv", "markdown"
WORDS = 5  # columns, which come first


def write_table(out: BinaryIO, header: Sequence[str], rows: Sequence[Sequence[object]], form: str) -> None:
    """Writes a table in the form that is chosen; in Markdown the columns of numbers are aligned to the right."""
    if form == CSV:
        write_rows(out, header, rows)
        return
    columns = [column.replace("_", " ") for column in header]
    heads, *lines = [[markdown(display_text(str(text))) for text in row] for row in (columns, *rows)]
    bars = ["---"] * WORDS + ["---:"] * (len(header) - WORDS)
    for cells in (heads, bars, *lines):
        out.write(f"| {' | '.join(cells)} |\n".encode("utf-8", "backslashreplace"))
