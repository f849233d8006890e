"""A file of a feed as its columns, with the number of each record.

A table that nothing changed is copied byte for byte. A column takes one to four bytes for each record, in addition to
its texts, each of which is kept once.
"""

from dataclasses import dataclass
from pathlib import Path
from typing import BinaryIO, Iterable, Mapping, Sequence

import numpy as np
import numpy.typing as npt

from ..core.arrays import Mask, Whole
from ..core.lines import field as quoted, fields_as_texts, join_lines as lines_of
from ..core.tables import names_of
from .columns import Column, behind, coded, column_of, constant, texts_at, texts_of
from .fields import Layout
from .reading import columns

ROWS_AT_ONCE = 1 << 17


@dataclass
class Table:
    """A file of a feed."""

    name: str
    fields: Mapping[str, Column]  # by the names of the columns
    records: Whole  # the number of each record as it was published; the header is record 1; 0 where it isn't known
    source: Path | None = None  # the file, as long as nothing was changed
    apart: Sequence[str] = ()  # columns of the file that aren't here

    def __len__(self) -> int:
        return len(self.records)

    def __contains__(self, name: str) -> bool:
        return name in self.fields

    def __getitem__(self, name: str) -> Column:
        """A column; one that the file hasn't is empty throughout."""
        return self.fields[name] if name in self.fields else constant("", len(self))

    @property
    def columns(self) -> list[str]:
        return list(self.fields)

    @property
    def names(self) -> list[str]:
        """All columns of the file."""
        return names_of(self.source) if self.apart and self.source is not None else self.columns

    def with_all_columns(self) -> "Table":
        """This table with all columns of its file."""
        return read_table(self.name, self.source) if self.apart and self.source is not None else self

    def text(self, name: str, row: int) -> str:
        column = self[name]
        return str(column.categories[column.codes[row]])

    def texts(self, name: str) -> list[str]:
        """The text of each record in a column."""
        return texts_of(self[name])

    def rows(self, chosen: Sequence[int] | None = None) -> list[dict[str, str]]:
        """The records, or some of them, each with its texts by the columns' names."""
        every = [self[name] for name in self.columns]
        columns = [texts_at(column, column.codes if chosen is None else column.codes[list(chosen)]) for column in every]
        return [dict(zip(self.columns, row)) for row in zip(*columns)]

    def keep(self, kept: Mask) -> None:
        """Removes all records but some."""
        if not kept.all():
            self.fields = {name: column.at(kept) for name, column in self.fields.items()}
            self.records, self.source = self.records[kept], None

    def replace(self, name: str, column: Column) -> None:
        """Puts a column in the place of one, or behind all."""
        self.fields, self.source = {**self.fields, name: column}, None

    def put(self, name: str, rows: npt.NDArray[np.intp], texts: Sequence[str]) -> None:
        """Writes texts into the fields of some records."""
        if not len(rows):
            return
        column = self[name]
        known = {text: code for code, text in enumerate(column.categories)}
        codes = column.codes.astype(np.int32)
        codes[rows] = [known.setdefault(text, len(known)) for text in texts]
        self.replace(name, column_of(list(known), codes))

    def copy(self) -> "Table":
        """The same table, which changes by itself."""
        return Table(self.name, self.fields, self.records, self.source, self.apart)


def unnumbered(count: int) -> Whole:
    """Record numbers for a table that needs none; they take no memory."""
    return np.broadcast_to(np.zeros(1, np.int64), (count,))


def no_table(name: str, source: Path | None = None) -> Table:
    """A table without columns and records."""
    return Table(name, {}, np.zeros(0, np.int64), source)


def table_of(name: str, columns: Sequence[str], rows: Iterable[Mapping[str, str]]) -> Table:
    """A table of a few records that no file has; a field that isn't named is empty."""
    records = list(rows)
    texts = {column: coded(row.get(column, "") for row in records) for column in columns}
    return Table(name, texts, np.zeros(len(records), np.int64))


def read_table(name: str, path: Path, layout: Layout | None = None) -> Table:
    """A file with all its columns; or with those of a layout, which has to have the needed ones."""
    there = names_of(path)
    wanted = there if layout is None else [*layout.needed, *(name for name in layout.taken if name in there)]
    found = columns(path, wanted)
    count = len(next(iter(found.values()))) if found else 0
    return Table(name, found, np.arange(2, count + 2, dtype=np.int64), path)


def joined(first: Table, second: Table) -> Table:
    """The records of one table behind those of another, with the columns of both."""
    if not first.columns or not second.columns:
        return first if first.columns else second
    names = dict.fromkeys((*first.columns, *second.columns))
    columns = {name: behind(first[name], second[name]) for name in names}
    return Table(first.name, columns, np.concatenate([first.records, second.records]))


def write_table(table: Table, file: BinaryIO) -> None:
    """Writes a table, some records at a time."""
    file.write(b",".join(map(quoted, table.columns)) + b"\n")
    write_lines(table, file)


def write_lines(table: Table, file: BinaryIO) -> None:
    """Writes the records of a table without its header."""
    columns = [table[name] for name in table.columns]
    texts = [fields_as_texts(column.categories, before=b"," if place else b"") for place, column in enumerate(columns)]
    if len(texts) == 1:
        texts[0][texts[0] == b""] = b'""'  # an empty line is no record
    for first in range(0, len(table), ROWS_AT_ONCE):
        rows = slice(first, first + ROWS_AT_ONCE)
        pieces = [fields[column.codes[rows]] for fields, column in zip(texts, columns)]
        file.write(lines_of([*pieces, b"\n"], len(table.records[rows])))
