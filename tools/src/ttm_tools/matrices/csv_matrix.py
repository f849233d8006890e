"""Matrices as `ttm` prints them. A first pass notes where each line's cells stand; cells are read when they are needed
for.
"""

import os
from dataclasses import dataclass, field
from typing import BinaryIO

import numpy as np

from ..core import progress
from ..core.arrays import Seconds, Sums
from ..core.errors import InputError
from ..core.limits import MOST_SECONDS
from ..core.reading import as_one_line, regular
from ..core.tables import refuse_alike
from ..core.text import display_text, quantity
from .base import Matrix, Share
from .layout import MatrixLayout, layout_of
from .lines import (
    content,
    count_of_fields,
    fields_of,
    first_bad,
    head_of,
    read_record,
    records_of,
    refuse_wide,
    seconds_of,
)

BYTES_AT_ONCE = 1 << 20  # a line of a metropolis has a hundred thousand
NO_MATRIX = "not a matrix: it begins neither with scenario,origin,access nor with scenario,origin,share,access_.."
TRAVEL_TIMES = f"whole seconds up to {MOST_SECONDS}, or nothing"


@dataclass(frozen=True)
class MatrixLine:
    """A line of a matrix: its record, its access for each limit, and where the bytes of its cells begin and end in the
    file.
    """

    record: int
    access: list[int]
    begin: int
    end: int


@dataclass
class Index:
    """The lines of a scenario and a share, and the place of each origin among them, in the file's order."""

    lines: list[MatrixLine] = field(default_factory=list)
    places: dict[str, int] = field(default_factory=dict)


class CsvMatrix(Matrix):
    """A matrix that `ttm` printed; each of its lines has as many fields as the header, or it is reported."""

    def __init__(self, path: str) -> None:
        self.path = path
        self.index: dict[tuple[str, Share], Index] = {}
        regular(path)
        with as_one_line(path, "can't be read"), open(path, "rb", buffering=BYTES_AT_ONCE) as file:
            self.layout = self.read_layout(file)
            self.read_lines(file)
        if not self.index:
            raise InputError(path, "no rows")

    def read_layout(self, file: BinaryIO) -> MatrixLayout:
        record = read_record(file)
        refuse_wide(self.path, record)
        found = layout_of(fields_of(record.removeprefix(b"\xef\xbb\xbf")))
        if found is None:
            raise InputError(self.path, NO_MATRIX, record=1)
        refuse_alike(self.path, found.stops, found.stops)
        if not record.endswith(b"\n"):
            raise InputError(self.path, "truncated: the last line has no end")
        return found

    def read_lines(self, file: BinaryIO) -> None:
        """Notes each line of the file, whose header was read."""
        begin, number = file.tell(), 1
        rows = os.fstat(file.fileno()).st_size // (5 * self.layout.width)
        for record in progress.track(records_of(file), rows, "reading", "rows"):
            line = content(record)
            if len(line) == len(record):
                raise InputError(self.path, "truncated: the last line has no end")
            if line:
                number += 1
                self.read_line(line, number, begin)
            begin += len(record)
        self.scenarios = list(dict.fromkeys(scenario for scenario, _ in self.index))
        self.shares = sorted({share for _, share in self.index}, key=lambda share: share or 0)

    def read_line(self, line: bytes, number: int, begin: int) -> None:
        """Notes one line, which begins at a place in the file."""
        layout = self.layout
        heads, first = head_of(line, layout.first_cell)
        count = len(heads) + count_of_fields(line, first)
        if count != layout.width:
            raise InputError(self.path, f"{quantity(count, 'field')}, and the header has {layout.width}", record=number)
        numbers = [self.number(number, name, text) for name, text in zip(layout.heads[2:], heads[2:])]
        share = numbers.pop(0) if layout.names_share else None
        index = self.index.setdefault((heads[0], share), Index())
        if heads[1] in index.places:
            raise InputError(
                self.path, f"{display_text(heads[1])} occurs twice in {display_text(heads[0])}", record=number
            )
        index.places[heads[1]] = len(index.lines)
        index.lines.append(MatrixLine(number, numbers, begin + first, begin + len(line)))

    def number(self, record: int, column: str, text: str) -> int:
        if not (text.isascii() and text.isdigit() and len(text) <= 18):
            raise InputError(
                self.path, "is not a number", record=record, column=column, value=text, allowed="whole numbers"
            )
        return int(text)

    def of(self, scenario: str, share: Share) -> Index:
        return self.index.get((scenario, share), Index())

    def origins(self, scenario: str, share: Share) -> list[str]:
        return list(self.of(scenario, share).places)

    def access(self, scenario: str, share: Share) -> Sums:
        sums = [line.access for line in self.of(scenario, share).lines]
        return np.array(sums, dtype=np.int64).reshape(-1, len(self.layout.limits))

    def rows(self, scenario: str, share: Share, begin: int, end: int) -> Seconds:
        lines = self.of(scenario, share).lines[begin:end]
        values = np.empty((len(lines), len(self.stops)), np.float32)
        if not self.stops:
            return values
        with open(self.path, "rb", buffering=0) as file:
            for row, line in enumerate(lines):
                cells = os.pread(file.fileno(), line.end - line.begin, line.begin)
                seconds = seconds_of(cells, len(self.stops))
                if seconds is None:
                    self.refuse_bad(cells, line.record)
                values[row] = seconds
        return values

    def refuse_bad(self, cells: bytes, record: int) -> None:
        place, text = first_bad(cells)
        column = display_text(self.stops[place]) if place < len(self.stops) else None
        raise InputError(
            self.path, "is not a travel time", record=record, column=column, value=text, allowed=TRAVEL_TIMES
        )
