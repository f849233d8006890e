"""CSV tables, read record by record and written row by row. Records are counted as `ttm` counts them.

The header is record 1, and empty lines are not counted. To `ttm` identifiers are bytes: bytes that are not UTF-8 become
surrogate escapes in a text, and are written unchanged. `text.display_text` decodes them for people.
"""

import csv
import math
from collections import Counter
from dataclasses import dataclass
from pathlib import Path
from typing import Any, BinaryIO, Iterable, Iterator, Sequence

import numpy as np
import numpy.typing as npt

from .errors import InputError
from .limits import MOST_NUMBER
from .lines import field
from .reading import MOST_COLUMNS, checked_table, csv_records
from .text import display_text, quantity


def records(path: str | Path) -> Iterator[tuple[int, list[str]]]:
    """Yield the number and the fields of each record of a file."""
    number = 0
    try:
        with open(checked_table(path), newline="", encoding="utf-8-sig", errors="surrogateescape") as file:
            for fields in csv_records(file):
                if fields:
                    number += 1
                    if number == 1 and len(fields) > MOST_COLUMNS:
                        raise InputError(path, f"more than {MOST_COLUMNS:,} columns", record=1, limit=MOST_COLUMNS)
                    yield number, fields
    except csv.Error as fault:
        raise InputError(path, str(fault), record=number + 1) from None
    except OSError as fault:
        raise InputError(path, fault.strerror) from None


def column_positions(header: Sequence[str], path: str | Path, needed: Sequence[str]) -> dict[str, int]:
    """Return the position of each column; raises an `InputError` if a needed column is missing."""
    places: dict[str, int] = {}
    for place, name in enumerate(header):
        places.setdefault(name.strip(" "), place)
    for name in needed:
        if name not in places:
            raise InputError(path, f"no column {name}", record=1).noting(column=name)
    return places


def refuse_alike(path: str | Path, header: Sequence[str], names: Iterable[str]) -> None:
    """Raise an `InputError` if one of the named columns appears twice."""
    counts = Counter(column.strip(" ") for column in header)
    twice = next((name for name in names if counts[name] > 1), None)
    if twice is not None:
        raise InputError(path, f"two columns {display_text(twice)}", record=1).noting(column=twice)


def rows(
    path: str | Path, needed: Sequence[str], wanted: Sequence[str] = (), *, whole: bool = False
) -> Iterator[tuple[int, list[str]]]:
    """Yield the number of each record after the header, and its needed and wanted fields in that order.

    A wanted column that is missing gives "". If `whole`, a record with more fields than the header raises an
    `InputError`, unless these are empty; otherwise they are ignored, as `ttm` does.
    """
    lines = records(path)
    _, header = next(lines, (1, []))
    places = column_positions(header, path, needed)
    chosen = [places.get(name, len(header)) for name in (*needed, *wanted)]
    for number, fields in lines:
        if whole and any(text.strip() for text in fields[len(header) :]):
            counts = f"{quantity(len(fields), 'field')}, and the header has {len(header)}"
            what = f"{counts}; a number with a comma would be cut off"
            raise InputError(path, what, record=number)
        del fields[len(header) :]
        fields += [""] * (len(header) + 1 - len(fields))
        yield number, [fields[place] for place in chosen]


def number_of(text: str) -> float:
    """Return the finite number in a field, or NaN."""
    try:
        number = math.nan if "_" in text else float(text)
    except ValueError:
        return math.nan
    return number if math.isfinite(number) else math.nan


def from_zero(path: str | Path, record: int, column: str, text: str) -> float:
    """Return the number in a field.

    Raises
    ------
    InputError
        It is no number, or below 0.
    """
    number = number_of(text.strip())
    if not number >= 0:
        allowed = "a number from 0 on"
        raise InputError(path, "is invalid", record=record, column=column, value=text, allowed=allowed)
    return number


def names_of(path: str | Path) -> list[str]:
    """Return the names of a file's columns, without repetitions and surrounding spaces."""
    _, header = next(records(path), (1, list[str]()))
    return list(dict.fromkeys(name.strip(" ") for name in header))


def with_gaps(numbers: npt.NDArray[Any]) -> Any:
    """Return integers as a nullable array of pandas, and other numbers unchanged; NaN is missing."""
    import pandas

    gaps = np.isnan(numbers)
    if (numbers[~gaps] % 1 != 0).any():
        return numbers
    return pandas.arrays.IntegerArray(np.where(gaps, 0, numbers).astype(np.int64), gaps)


class LastLine:
    """The target of a `csv.writer`: stores the line that was written last."""

    text = ""

    def write(self, text: str) -> None:
        self.text = text


def write_rows(file: BinaryIO, header: Sequence[str], lines: Iterable[Sequence[object]]) -> None:
    """Write a table; each line ends with LF."""
    file.write(b",".join(map(field, header)) + b"\n")
    last = LastLine()
    writer = csv.writer(last, lineterminator="\n")
    for line in lines:
        writer.writerow(line)
        # `ttm` quotes a field with a lone CR, and writes an empty field alone without quotes; csv does neither.
        if "\r" in last.text or len(line) < 2:
            file.write(b",".join(map(field, line)) + b"\n")
        else:
            file.write(last.text.encode("utf-8", "surrogateescape"))


@dataclass
class RoundingCounter:
    """Converts numbers with decimals to integers for `ttm`, and counts those that change."""

    count: int = 0
    scale: int = 1  # by which opportunities were multiplied before

    def to_int(self, text: str, path: object, record: int, column: str, up: bool) -> int:
        """Return the number in a field, rounded up or to the nearest integer (halves up)."""
        number = number_of(text.strip())
        if not 0 <= number <= MOST_NUMBER:
            allowed = f"a number from 0 to {MOST_NUMBER}"
            raise InputError(path, "is invalid", record=record, column=column, value=text, allowed=allowed)
        rounded = math.ceil(number) if up else math.floor(number + 0.5)
        self.count += rounded != number
        return rounded
