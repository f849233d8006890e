"""A column of a table: each text once, and for each record which of them it has.

Texts keep their bytes: they are compared as Python's strings, in which a byte that isn't UTF-8 is a surrogate escape.
"""

from dataclasses import dataclass
from typing import Any, Callable, Iterable, Protocol, Sequence

import numpy as np
import numpy.typing as npt

from ..core.arrays import Floats, Mask, Whole
from ..core.errors import InputError
from ..core.tables import number_of
from ..core.times import as_clock
from .fields import EMPTY, time

Codes = npt.NDArray[Any]  # whole numbers of whatever width


@dataclass(frozen=True)
class Column:
    """The texts of a column, each once, and of each record the position of its text among them."""

    categories: npt.NDArray[np.object_]
    codes: Codes

    def __len__(self) -> int:
        return len(self.codes)

    def at(self, rows: Codes | Mask) -> "Column":
        """The column of some records."""
        return Column(self.categories, self.codes[rows])


class Texts(Protocol):
    """A column of texts: `Column` itself, or a column of a part of a file."""

    @property
    def categories(self) -> npt.NDArray[np.object_]:
        ...

    @property
    def codes(self) -> Codes:
        ...


def column_of(texts: Sequence[str], codes: Codes) -> Column:
    """A column of texts that are each there once, and their positions, in as few bytes as these take."""
    categories = np.empty(len(texts), dtype=object)
    categories[:] = texts
    return Column(categories, codes.astype(np.min_scalar_type(-len(texts) - 1), copy=False))


def coded(texts: Iterable[str]) -> Column:
    """A column of one text for each record."""
    known: dict[str, int] = {}
    codes = np.array([known.setdefault(text, len(known)) for text in texts], dtype=np.int32)
    return column_of(list(known), codes)


def constant(text: str, count: int) -> Column:
    """A column that has one text in all records."""
    return column_of([text], np.zeros(count, np.int8))


def numbered(numbers: Whole, text: Callable[[int], str]) -> Column:
    """A column of a text for each number."""
    values, codes = np.unique(numbers, return_inverse=True)
    return column_of([text(value) for value in values.tolist()], codes)


def clocks(seconds: Whole) -> Column:
    """A column of times."""
    return numbered(seconds, as_clock)


def renamed(column: Column, texts: Sequence[str]) -> Column:
    """A column with its texts replaced; several may be replaced by the same."""
    return coded(texts).at(column.codes)


def behind(first: Column, second: Column) -> Column:
    """The records of one column behind those of another."""
    both, count = coded([*first.categories, *second.categories]), len(first.categories)
    return both.at(np.concatenate([first.codes.astype(np.int32), second.codes.astype(np.int32) + count]))


def texts_at(column: Texts, codes: Codes) -> list[str]:
    """The texts of some codes."""
    texts: list[str] = column.categories[codes].tolist() if len(codes) else []
    return texts


def texts_of(column: Texts) -> list[str]:
    """The text of each record."""
    return texts_at(column, column.codes)


def used(column: Texts) -> list[str]:
    """The texts that some record has, in the order of the categories."""
    return texts_at(column, np.unique(column.codes))


def distinct(column: Texts, among: Mask | None = None) -> list[str]:
    """The texts of all records, or of some, each once, in the order of the records."""
    codes = column.codes if among is None else column.codes[among]
    return texts_at(column, codes[np.sort(np.unique(codes, return_index=True)[1])])


def values_of(column: Texts, read: Callable[[str], int], default: int = EMPTY) -> Whole:
    """The number that is read from each record's text, which is read once."""
    found: Whole = np.array([read(text) for text in column.categories] or [default], dtype=np.int64)[column.codes]
    return found


def times_of(column: Texts) -> Whole:
    """The seconds of each record's time, as `time` reads it; those of the form HH:MM:SS all at once."""
    texts = column.categories
    seconds = np.full(max(len(texts), 1), EMPTY, np.int64)
    letters = texts.astype("U9").view(np.uint32).reshape(-1, 9).astype(np.int64) - ord("0")
    digits = letters[:, [0, 1, 3, 4, 6, 7]]
    plain = ((digits >= 0) & (digits <= 9)).all(axis=1) & (digits[:, [2, 4]] <= 5).all(axis=1)
    plain &= (letters[:, [2, 5]] == ord(":") - ord("0")).all(axis=1) & (letters[:, 8] == -ord("0"))
    seconds[: len(texts)][plain] = digits[plain] @ np.array([36_000, 3_600, 600, 60, 10, 1])
    others = np.flatnonzero(~plain)
    seconds[others] = [time(text) for text in texts[others]]
    return np.asarray(seconds[column.codes], dtype=np.int64)


def positions_of(column: Texts, names: Sequence[str] | dict[str, int]) -> Whole:
    """Where each record's text stands among some names, -1 where it isn't among them."""
    where = names if isinstance(names, dict) else {name: position for position, name in enumerate(names)}
    return values_of(column, lambda text: where.get(text, -1), -1)


def numbers_of(column: Column, path: object, name: str) -> Floats:
    """The column as numbers; the first record that has none is an error."""
    found = np.array([number_of(text) for text in column.categories] or [0.0])
    bad = np.flatnonzero(np.isnan(found[column.codes]))
    if len(bad):
        value = column.categories[column.codes[bad[0]]]
        raise InputError(path, "is not a number", record=int(bad[0]) + 2, column=name, value=value)
    return np.asarray(found[column.codes], dtype=np.float64)


def match_values(column: Texts, holds: Callable[[str], bool]) -> Mask:
    """Which records have a text of which something holds."""
    found: Mask = np.array([holds(text) for text in column.categories] or [False], dtype=np.bool_)[column.codes]
    return found


def one_of(column: Texts, texts: Iterable[str]) -> Mask:
    """Which records have one of some texts."""
    return match_values(column, frozenset(texts).__contains__)


def empty(column: Texts) -> Mask:
    return match_values(column, lambda text: not text)


def repeated(codes: Codes) -> Mask:
    """Which records have what one before them has."""
    found = np.ones(len(codes), dtype=np.bool_)
    found[np.unique(codes, return_index=True)[1]] = False
    return found


def repeated_pairs(first: Codes, second: Whole) -> Mask:
    """Which records have a pair of values that one before them has."""
    order = np.lexsort((second, first))
    found = np.zeros(len(first), dtype=np.bool_)
    found[order] = ~is_group_start(first[order], second[order])
    return found


def is_group_start(*columns: Codes) -> Mask:
    """Which records don't have the values of the one before them."""
    begins = np.ones(len(columns[0]), dtype=np.bool_)
    begins[1:] = False
    for column in columns:
        begins[1:] |= column[1:] != column[:-1]
    return begins
