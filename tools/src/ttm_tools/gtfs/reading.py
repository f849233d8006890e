"""Reads columns of a file: a plain file by numpy, another long file by pandas, all others record by record.

pandas takes a million records at a time. It doesn't take records with more fields than the header, and some quotes;
such a file is read record by record too.
"""

import os
import re
from pathlib import Path
from typing import Any, Callable, Iterable, Iterator, Mapping, Sequence

import numpy as np
import numpy.typing as npt

from ..core import progress
from ..core.arrays import Mask, Whole
from ..core.tables import column_positions, records, rows
from .columns import Column, Texts, column_of
from .plain import BLOCK, Piece, plain_pieces, together

ROWS_AT_ONCE = 1_000_000
BYTES_AT_ONCE = 50 * ROWS_AT_ONCE  # of a file with this many records, about
LITTLE = 1 << 20  # bytes of a plain file at once, where memory counts more than a fifth of the time
SMALL = 1 << 24  # bytes of a file that is read record by record where it isn't plain
BLANKS = re.compile(rb"(?:^|[\r\n])[ \t]+[\r\n]")
BEGINS = [end + blank for end in (b"\r", b"\n") for blank in (b" ", b"\t")]
ODD = (ValueError, OverflowError)  # raised of what a reader doesn't take, ParserError of pandas among it
Columns = dict[str, Column]
Keep = Callable[[Mapping[str, Texts]], "Mask | None"]
Way = Callable[[], Iterable[Mapping[str, Texts]]]  # in pieces


def columns(path: str | Path, needed: Sequence[str]) -> Columns:
    return columns_of(path, needed, lambda piece: None)[0]


def columns_of(path: str | Path, needed: Sequence[str], keep: Keep) -> tuple[Columns, Whole]:
    """The needed columns of the records that `keep` chooses of a piece (all by None), and these records' numbers."""
    try:
        return plain_columns(path, needed, keep)
    except ODD:
        pass
    try:
        if is_long(path):
            count, name = os.path.getsize(path) // BYTES_AT_ONCE, os.path.basename(path)
            some = progress.track(chunks(path, needed, ROWS_AT_ONCE), count, name, "M records")
            return joined_pieces(some, needed, keep)
    except ODD:
        pass
    return joined_pieces([columns_by_records(path, needed)], needed, keep)


def plain_columns(path: str | Path, needed: Sequence[str], keep: Keep) -> tuple[Columns, Whole]:
    """Columns of a plain file, and the numbers of its records."""
    count, name = os.path.getsize(path) // BLOCK, os.path.basename(path)
    found: dict[str, list[Piece]] = {name: [] for name in needed}
    numbers, first = [np.zeros(0, np.int64)], 2
    for piece in progress.track(plain_pieces(path, needed), count, name, f"{BLOCK >> 20} MB"):
        kept, lines = keep(piece), len(next(iter(piece.values())).codes) if piece else 0
        rows = np.arange(lines) if kept is None else np.flatnonzero(kept)
        numbers.append(first + rows)
        first += lines
        for name, column in piece.items():
            found[name].append(column if kept is None else column.used_by(column.codes[rows]))
    return {name: together(found.pop(name)) for name in needed}, np.concatenate(numbers)


def chunks(path: str | Path, needed: Sequence[str], rows_at_once: int) -> Iterator[Columns]:
    """The needed columns of a file of many records, a number of records at a time, as pandas reads them."""
    import pandas

    how = {"dtype": "category", "keep_default_na": False, "index_col": False, "chunksize": rows_at_once}
    how |= {"encoding": "utf-8-sig", "encoding_errors": "surrogateescape", "low_memory": False}
    _, header = next(records(path), (1, list[str]()))
    places = column_positions(header, path, needed)
    heads = {str(number): name for name, number in places.items() if name in needed}
    names = [str(number) for number in range(len(header))]
    with pandas.read_csv(path, names=names, header=0, usecols=sorted(heads), **how) as read:
        for piece in read:
            arrays = {name: piece[head].array for head, name in heads.items()}
            yield {name: Column(array.categories.to_numpy(), array.codes) for name, array in arrays.items()}


def joined_pieces(some: Iterable[Columns], needed: Sequence[str], keep: Keep) -> tuple[Columns, Whole]:
    """The columns of pieces that follow one another, and the numbers of the records that are kept."""
    found: dict[str, dict[str, int]] = {name: {} for name in needed}
    codes: dict[str, list[npt.NDArray[Any]]] = {name: [np.zeros(0, np.int8)] for name in needed}
    numbers, first = [np.zeros(0, np.int64)], 2
    for piece in some:
        kept, count = keep(piece), len(next(iter(piece.values()))) if piece else 0
        rows = np.arange(count) if kept is None else np.flatnonzero(kept)
        numbers.append(first + rows)
        first += count
        for name, column in piece.items():
            codes[name].append(known_codes(column, column.codes[rows], found[name]))
    columns = {name: column_of(list(found[name]), np.concatenate(codes.pop(name))) for name in needed}
    return columns, np.concatenate(numbers)


def known_codes(column: Texts, codes: npt.NDArray[Any], known: dict[str, int]) -> npt.NDArray[Any]:
    """The codes of a piece as those of the whole column, whose texts are numbered as they come."""
    used = np.flatnonzero(np.bincount(codes, minlength=len(column.categories)))
    texts = column.categories[used].tolist()
    taken = np.zeros(len(column.categories), dtype=np.int32)
    taken[used] = [known.setdefault(text, len(known)) for text in texts]
    narrow: npt.NDArray[Any] = taken.astype(np.min_scalar_type(-len(known) - 1))[codes]
    return narrow


def columns_by_records(path: str | Path, needed: Sequence[str]) -> Columns:
    """The same where records have more fields than the header, or quotes that pandas doesn't take."""
    found: list[dict[str, int]] = [{} for _ in needed]
    codes: list[list[int]] = [[] for _ in needed]
    for _, fields in rows(path, needed):
        for place, field in enumerate(fields):
            codes[place].append(found[place].setdefault(field, len(found[place])))
    return {name: column_of(list(found[at]), np.array(codes[at], np.int32)) for at, name in enumerate(needed)}


def is_long(path: str | Path) -> bool:
    """Whether a file is read by pandas: a long one without lines that pandas counts in another way than `ttm`."""
    return os.path.getsize(path) >= SMALL and not has_odd_lines(path)


def ways_to_read(path: str | Path, needed: Sequence[str], rows_at_once: int) -> Iterator[Way]:
    """How a file of a feed that `ttm` takes is read in pieces: each way for files that those before refuse by ODD."""
    yield lambda: plain_pieces(path, needed, LITTLE)
    if os.path.getsize(path) >= SMALL:
        yield lambda: chunks(path, needed, rows_at_once)
    yield lambda: [columns_by_records(path, needed)]


def has_odd_lines(path: str | Path) -> bool:
    """Whether a file has lines of blanks alone, which are records, or bytes 0."""
    last = b"\n"
    with open(path, "rb") as file:
        while block := file.read(1 << 24):
            whole = last + block
            if b"\0" in block or (any(begin in whole for begin in BEGINS) and BLANKS.search(whole)):
                return True
            last = block[-1000:]
    return False
