"""Columns of a plain file, read by numpy, some megabytes at a time: most large files are plain.

A plain file has no quote and no byte 0, its lines end with LF or CR LF, and each record has as many fields as the
header. Other files are refused, so that a slower reader takes them.
"""

from dataclasses import dataclass
from functools import cached_property
from pathlib import Path
from typing import BinaryIO, Iterator, Sequence

import numpy as np
import numpy.typing as npt

from ..core.reading import checked_table
from ..core.tables import column_positions, records
from .columns import Codes, Column, column_of, is_group_start

BLOCK = 1 << 22  # bytes that are read at once: they fit into a processor's cache
LONGEST = 256  # bytes of a field
WORD = 8  # bytes that are compared at once
MOST_TURNS = 64  # of a search for equal texts, which chance needs a few of
COMMA, LF, CR, QUOTE, NUL = b',\n\r"\0'
MASKS = np.array([(1 << 8 * count) - 1 for count in range(WORD + 1)], np.uint64)  # of the first bytes of a word
Places = npt.NDArray[np.int64]
Words = npt.NDArray[np.uint64]


class NotPlain(ValueError):
    """A file that isn't plain."""


@dataclass(frozen=True)
class Piece:
    """A column of a block: its different texts, in words with bytes 0 behind the end, and which each line has."""

    words: Sequence[Words]
    codes: Places

    @cached_property
    def categories(self) -> npt.NDArray[np.object_]:
        return column_of(texts_of(self.words), self.codes).categories

    def used_by(self, codes: Codes) -> "Piece":
        """The piece with some of its lines, and only the texts that these have."""
        used = np.flatnonzero(np.bincount(codes, minlength=len(self.words[0])))
        taken = np.zeros(len(self.words[0]), np.int64)
        taken[used] = np.arange(len(used))
        return Piece([word[used] for word in self.words], taken[codes])


def plain_pieces(path: str | Path, needed: Sequence[str], size: int = BLOCK) -> Iterator[dict[str, Piece]]:
    """The needed columns of a file, a block of whole lines at a time, which takes fifteen times its size in memory."""
    _, header = next(records(path), (1, list[str]()))
    places = column_positions(header, path, needed)
    if not header:
        raise NotPlain  # no record, but perhaps a byte-order mark or empty lines
    with open(checked_table(path), "rb") as file:
        for number, block in enumerate(line_blocks(file, size)):
            fields = fields_of(block, len(header))
            yield {name: fields.column(places[name], int(number == 0)) for name in needed}


def line_blocks(file: BinaryIO, size: int) -> Iterator[bytes]:
    """Blocks of whole lines, each with its end."""
    rest = b""
    while block := file.read(size):
        end = block.rfind(b"\n") + 1
        if end:
            yield rest + block[:end]
        rest = block[end:] if end else rest + block
    if rest:
        yield rest + b"\n"


@dataclass(frozen=True)
class Fields:
    """Where each field of a block's lines begins and ends: an array for each column."""

    bytes: Words  # the word that begins at each byte
    begins: Sequence[Places]
    ends: Sequence[Places]

    def column(self, place: int, first: int) -> Piece:
        """A column, from a line on."""
        begin, length = self.begins[place][first:], (self.ends[place] - self.begins[place])[first:]
        longest, shortest = int(length.max(initial=1)), int(length.min(initial=LONGEST))
        if longest > LONGEST:
            raise NotPlain
        pieces = []
        for done in range(0, longest, WORD):
            word = self.bytes[begin + done] if done else self.bytes[begin]
            if shortest < done + WORD:
                word &= MASKS[np.clip(length - done, 0, WORD)]
            pieces.append(word)
        rows, codes = distinct(pieces)
        return Piece([word[rows] for word in pieces], codes)


def fields_of(block: bytes, count: int) -> Fields:
    """The fields of a block whose lines have this many each."""
    data = np.frombuffer(block, np.uint8)
    signs = np.flatnonzero(data <= COMMA)  # few other bytes are as small
    kinds = data[signs]
    cuts = signs[(kinds == COMMA) | (kinds == LF)]
    if ((kinds == QUOTE) | (kinds == NUL)).any() or len(cuts) % count:
        raise NotPlain
    cuts = cuts.reshape(-1, count)
    line_ends = cuts[:, -1]
    if (data[line_ends] != LF).any() or (data[cuts[:, :-1]] != COMMA).any():
        raise NotPlain  # a line has more commas than another
    with_cr = data[np.maximum(line_ends, 1) - 1] == CR
    before = np.concatenate([[0], line_ends[:-1] + 1])
    begins = [before, *(cuts[:, place] + 1 for place in range(count - 1))]
    ends = [*(cuts[:, place] for place in range(count - 1)), line_ends - with_cr]
    if np.count_nonzero(kinds == CR) != np.count_nonzero(with_cr) or (count == 1 and (ends[0] == before).any()):
        raise NotPlain  # a line ends with CR alone, or is empty
    padded = block + bytes(LONGEST + 2 * WORD)
    return Fields(np.ndarray((len(padded) - WORD + 1,), "<u8", padded, strides=(1,)), begins, ends)


def distinct(columns: Sequence[Words]) -> tuple[Places, Places]:
    """The first row of each different text, and of each row the number of its text, in the order in which they come."""
    new = is_group_start(*columns)
    rows = np.flatnonzero(new)  # others have the text of the row before them
    first = firsts_of([word[rows] for word in columns])
    is_first = first == np.arange(len(rows))
    numbers = (np.cumsum(is_first) - 1)[first]
    return rows[is_first], numbers[np.cumsum(new) - 1]


def firsts_of(columns: Sequence[Words]) -> Places:
    """The first row with the same words, for each row.

    Rows are hashed into buckets. Those that equal the first row of their bucket are done; the others are hashed again
    with other factors.
    """
    numbers, left = np.zeros(len(columns[0]), np.int64), np.arange(len(columns[0]))
    draw = np.random.default_rng(len(left))
    for _ in range(MOST_TURNS):
        if not len(left):
            return numbers
        bits = max(8, (2 * len(left)).bit_length())
        own = [word[left] for word in columns]
        drawer = drawers(own, draw.integers(1 << 63, size=len(columns) + 1, dtype=np.uint64), bits)
        held = np.zeros(1 << bits, np.int64)
        held[drawer[::-1]] = left[::-1]  # of several the last one that is laid in stays: the first row
        found = held[drawer]
        same = np.ones(len(left), dtype=np.bool_)
        for one, word in zip(own, columns):
            same &= one == word[found]
        numbers[left[same]] = found[same]
        left = left[~same]
    raise NotPlain


def drawers(columns: Sequence[Words], drawn: Words, bits: int) -> Places:
    """Numbers of this many bits, which depend on all words of a row."""
    sums = np.zeros(len(columns[0]), np.uint64)
    for word, factor in zip(columns, drawn | np.uint64(1)):
        sums = (sums ^ word) * factor
        sums ^= sums >> np.uint64(32)
    numbers: Places = (sums * (drawn[-1] | np.uint64(1)) >> np.uint64(64 - bits)).astype(np.int64)
    return numbers


def texts_of(columns: Sequence[Words]) -> list[str]:
    joined = np.ascontiguousarray(np.stack(columns, axis=1)).view(f"S{WORD * len(columns)}").ravel()
    return [text.decode("utf-8", "surrogateescape") for text in joined.tolist()]


def together(pieces: Sequence[Piece]) -> Column:
    """The column of all pieces, whose texts are numbered as they come."""
    most = max((len(piece.words) for piece in pieces), default=1)
    none = [[np.zeros(0, np.uint64)] * most]
    rows_of_words = [[*piece.words, *[np.zeros_like(piece.words[0])] * (most - len(piece.words))] for piece in pieces]
    columns = [np.concatenate(column) for column in zip(*none, *rows_of_words)]
    rows, numbers = distinct(columns)
    begins = np.cumsum([0, *(len(piece.words[0]) for piece in pieces)])
    codes = [numbers[begin + piece.codes] for begin, piece in zip(begins, pieces)]
    return column_of(texts_of([word[rows] for word in columns]), np.concatenate([np.zeros(0, np.int64), *codes]))
