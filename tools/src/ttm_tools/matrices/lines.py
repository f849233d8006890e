"""The records of a matrix as lines of bytes, and the cells of a line as numbers, all at once and never one by one."""

import io
from typing import BinaryIO, Iterator

import numpy as np
import numpy.typing as npt

from ..core.arrays import Seconds
from ..core.errors import InputError
from ..core.limits import MOST_SECONDS, MOST_STOPS
from ..core.reading import csv_records

Bytes = npt.NDArray[np.uint8]
COMMA, ZERO, QUOTE = ord(","), ord("0"), b'"'
MOST_DIGITS = 9
MOST_COLUMNS = MOST_STOPS + 11  # stops that `ttm` takes, and what stands before them
MOST_RECORD = 1 << 26  # bytes
POWERS = [10**place for place in range(MOST_DIGITS)]


def read_record(file: BinaryIO) -> bytes:
    """The bytes of one record: up to a line end outside of quotes."""
    record = file.readline(MOST_RECORD)
    while QUOTE in record and record.count(QUOTE) % 2 == 1:  # looking is twenty times as fast as counting
        more = file.readline(MOST_RECORD)
        if not more or len(record) >= MOST_RECORD:
            break
        record += more
    return record


def refuse_wide(path: str, header: bytes) -> None:
    """Refuses a header with more columns than a matrix has, before it is cut into fields."""
    if len(header) >= MOST_RECORD or header.count(b",") >= MOST_COLUMNS:
        raise InputError(path, f"more than {MOST_COLUMNS:,} columns: not a matrix", record=1)


def records_of(file: BinaryIO) -> Iterator[bytes]:
    """Each record from here on, with its line end."""
    return iter(lambda: read_record(file), b"")


def content(record: bytes) -> bytes:
    """A record without its line end."""
    return record[: -2 if record.endswith(b"\r\n") else -1 if record.endswith(b"\n") else None]


def fields_of(record: bytes) -> list[str]:
    """All fields of a record as text."""
    text = io.StringIO(record.decode("utf-8", "surrogateescape"), newline="")
    return next((fields for fields in csv_records(text) if fields), [])


def head_of(line: bytes, count: int) -> tuple[list[str], int]:
    """The first fields of a record and where the next one begins; fewer where the record has fewer."""
    if QUOTE not in line:
        fields = line.split(b",", count)
        begin = sum(map(len, fields[:count])) + len(fields[:count])
        return [field.decode("utf-8", "surrogateescape") for field in fields[:count]], begin
    begin, found = 0, 0
    while found < count and begin <= len(line):
        end = line.find(b",", begin)
        while end >= 0 and line.count(QUOTE, begin, end) % 2 == 1:
            end = line.find(b",", end + 1)
        begin, found = (end if end >= 0 else len(line)) + 1, found + 1
    return fields_of(line[: begin - 1]), begin


def count_of_fields(line: bytes, begin: int) -> int:
    """The number of fields of a record from a place on, which is after its last quote."""
    if begin > len(line):
        return 0
    return int(np.count_nonzero(np.frombuffer(line, np.uint8, offset=begin) == COMMA)) + 1 if begin < len(line) else 1


def seconds_of(cells: bytes, count: int) -> Seconds | None:
    """The travel times of a line's cells, or None where they aren't this number of whole numbers or empty fields up to
    MOST_SECONDS.
    """
    if count == 0:
        return np.zeros(0, np.float32)
    letters = np.frombuffer(cells + b",", np.uint8)
    digits = letters - np.uint8(ZERO)
    ends = np.flatnonzero(letters == COMMA)
    if len(ends) != count or np.count_nonzero(digits > 9) != count:
        return None
    lengths = np.diff(ends, prepend=-1) - 1
    longest = int(lengths.max())
    if longest > MOST_DIGITS:
        return None
    values = values_of(digits, ends, lengths, longest)
    if values.max() > MOST_SECONDS:
        return None
    seconds: Seconds = values.astype(np.float32)
    seconds[lengths == 0] = np.nan
    return seconds


def values_of(
    digits: Bytes, ends: npt.NDArray[np.intp], lengths: npt.NDArray[np.intp], longest: int
) -> npt.NDArray[np.int32]:
    """The numbers whose last digits stand before these ends: a digit of each at a time."""
    values = np.zeros(len(ends), np.int32)
    for place in range(longest):
        digit = digits.take(ends - (1 + place), mode="clip")
        values += (digit * (lengths > place)).astype(np.int32) * POWERS[place]
    return values


def first_bad(cells: bytes) -> tuple[int, str]:
    """The index of a line's first cell that is no travel time, and its text."""
    texts = cells.decode("utf-8", "surrogateescape").split(",")
    for place, text in enumerate(texts):
        if text and not (text.isascii() and text.isdigit() and int(text) <= MOST_SECONDS and len(text) <= MOST_DIGITS):
            return place, text
    return len(texts), ""
