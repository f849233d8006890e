"""Numbers as parts of a page: arrays of bytes, deflated and written as base64.

`web/assets/page/data.js` reads them again; the two have to fit.
"""

import base64
import zlib
from dataclasses import dataclass
from typing import Any, Iterator

import numpy as np
import numpy.typing as npt

from ...matrices import Seconds

Bytes = npt.NDArray[np.uint8]
LATER, NEVER = 254, 255  # bytes of cells: later than LATEST minutes; not reached
LATEST = 253
BLOCK = 1 << 16  # bytes of cells that are deflated together, about
LEVEL = 9


@dataclass(frozen=True)
class Element:
    """The text of one element of the page, which is found by its name."""

    name: str
    text: str


def part(name: str, numbers: npt.NDArray[Any]) -> Element:
    """An array as little-endian bytes, compressed and in base64."""
    little = np.ascontiguousarray(numbers, numbers.dtype.newbyteorder("<"))
    return Element(name, base64.b64encode(zlib.compress(little.tobytes(), LEVEL)).decode("ascii"))


def minutes_of(seconds: Seconds) -> Bytes:
    """Travel times as bytes: whole minutes, rounded up, so that `within 30 minutes` is what it is in seconds."""
    there = ~np.isnan(seconds)
    minutes = np.ceil(np.where(there, seconds, 0) / 60)
    return np.where(there, np.minimum(minutes, LATER), NEVER).astype(np.uint8)


def rows_in_block(columns: int) -> int:
    return max(1, BLOCK // max(1, columns))


def blocks_of(cells: Bytes, below: Bytes | None) -> Iterator[Bytes]:
    """The cells by blocks of rows, each less those below it, and then less the row before it, so that most are 0."""
    step = rows_in_block(cells.shape[1])
    for begin in range(0, len(cells), step):
        block = cells[begin : begin + step]
        if below is not None:
            block = block - below[begin : begin + step]
        padded = block.copy()
        padded[1:] -= block[:-1]
        yield padded
