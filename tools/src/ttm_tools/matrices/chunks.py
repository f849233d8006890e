"""The chunks of an Open Matrix file as HDF5 stores them: some whole rows, the first bytes of all cells, then the second
ones and so on, compressed. This module packs and unpacks them in threads, since HDF5 handles one at a time.
"""

import zlib
from typing import Any

import numpy as np

from ..core.arrays import Seconds
from ..core.errors import InputError
from ..core.threads import map_in_order, processors

LEVEL = 1  # of the compression: higher ones take up to twice as long for some percent less
BYTES = 4  # of a cell
SHUFFLED_AND_DEFLATED = [2, 1]  # the numbers of HDF5's filters


def packed(cells: Seconds) -> bytes:
    by_cell = cells.astype("<f4", copy=False).view(np.uint8).reshape(-1, BYTES)
    planes = np.empty((BYTES, len(by_cell)), np.uint8)
    for place in range(BYTES):  # five times as fast as a transposed copy
        planes[place] = by_cell[:, place]
    return zlib.compress(planes.data, LEVEL)


def unpacked(chunk: bytes, rows: int, columns: int) -> Seconds:
    size = rows * columns
    planes = np.frombuffer(zlib.decompress(chunk, bufsize=BYTES * size), np.uint8).reshape(BYTES, size)
    by_cell = np.empty((size, BYTES), np.uint8)
    for place in range(BYTES):
        by_cell[:, place] = planes[place]
    return by_cell.view("<f4").reshape(rows, columns).astype(np.float32, copy=False)


def is_packed(data: Any) -> bool:
    """Whether a set of data is kept in such chunks."""
    how = data.id.get_create_plist()
    filters = [how.get_filter(number)[0] for number in range(how.get_nfilters())]
    return bool(data.dtype == "<f4") and filters == SHUFFLED_AND_DEFLATED and data.chunks[1:] == data.shape[1:]


def rows_of(data: Any, begin: int, end: int) -> Seconds:
    values: Seconds
    if begin >= end or not is_packed(data):
        values = data[begin:end].astype(np.float32, copy=False)
        return values
    rows = data.chunks[0]
    first = begin // rows * rows
    chunks = list(map_in_order(lambda place: chunk_at(data, place), range(first, end, rows), processors()))
    values = np.concatenate(chunks)[begin - first : end - first]
    return values


def chunk_at(data: Any, place: int) -> Seconds:
    """The chunk that begins with a row."""
    skipped, chunk = data.id.read_direct_chunk((place, 0))
    rows, columns = data.chunks
    try:
        values: Seconds = unpacked(chunk, rows, columns) if skipped == 0 else data[place : place + rows]
    except (zlib.error, ValueError) as fault:
        message = f"{data.name}: the chunk that begins with row {place + 1} can't be read: {fault}"
        raise InputError(data.file.filename, message) from None
    return values
