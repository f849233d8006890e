"""The file of a ground: a line that names its form, then deflated bytes.

These are the length of a JSON text in four bytes, this text, and for each kind that it lists the points of each shape
and the steps from point to point, as numbers of seven bits a byte (LEB128); a step's sign is its lowest bit.
`web/assets/map/ground.js` reads them, too.
"""

import json
import zlib
from typing import Any

import numpy as np
import numpy.typing as npt

from ..core.errors import InputError
from ..core.reading import as_one_line, read_bytes
from .contents import UNIT, Ground, Name, Shapes

FORM = b"ttm-tools ground 1\n"
MOST_GROUND = 100_000_000  # bytes that a file is unpacked to
MOST_FILE = 10_000_000  # bytes
LEVEL = 9
WIDEST = 10  # bytes of a number
Bytes = npt.NDArray[np.uint8]
Numbers = npt.NDArray[np.int64]


def as_bytes(numbers: Numbers) -> bytes:
    """Numbers from 0 on, seven bits a byte, the lowest first; each byte but a number's last has its highest bit set."""
    shifts = 7 * np.arange(WIDEST, dtype=np.int64)
    groups = numbers[:, None] >> shifts & 0x7F
    used = (numbers[:, None] >> shifts > 0) | (shifts == 0)
    more = np.concatenate([used[:, 1:], np.zeros((len(numbers), 1), dtype=np.bool_)], axis=1)
    found: Bytes = (groups | more << 7).astype(np.uint8)[used]
    return found.tobytes()


def as_numbers(data: bytes) -> Numbers:
    """The numbers of `as_bytes`."""
    found = np.frombuffer(data, dtype=np.uint8)
    is_last = found < 0x80
    ends = np.flatnonzero(is_last)
    begins = np.concatenate([[0], ends[:-1] + 1])[: len(ends)].astype(np.int64)
    place = np.arange(len(found)) - np.repeat(begins, ends - begins + 1)
    parts = (found & 0x7F).astype(np.int64) << 7 * place
    numbers: Numbers = np.add.reduceat(parts, begins) if len(ends) else np.zeros(0, np.int64)
    return numbers


def signed(steps: Numbers) -> Numbers:
    """Numbers of both signs as numbers from 0 on."""
    return np.where(steps < 0, -2 * steps - 1, 2 * steps)


def unsigned(numbers: Numbers) -> Numbers:
    return np.where(numbers & 1, -(numbers >> 1) - 1, numbers >> 1)


def bytes_of(shapes: Shapes) -> bytes:
    steps = np.diff(shapes.points, axis=0, prepend=np.zeros((1, 2), np.int64))
    return as_bytes(np.concatenate([shapes.counts, signed(steps.ravel())]))


def shapes_of(data: bytes, count: int) -> Shapes:
    numbers = as_numbers(data)
    counts, steps = numbers[:count], unsigned(numbers[count:])
    if 2 * counts.sum() != len(steps):
        raise ValueError("points are missing")
    return Shapes(counts, np.cumsum(steps.reshape(-1, 2), axis=0))


def packed(ground: Ground) -> bytes:
    """Returns the bytes of a ground's file without the line of its form, as pages embed them."""
    parts = {kind: bytes_of(shapes) for kind, shapes in ground.shapes.items()}
    names = [[it.kind, it.text, round(it.latitude * UNIT), round(it.longitude * UNIT)] for it in ground.names]
    kinds = [[kind, len(ground.shapes[kind]), len(data)] for kind, data in parts.items()]
    head = {"unit": UNIT, "box": ground.box, "attribution": ground.attribution, "kinds": kinds, "names": names}
    text = json.dumps(head, ensure_ascii=False, separators=(",", ":")).encode()
    return zlib.compress(len(text).to_bytes(4, "little") + text + b"".join(parts.values()), LEVEL)


def unpacked(path: str, data: bytes) -> Ground:
    """Returns the ground of `packed` bytes."""
    with as_one_line(path, "is a damaged ground"):
        engine = zlib.decompressobj()
        whole = engine.decompress(data, MOST_GROUND)
        if not engine.eof:
            raise InputError(path, f"is a damaged ground, or has more than {MOST_GROUND:,} bytes")
        length = int.from_bytes(whole[:4], "little")
        head: dict[str, Any] = json.loads(whole[4 : 4 + length])
        shapes, begin = dict[str, Shapes](), 4 + length
        for kind, count, size in head["kinds"]:
            shapes[kind] = shapes_of(whole[begin : begin + size], count)
            begin += size
        names = [Name(kind, text, north / UNIT, east / UNIT) for kind, text, north, east in head["names"]]
        west, south, east, north = map(float, head["box"])
        return Ground((west, south, east, north), shapes, names, str(head["attribution"]))


def read_ground_file(path: str) -> Ground:
    """Returns the ground of a file that `ttm-tools ground` wrote."""
    return unpacked(path, read_packed(path))


def read_packed(path: str) -> bytes:
    """Returns the packed bytes of a file that `ttm-tools ground` wrote."""
    data = read_bytes(path, MOST_FILE, "a ground")
    if not data.startswith(FORM):
        raise InputError(path, "is not a ground: ttm-tools ground writes one from an extract of OpenStreetMap")
    return data[len(FORM) :]
