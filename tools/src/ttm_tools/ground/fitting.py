"""Keeps a ground small enough for a page: minor streets go first, the shortest of them before the others."""

from dataclasses import dataclass, replace

import numpy as np

from .contents import Ground
from .packing import packed
from .thinning import lengths_of

MOST_IN_PAGE = 1_500_000  # bytes in base64
DROPPED = ("street3", "street2")  # kinds of which shapes may go, in this order
STEPS = 7  # halvings of the share that is kept


@dataclass(frozen=True)
class Fitted:
    """A ground that fits, and how many shapes of each kind were left out for it."""

    ground: Ground
    data: bytes
    dropped: dict[str, int]


def in_page(data: bytes) -> int:
    """How many bytes a page has for packed bytes."""
    return (len(data) + 2) // 3 * 4


def longest(ground: Ground, kind: str, count: int) -> Ground:
    """Returns the ground with the `count` longest shapes of a kind."""
    shapes = ground.shapes[kind]
    order = np.argsort(-lengths_of(shapes), kind="stable")
    chosen = np.zeros(len(shapes), dtype=np.bool_)
    chosen[order[:count]] = True
    return replace(ground, shapes={**ground.shapes, kind: shapes.chosen(chosen)})


def fitted(ground: Ground, most: int = MOST_IN_PAGE) -> Fitted:
    """Returns a ground of at most `most` bytes in a page, if dropping minor and middle streets suffices."""
    data, dropped = packed(ground), dict[str, int]()
    for kind in DROPPED:
        if in_page(data) <= most:
            break
        count = len(ground.shapes[kind])
        kept, too_many = 0, count
        for _ in range(STEPS):
            middle = (kept + too_many) // 2
            if in_page(packed(longest(ground, kind, middle))) <= most:
                kept = middle
            else:
                too_many = middle
        ground = longest(ground, kind, kept)
        data, dropped[kind] = packed(ground), count - kept
    return Fitted(ground, data, dropped)
