"""Points in cubes of space, for searches that need only what is near."""

import itertools
from dataclasses import dataclass
from typing import Iterator

import numpy as np

from ..core.arrays import Floats
from .counting import Places

SIDE = 1 << 21  # cubes along an axis
ROUND = [(x * SIDE + y) * SIDE + z for x, y, z in itertools.product((-1, 0, 1), repeat=3)]  # to those that touch a cube
ROWS_AT_ONCE = 1_000_000


@dataclass(frozen=True)
class Cubes:
    """Points in cubes of space."""

    key: Places  # of each point the number of its cube
    order: Places  # the points by these numbers
    ordered: Places  # the numbers in order

    def span(self, keys: Places) -> tuple[Places, Places]:
        """Where the points of some cubes begin and end in order."""
        return np.searchsorted(self.ordered, keys, "left"), np.searchsorted(self.ordered, keys, "right")

    def around(self, key: int) -> Places:
        """The points in a cube and those that touch it."""
        begins, ends = self.span(key + np.array(ROUND))
        return np.concatenate([self.order[begin:end] for begin, end in zip(begins.tolist(), ends.tolist())])


def cubes_of(points: Floats, metres: float) -> Cubes:
    """Points in cubes of a side, at least a metre."""
    cubes = np.floor(points / max(metres, 1.0)).astype(np.int64)
    cubes -= cubes.min(axis=0, initial=0) - 1
    key = (cubes[:, 0] * SIDE + cubes[:, 1]) * SIDE + cubes[:, 2]
    order = np.argsort(key, kind="stable")
    return Cubes(key, order, key[order])


def ranges(begin: Places, end: Places) -> Iterator[tuple[Places, Places]]:
    """Each number with all of its range, as two columns, some millions of rows at a time."""
    counts = end - begin
    cuts = np.searchsorted(np.cumsum(counts), np.arange(0, int(counts.sum()), ROWS_AT_ONCE)[1:])
    for some in np.split(np.arange(len(counts)), cuts):
        number = np.repeat(some, counts[some])
        within = np.arange(len(number)) - np.repeat(np.cumsum(counts[some]) - counts[some], counts[some])
        yield number, begin[number] + within
