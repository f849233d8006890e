"""Ways between places, counted while they are found: more than `ttm` takes are reported before they fill the memory."""

import numpy as np
import numpy.typing as npt

from ..core.arrays import Floats
from ..core.errors import LimitError
from ..core.limits import MOST_FOOTPATHS
from ..gtfs.columns import is_group_start

Places = npt.NDArray[np.int64]
Ways = tuple[Places, Places, Floats]  # from where, to where, metres


class TooManyWalks(LimitError):
    """More walks than `ttm` takes."""


class WaysFound:
    """Ways as they are found, of which several may be between two places."""

    def __init__(self, path: str, first: int | None, directions: int) -> None:
        self.path, self.first, self.directions = path, first, directions
        self.ways: list[Ways] = []
        self.count = 0

    def take(self, a: Places, b: Places, metres: Floats) -> None:
        """Takes some ways: where it is said which places come first, those alone with one of them at an end."""
        if self.first is not None:
            kept = (a < self.first) | (b < self.first)
            a, b, metres = a[kept], b[kept], metres[kept]
        self.ways.append((a, b, metres))
        self.count += len(a)
        if self.count * self.directions > 2 * MOST_FOOTPATHS:
            self.all()

    def expect(self, count: int) -> None:
        """Refuses too many ways before any is taken."""
        if count * self.directions > MOST_FOOTPATHS:
            text = f"more than the {MOST_FOOTPATHS:,} walks that ttm takes: use a shorter --limit, or fewer places"
            raise TooManyWalks(self.path, text, limit=MOST_FOOTPATHS)

    def all(self) -> Ways:
        """The shortest way between any two places."""
        none = (np.zeros(0, np.int64), np.zeros(0, np.int64), np.zeros(0))
        shortest = least(*(np.concatenate(columns) for columns in zip(none, *self.ways)))
        self.ways, self.count = [shortest], len(shortest[0])
        self.expect(self.count)
        return shortest


def least(a: Places, b: Places, metres: Floats) -> Ways:
    """Of several ways from one place to another the shortest."""
    order = np.lexsort((metres, b, a))
    a, b, metres = a[order], b[order], metres[order]
    first = is_group_start(a, b)
    return a[first], b[first], metres[first]
