"""Numbers that come piece by piece, kept in one large array.

Many small arrays would lie between memory that is freed, so that the system wouldn't get it back.
"""

from typing import Any

import numpy as np
import numpy.typing as npt

Numbers = npt.NDArray[Any]
BLOCK = 1 << 18  # numbers by which the array grows in addition to a piece, so that the system moves it seldom


class GrowableArray:
    """A column of numbers. A piece may be wider than those before it."""

    def __init__(self, kind: npt.DTypeLike) -> None:
        self.numbers, self.used = np.zeros(0, kind), 0

    def take(self, piece: Numbers) -> None:
        """Puts a piece behind the others."""
        end = self.used + len(piece)
        kind = np.result_type(self.numbers, piece) if self.used else piece.dtype
        if len(piece) and kind != self.numbers.dtype:
            self.numbers = self.numbers.astype(kind)
        if end > len(self.numbers):
            self.numbers.resize(end + BLOCK, refcheck=False)
        self.numbers[self.used : end] = piece
        self.used = end

    def to_array(self) -> Numbers:
        self.numbers.resize(self.used, refcheck=False)
        return self.numbers
