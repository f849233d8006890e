"""Counts with decimals become integers for `ttm` by a power of ten."""

from decimal import Decimal

from typing import Any

import numpy as np
import numpy.typing as npt

from .arrays import Floats

MOST_COUNTED = 4_000_000_000


def scale_of(numbers: Floats) -> int:
    """Return the least power of ten that makes all numbers integers.

    If their sum would exceed `MOST_COUNTED`, near the greatest number that `ttm` reads, the power is smaller.
    """
    scale = 1
    while np.abs(numbers * scale - np.rint(numbers * scale)).max(initial=0) > 1e-6 * scale:
        if numbers.sum() * scale * 10 > MOST_COUNTED:
            break
        scale *= 10
    return scale


def times(number: str, scale: int) -> str:
    """Return a number times a scale, in decimal arithmetic."""
    return number if scale == 1 else str(Decimal(number) * scale)


def unscaled(sums: npt.NDArray[Any], scale: int) -> npt.NDArray[Any]:
    """Divide sums of scaled counts by the scale; the result is float64 unless the scale is 1."""
    return sums if scale == 1 else sums / scale
