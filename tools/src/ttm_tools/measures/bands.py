"""People by band: how many have at least a number of opportunities, or the nearest within a number of minutes."""

from typing import Sequence

import numpy as np

from ..core.arrays import Floats

MINUTE = 60.0


def with_at_least(access: Floats, people: Floats, limits: Sequence[float]) -> Floats:
    """How many people have at least each of these numbers of opportunities."""
    return np.array([people[access >= limit].sum() for limit in limits], dtype=np.float64)


def within_minutes(seconds: Floats, people: Floats, limits: Sequence[float]) -> Floats:
    """The number of people who have these opportunities within each of these numbers of minutes; NaN isn't reached."""
    return np.array([people[seconds <= round(MINUTE * limit)].sum() for limit in limits], dtype=np.float64)
