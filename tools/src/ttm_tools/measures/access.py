"""Access from each origin: opportunities, each weighted by its travel time, and the time to the nearest ones.

The weights are those of R5 and r5r, with a `cutoff` and a `decay_value` in minutes. docs/reference/measures.md has the
formulas. Each function takes travel times of some origins, of shape (origins, destinations), and returns `float64`, in
which sums of whole numbers are exact. `Matrix.measure` applies one to all rows of a matrix.
"""

import math
from dataclasses import dataclass
from typing import Sequence

import numpy as np

from ..core.arrays import Floats, Mask, Places, Seconds
from ..core.errors import ArgumentError
from .registry import DECAYS

STEP = "step"
SLACK = 1e-6  # by which a sum of decimals that is meant to be whole may lack, at most a trillionth of it


@dataclass(frozen=True)
class Interval:
    """The mean of cumulative opportunities over all limits of whole minutes from one to another, both included."""

    low: int
    high: int

    def weights(self, seconds: Seconds, cutoff: float) -> Floats:
        """The part of the limits within which each travel time is; the cutoff isn't used."""
        count = self.high - self.low + 1
        minutes = np.ceil(endless(seconds) / 60)
        weights: Floats = np.clip(self.high + 1 - np.maximum(minutes, self.low), 0, count) / count
        return weights


@dataclass(frozen=True)
class Decay:
    """How an opportunity's weight falls with its travel time."""

    kind: str  # of DECAYS
    value: float | None = None  # minutes: how wide the linear fall is, the standard deviation of the logistic one

    def __post_init__(self) -> None:
        takes_value = bool(DECAYS[self.kind].value)
        if takes_value and not (self.value or 0) > 0:
            raise ArgumentError(f"--decay {self.kind} needs --decay-value, minutes above 0")
        if not takes_value and self.value is not None:
            raise ArgumentError(f"--decay {self.kind} takes no --decay-value")

    def weights(self, seconds: Seconds, cutoff: float) -> Floats:
        """The weight of each travel time, 0 to 1; 0 if not reached. The cutoff is in minutes."""
        weights: Floats = DECAYS[self.kind].compute()(seconds, np.round(60 * cutoff), 60 * (self.value or 0))
        return weights


Weighting = Interval | Decay  # gives the weight of each travel time, 0 if not reached


def step(seconds: Seconds, limit: float, width: float) -> Floats:
    return np.asarray(seconds <= limit, dtype=np.float64)


def endless(seconds: Seconds) -> Floats:
    """Travel times, infinite if not reached."""
    return np.where(np.isnan(seconds), np.inf, seconds).astype(np.float64)


def linear(seconds: Seconds, limit: float, width: float) -> Floats:
    return np.asarray(np.clip((limit + width / 2 - endless(seconds)) / width, 0, 1))


def exponential(seconds: Seconds, limit: float, width: float) -> Floats:
    return np.asarray(np.exp2(-endless(seconds) / limit))


def logistic(seconds: Seconds, limit: float, width: float) -> Floats:
    """The falling logistic curve, 1 where the travel time is 0."""
    scale = width * math.sqrt(3) / math.pi
    at = (endless(seconds) - limit) / scale
    weights: Floats = (1 + math.exp(-limit / scale)) / (1 + np.exp(np.minimum(at, 700)))
    weights[np.isinf(at)] = 0
    return weights


def access(seconds: Seconds, numbers: Floats, weighting: Weighting, cutoffs: Sequence[float]) -> Floats:
    """Returns sums of numbers, weighted by travel time.

    Parameters
    ----------
    numbers
        Opportunities of shape (destinations, columns).
    cutoffs
        Minutes.

    Returns
    -------
    array of shape (origins, columns, cutoffs)
    """
    used = np.flatnonzero(numbers.any(axis=1))
    there, chosen = seconds[:, used], numbers[used]
    return np.stack([weighting.weights(there, cutoff) @ chosen for cutoff in cutoffs], axis=2)


def nearest(seconds: Seconds, numbers: Floats, counts: Sequence[float]) -> Floats:
    """Returns the least seconds within which each count of opportunities is reached, NaN where it never is.

    A destination with three opportunities counts as three.

    Parameters
    ----------
    numbers
        Opportunities of shape (destinations, columns).

    Returns
    -------
    array of shape (origins, columns, counts)
    """
    used = np.flatnonzero(numbers.any(axis=1))
    there = seconds[:, used]
    order = np.argsort(there, axis=1)  # those that are not reached come last
    return seconds_at(there, order, ranks_of(order, numbers[used], counts))


def completing(seconds: Seconds, numbers: Floats, counts: Sequence[float]) -> tuple[Places, Floats, Places]:
    """Returns the destination that completes each count, -1 where none does, the seconds to it, and its ties: how many
    other destinations with this kind of opportunity have the same travel time. See `nearest`.

    Of destinations with the same travel time the first comes first.
    """
    used = np.flatnonzero(numbers.any(axis=1))
    there = seconds[:, used]
    order = np.argsort(there, axis=1, kind="stable")
    ranks = ranks_of(order, numbers[used], counts)
    found = seconds_at(there, order, ranks)
    columns = np.append(used[order], np.full((len(order), 1), -1), axis=1)
    ends = np.take_along_axis(columns[:, None], ranks, axis=2)
    return np.where(np.isnan(found), -1, ends), found, ties_of(there, numbers[used] > 0, found)


def ties_of(seconds: Seconds, wanted: Mask, found: Floats) -> Places:
    """Returns how many destinations are as far as each one that was found, itself not counted.

    Parameters
    ----------
    wanted
        Which destinations have a kind of opportunity, of shape (destinations, columns).
    found
        Seconds of shape (origins, columns, counts), NaN where none was found, which ties with none.
    """
    ties = np.zeros(found.shape, np.intp)
    for column, there in enumerate(wanted.T):
        for place in range(found.shape[2]):
            ties[:, column, place] = (seconds[:, there] == found[:, column, place, None]).sum(axis=1) - 1
    return np.maximum(ties, 0)


def ranks_of(order: Places, numbers: Floats, counts: Sequence[float]) -> Places:
    """Returns where in the order of each row each count is complete, past its end if it never is.

    Parameters
    ----------
    order
        Destinations by travel time, for each origin.
    numbers
        Opportunities of shape (destinations, columns).

    Returns
    -------
    array of shape (origins, columns, counts)
    """
    limits = [count - min(SLACK, 1e-12 * count) for count in counts]
    ranks = []
    for column in numbers.T:
        sums = np.cumsum(column[order], axis=1)
        ranks.append(np.stack([(sums < limit).sum(axis=1) for limit in limits], axis=1))
    return np.stack(ranks, axis=1)


def seconds_at(seconds: Seconds, order: Places, ranks: Places) -> Floats:
    """Returns the travel times at some ranks, NaN past the end."""
    never = np.full((len(order), 1), np.nan)
    ordered = np.append(np.take_along_axis(seconds, order, axis=1).astype(np.float64), never, axis=1)
    return np.take_along_axis(ordered[:, None], ranks, axis=2)
