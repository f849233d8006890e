"""Access where people compete for what is there: floating catchments, balanced ones, and spatial availability.

The people who reach a destination share its supply, by the weights of their travel times; the access of an origin is
the sum of its shares. Sums go over origins with people and destinations with a supply. docs/reference/measures.md has
formulas.
"""

from dataclasses import dataclass
from typing import Callable, Iterable, Sequence

import numpy as np

from ..core.arrays import Floats, Places, Seconds
from .access import Weighting
from .registry import COMPETITIONS

LEAST = 1e-100  # a smaller weight counts as none, since a supply divided by it overflows
Blocks = Callable[[], Iterable[Seconds]]  # yields the travel times of all origins in order, some rows at a time


@dataclass(frozen=True)
class Market:
    """Who competes for what, and how.

    Attributes
    ----------
    method
        A key of `COMPETITIONS`.
    supply
        Opportunities of shape (destinations, columns).
    people
        The number of people at each origin.
    weighting
        How weights fall with travel time.
    """

    method: str
    supply: Floats
    people: Floats
    weighting: Weighting


def competition(blocks: Blocks, market: Market, cutoffs: Sequence[float]) -> Floats:
    """Returns what each origin has of each supply within each cutoff.

    Availability is what all people of an origin have together; the other methods say what each of them has.

    Parameters
    ----------
    blocks
        Called twice for each column of the supply and each cutoff.
    cutoffs
        Minutes.

    Returns
    -------
    array of shape (origins, columns, cutoffs)
    """
    compute = COMPETITIONS[market.method].compute()
    found = np.zeros((len(market.people), market.supply.shape[1], len(cutoffs)))
    for column, amounts in enumerate(market.supply.T):
        for place, cutoff in enumerate(cutoffs):
            found[:, column, place] = compute(Supply(blocks, market.people, amounts, market.weighting, cutoff))
    return found


@dataclass(frozen=True)
class Supply:
    """One column of a supply, and the people who compete for it within a cutoff."""

    blocks: Blocks
    people: Floats  # by origin
    amounts: Floats  # by destination
    weighting: Weighting
    cutoff: float  # minutes

    @property
    def used(self) -> Places:
        return np.flatnonzero(self.amounts)

    def weights(self, seconds: Seconds) -> Floats:
        found = self.weighting.weights(seconds[:, self.used], self.cutoff)
        found[found < LEAST] = 0
        return found

    def rates(self, demand: Floats) -> Floats:
        """What each person who competes for a destination has of it."""
        return divided(self.amounts[self.used], demand)

    def shared_out(self, rates: Floats) -> Floats:
        """What each origin has of all destinations."""
        return np.concatenate([np.zeros(0), *[self.weights(seconds) @ rates for seconds in self.blocks()]])


def floating(supply: Supply) -> Floats:
    demand, _ = totals(supply, balanced=False)
    return supply.shared_out(supply.rates(demand))


def balanced(supply: Supply) -> Floats:
    demand, sums = totals(supply, balanced=True)
    return supply.shared_out(divided(supply.rates(demand), sums))


def availability(supply: Supply) -> Floats:
    return floating(supply) * supply.people


def divided(numbers: Floats, by: Floats) -> Floats:
    """Returns the quotients, 0 where the divisor is 0."""
    return np.divide(numbers, by, out=np.zeros(len(numbers)), where=by > 0)


def totals(supply: Supply, *, balanced: bool) -> tuple[Floats, Floats]:
    """Returns for each destination the people who compete for it, and its weights summed over origins with people.

    If `balanced`, the people of an origin are divided among its destinations, so that each of them counts once.
    """
    demand, sums, begin = np.zeros(len(supply.used)), np.zeros(len(supply.used)), 0
    for seconds in supply.blocks():
        found = supply.weights(seconds)
        there = supply.people[begin : begin + len(found)]
        begin += len(found)
        whole = found.sum(axis=1) if balanced else np.ones(len(found))
        demand, sums = demand + divided(there, whole) @ found, sums + (there > 0) @ found
    return demand, sums
