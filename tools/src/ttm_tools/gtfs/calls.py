"""The calls of trips in their order, with the times that `ttm` gives them."""

from dataclasses import dataclass
from functools import cached_property
from typing import Sequence

import numpy as np

from ..core.arrays import Mask, Whole
from . import fields
from .columns import empty, is_group_start, positions_of, times_of, values_of
from .fields import number
from .tables import Table


@dataclass(frozen=True)
class Calls:
    """The calls of trips that aren't set aside, by trip and stop_sequence; one that states one time has both equal."""

    rows: Whole  # the place of each in stop_times.txt
    trip: Whole  # the place of its trip in trips.txt
    arrival: Whole  # seconds, -2 where it has no time
    departure: Whole
    has_bad_time: Mask

    @cached_property
    def timed(self) -> Mask:
        return self.arrival >= 0

    @cached_property
    def is_first(self) -> Mask:
        return is_group_start(self.trip)

    @cached_property
    def is_last(self) -> Mask:
        return np.append(self.is_first, True)[1:]

    @cached_property
    def before(self) -> Whole:
        """The index of the last timed call before each call on its trip, -1 if there is none."""
        places = np.arange(len(self.rows))
        before = np.append(-1, np.maximum.accumulate(np.where(self.timed, places, -1)))[:-1]
        start = np.maximum.accumulate(np.where(self.is_first, places, 0))
        return np.where(before >= start, before, -1)

    @cached_property
    def after(self) -> Whole:
        """For each call the place of the first timed one after it on its trip, or the number of calls."""
        count = len(self.rows)
        places = np.arange(count)
        after = np.append(np.minimum.accumulate(np.where(self.timed, places, count)[::-1])[::-1], count)[1:]
        end = np.minimum.accumulate(np.where(self.is_last, places, count)[::-1])[::-1]
        return np.where(after <= end, after, count)

    @cached_property
    def goes_back(self) -> Mask:
        """Where a timed call departs before it arrives, or arrives before the timed call before it departs."""
        before = np.where(self.before >= 0, self.departure[self.before], 0)
        return np.asarray(self.timed & ((self.departure < self.arrival) | (self.arrival < before)), dtype=np.bool_)

    def filled(self) -> tuple[Whole, Whole]:
        """All arrivals and departures, open ones by place between the timed calls round them; the ends are timed."""
        if self.timed.all():
            return self.arrival, self.departure
        open_ones = np.flatnonzero(~self.timed & (self.before >= 0) & (self.after < len(self.rows)))
        start, end = self.before[open_ones], self.after[open_ones]
        left, reached = self.departure[start], self.arrival[end]
        between = left + (reached - left) * (open_ones - start) // (end - start)
        arrival, departure = self.arrival.copy(), self.departure.copy()
        arrival[open_ones] = departure[open_ones] = between
        return arrival, departure


def calls_of(table: Table, trips: Sequence[str]) -> Calls:
    """The calls of some trips; those are set aside that have a record that names no stop."""
    trip = positions_of(table["trip_id"], trips)
    aside = np.zeros(len(trips) + 1, dtype=np.bool_)
    aside[trip[empty(table["stop_id"])]] = True
    aside[-1] = True  # of records whose trip isn't there
    rows = np.flatnonzero(~aside[trip])
    sequence = np.maximum(values_of(table["stop_sequence"], number)[rows], 0)
    if not in_order(trip[rows], sequence):
        rows = rows[np.lexsort((sequence, trip[rows]))]
    first, last = (times_of(table[name])[rows] for name in ("arrival_time", "departure_time"))
    bad = np.asarray((first == fields.NONE) | (last == fields.NONE), dtype=np.bool_)
    arrival, departure = np.where(first >= 0, first, last), np.where(last >= 0, last, first)
    arrival, departure = (np.where(times >= 0, times, fields.EMPTY) for times in (arrival, departure))
    return Calls(rows, trip[rows], arrival, departure, bad)


def in_order(trip: Whole, sequence: Whole) -> bool:
    """Whether calls stand trip by trip, and ascending on each."""
    later, same = trip[1:] > trip[:-1], trip[1:] == trip[:-1]
    return bool((later | (same & (sequence[1:] >= sequence[:-1]))).all())


def begins_of(calls: Calls, count: int) -> Whole:
    """Where the calls of each trip begin, and behind the last one how many there are."""
    return np.concatenate([[0], np.cumsum(np.bincount(calls.trip, minlength=count))])
