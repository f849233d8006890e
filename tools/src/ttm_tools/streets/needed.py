"""Which walks journeys need: where walks are long, most lead past a stop at which the same vehicle can be had.

A walk to a stop isn't needed if each trip that you can board there can also be boarded one call earlier, in time and
after a shorter walk, or one call later after a shorter walk. A walk from a stop isn't needed if you can stay on each
trip for one more call, or leave it one call earlier, and end no later with a shorter walk. A replacement shortens the
walks of a journey, takes no more rides and ends no later, so the least durations stay the same. Boarding later and
leaving earlier may put two walks together: they count only where no walk of an answer can exceed the limit.
"""

from typing import Iterator

import numpy as np
import numpy.typing as npt

from ..core.arrays import Mask, Whole
from ..gtfs.timetable import Events
from .counting import Places
from .table import NONE, Seconds, WalkTable

Kinds = npt.NDArray[np.int64]


def neighbours_of(events: Events, stops: int, merges: bool) -> tuple[Kinds, Kinds]:
    """The calls next to those at each stop, of boarding and of alighting; `merges` also takes those that may put two
    walks together. A row has the stop, the stop one ride away (of boarding the call before), the most seconds of this
    ride, and the stop on the other side; the count of stops stands for a stop that isn't there.
    """
    first, last = ends_of_trips(events)
    places = np.arange(len(first))
    before, after = np.maximum(places - 1, 0), np.minimum(places + 1, len(first) - 1)
    boards, alights = events.board & ~last, events.alight & ~first

    def stop_at(place: Whole, there: Mask) -> Whole:
        return np.where(there, events.stop[place], stops)

    earlier, sooner = ~first & boards[before], ~first & alights[before] & merges
    later, further = ~last & boards[after] & merges, ~last & alights[after]
    ride_before, ride_after = events.depart - events.depart[before], events.arrive[after] - events.arrive
    columns = (events.stop, stop_at(before, earlier), ride_before, stop_at(after, later))
    others = (events.stop, stop_at(after, further), ride_after, stop_at(before, sooner))
    return kinds_of(boards, columns), kinds_of(alights, others)


def ends_of_trips(events: Events) -> tuple[Mask, Mask]:
    """Which events are the first and the last of their trip."""
    first, last = np.zeros(len(events.stop), np.bool_), np.zeros(len(events.stop), np.bool_)
    begins, ends = events.begins[:-1], events.begins[1:]
    first[begins[begins < ends]] = last[ends[begins < ends] - 1] = True
    return first, last


def kinds_of(chosen: Mask, columns: tuple[Whole, Whole, Whole, Whole]) -> Kinds:
    """Each kind of some calls once, with the longest ride."""
    stop, ridden, seconds, other = (column[chosen] for column in columns)
    order = np.lexsort((seconds, other, ridden, stop))
    rows = np.stack([stop, ridden, np.clip(seconds, 0, NONE), other], axis=1)[order]
    longest = np.ones(len(rows), np.bool_)
    longest[:-1] = (rows[1:, [0, 1, 3]] != rows[:-1, [0, 1, 3]]).any(axis=1)
    kinds: Kinds = rows[longest]
    return kinds


def needed_walks(table: WalkTable, events: Events, changes: Whole, merges: bool) -> Iterator[tuple[Places, Places]]:
    """Rows and columns of the walks that journeys with a ride need. The first rows and columns are the stops at which
    vehicles call, with these change times; the rows behind them are origins, and the columns destinations.
    """
    stops = len(changes)
    of_boarding, of_alighting = neighbours_of(events, stops, merges)
    np.fill_diagonal(table.seconds[:stops, :stops], np.minimum(changes, NONE))
    by_stop = np.searchsorted(of_alighting[:, 0], np.arange(stops + 1))
    for rows, block in table.blocks():
        own = np.arange(rows.start, min(rows.start + len(block), stops))
        needed = np.concatenate([boarding_needs(block, of_boarding, stops), block[:, stops:] < NONE], axis=1)
        needed[len(own) :, stops:] = False
        needed[np.arange(len(own)), own] = False
        for place, stop in enumerate(own.tolist()):
            own_kinds = of_alighting[by_stop[stop] : by_stop[stop + 1]]
            needed[place] &= alighting_needs(table.seconds[:stops], own_kinds)
        row, column = np.nonzero(needed)
        yield row + rows.start, column


def boarding_needs(block: Seconds, kinds: Kinds, stops: int) -> Mask:
    """Which walks of some rows to a stop no other stop on the way of the vehicles replaces."""
    turned = np.full((stops + 1, len(block)), NONE, np.uint16)
    turned[:-1] = block[:, :stops].T
    needed = np.zeros((stops, len(block)), np.bool_)
    for stop, ridden, seconds, other in kinds.tolist():
        needed[stop] |= ~replaced(turned[stop], turned[ridden], seconds, turned[other])
    return np.asarray(needed.T & (block[:, :stops] < NONE), np.bool_)


def alighting_needs(walks: Seconds, kinds: Kinds) -> Mask:
    """Which walks from one stop, of which all calls are given, no other stop on the way of the vehicles replaces."""
    needed = np.zeros(walks.shape[1], np.bool_)
    none = np.full(walks.shape[1], NONE, np.uint16)
    for stop, ridden, seconds, other in kinds.tolist():
        by_ride, later = (walks[place] if place < len(walks) else none for place in (ridden, other))
        needed |= ~replaced(walks[stop], by_ride, seconds, later) & (walks[stop] < NONE)
    return needed


def replaced(own: Seconds, ridden: Seconds, seconds: int, other: Seconds) -> Mask:
    """Where a walk is replaced by a shorter one with a ride, or by a shorter one to or from the other side."""
    is_replaced: Mask = ((ridden + np.uint16(seconds) <= own) & (ridden < own)) | (other < own)
    return is_replaced
