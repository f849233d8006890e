"""The network that journeys are searched in: events of runs on the axis of times, walks and change times, as arrays.

There are millions of events, so each takes 18 bytes, and they are chosen from the timetable some at a time.
"""

from dataclasses import dataclass
from functools import cached_property
from typing import Iterator, Sequence

import numpy as np
import numpy.typing as npt

from ..core.arrays import Mask, Narrow, Whole
from ..gtfs.columns import Codes
from ..gtfs.footpaths import Footpaths
from ..gtfs.timetable import Events, Runs

NEVER = 1 << 30  # seconds on the axis: later than any event, and with a walk and a change behind it a number of 4 bytes
FEW = 1 << 16  # stops, which numpy puts in order by counting
CHOSEN_AT_ONCE = 1 << 16  # events that are chosen at once, about
Places = npt.NDArray[np.intp]
Columns = tuple[Narrow, Codes, Narrow, Narrow, Mask, Mask]  # run, stop, arrival, departure, boarding and alighting


@dataclass(frozen=True)
class SearchNetwork:
    """Events of runs on the axis of times, run after run, with walks and change times."""

    run: Narrow  # of each event the run, ascending
    begin: Narrow  # of each event the place of its run's first event that is there
    stop: Codes
    arrive: Narrow
    depart: Narrow
    board: Mask
    alight: Mask
    walks: Footpaths
    changes: Whole  # seconds at each stop

    @cached_property
    def events_by_stop(self) -> tuple[Places, Places, Places]:
        return groups_of(self.stop)

    @cached_property
    def walks_to_vehicles(self) -> tuple[Footpaths, Places, Places]:
        """The walks to stops where a vehicle can be boarded, sorted by stop; where each stop's begin; the stops."""
        boarded = np.zeros(len(self.changes), dtype=np.bool_)
        boarded[self.stop[self.board]] = True
        walks = self.walks.of(boarded[self.walks.end])
        order, begins, ends = groups_of(walks.end)
        return walks.of(order), begins, ends

    def within(self, first: int, last: int) -> "SearchNetwork":
        """What departs, or arrives, between two times; nothing else counts for journeys between them."""
        return self.only((self.depart >= first) & (self.arrive <= last))

    def taken_by(self, ready: Narrow) -> "SearchNetwork":
        """The events of vehicles that a traveller who is ready at the stops at these times can still take."""
        return self.only(self.aboard(ready) | (self.board & (ready[self.stop] <= self.depart)))

    def only(self, kept: Mask) -> "SearchNetwork":
        run, stop, board, alight = self.run[kept], self.stop[kept], self.board[kept], self.alight[kept]
        times = self.arrive[kept], self.depart[kept]
        return SearchNetwork(run, first_of_each(run), stop, *times, board, alight, self.walks, self.changes)

    def mirrored(self) -> "SearchNetwork":
        """The network with time reversed: each journey becomes one from its end to its start."""
        run, stop, board, alight = self.run[::-1], self.stop[::-1], self.alight[::-1], self.board[::-1]
        times = -self.depart[::-1], -self.arrive[::-1]
        walks = Footpaths(self.walks.end, self.walks.begin, self.walks.seconds)
        return SearchNetwork(run, first_of_each(run), stop, *times, board, alight, walks, self.changes)

    def walked(self, times: Narrow) -> Narrow:
        """The earliest time at which a walk reaches each stop, given the times at which the walks' starts are left.

        It is NEVER for a stop at which no vehicle can be boarded.
        """
        walks, begins, ends = self.walks_to_vehicles
        return least_of(times[walks.begin] + walks.seconds, begins, ends, len(times))

    def carried(self, ready: Narrow) -> Narrow:
        """The least time of each stop at which a ride ends there, if travellers are ready to board at these times."""
        order, begins, stops = self.events_by_stop
        times = np.where(self.aboard(ready) & self.alight, self.arrive, np.int32(NEVER))
        return least_of(times[order], begins, stops, len(ready))

    def aboard(self, ready: Narrow) -> Mask:
        """Whether a traveller who boarded at an earlier event is in the vehicle at each event."""
        places, ridden = np.arange(len(self.stop), dtype=np.int32), np.zeros(len(self.stop), dtype=np.bool_)
        caught = np.where(self.board & (ready[self.stop] <= self.depart), places, np.int32(-1))
        np.maximum.accumulate(caught, out=caught)
        np.greater_equal(caught[:-1], self.begin[1:], out=ridden[1:])
        return ridden


def first_of_each(run: Narrow) -> Narrow:
    """Of each event the place of the first one of its run."""
    firsts = np.arange(len(run), dtype=np.int32)
    firsts[1:][run[1:] == run[:-1]] = 0
    return np.maximum.accumulate(firsts, out=firsts)


def groups_of(keys: Codes) -> tuple[Places, Places, Places]:
    """An order by keys, which are places of stops, where each key begins in it, and these keys."""
    order = np.argsort(keys.astype(np.uint16) if keys.max(initial=0) < FEW else keys, kind="stable")
    ordered = keys[order]
    begins = np.flatnonzero(np.concatenate([[True], ordered[1:] != ordered[:-1]])[: len(ordered)])
    return order, begins, ordered[begins]


def least_of(values: Codes, begins: Places, keys: Places, count: int) -> Narrow:
    """The least value of each key, NEVER for a key without values.

    The values are sorted by key; those of `keys[i]` begin at `begins[i]`.
    """
    least = np.full(count, NEVER, np.int32)
    if len(keys):
        least[keys] = np.minimum(np.minimum.reduceat(values, begins), NEVER)
    return least


@dataclass(frozen=True)
class Schedule:
    """All runs of some days from a time on, with walks and change times."""

    events: Events  # of trips
    runs: Runs
    walks: Footpaths
    changes: Whole  # seconds at each stop
    first: int
    more: Sequence[tuple[Events, Runs]] = ()  # of further trips between the same stops; their runs are numbered on

    def within(self, first: int, last: int) -> SearchNetwork:
        """The network of what departs, or arrives, between two times."""
        chosen, count = list[Columns](), 0
        for events, runs in ((self.events, self.runs), *self.more):
            chosen += chosen_events(events, runs, max(first, self.first), last, count)
            count += len(runs.trip)
        run, stop, arrive, depart, board, alight = (np.concatenate(some) for some in zip(*chosen))
        begin = first_of_each(run)
        return SearchNetwork(run, begin, stop, arrive, depart, board, alight, self.walks, self.changes)


def chosen_events(events: Events, runs: Runs, first: int, last: int, count: int) -> Iterator[Columns]:
    """Yields the events of runs that depart or arrive between two times, some runs at a time.

    Runs are numbered from `count` on. The first columns are empty, so that there is always one.
    """
    trip, shift = runs.trip, runs.shift
    chosen = np.flatnonzero((events.latest[trip] + shift >= first) & (events.earliest[trip] + shift <= last))
    ends = np.cumsum(events.counts[trip[chosen]])
    cuts = np.searchsorted(ends, np.arange(0, ends[-1] if len(ends) else 0, CHOSEN_AT_ONCE)).tolist()
    for begin, end in zip([0, *cuts], [*cuts, len(chosen)]):
        run = chosen[begin:end]
        lengths, begins = events.counts[trip[run]], events.begins[trip[run]]
        place = np.arange(int(lengths.sum())) + np.repeat(begins - np.cumsum(lengths) + lengths, lengths)
        later, number = np.repeat(shift[run], lengths), np.repeat(run + count, lengths)
        arrive, depart = events.arrive[place] + later, events.depart[place] + later
        kept = (depart >= first) & (arrive <= last)
        at = place[kept]
        times = number[kept].astype(np.int32), arrive[kept].astype(np.int32), depart[kept].astype(np.int32)
        yield times[0], events.stop[at], times[1], times[2], events.board[at], events.alight[at]
