"""The journey behind a cell: a second search, by the definitions of docs/explanation/definitions.md, apart from `ttm`.

Each round of rides computes the earliest time at which a ride ends at each stop, from all events, by arrays. A later
departure arrives nowhere earlier. So once the last departure that gets there is known, the search of those before it
ends at its arrival, and leaves out what the first of them can't catch. None of this is proved.
"""

from bisect import bisect_right
from dataclasses import dataclass
from functools import cached_property

import numpy as np

from ..core.arrays import Narrow
from .network import NEVER, Schedule, SearchNetwork

AT_ONCE = 30  # departures that share a part of the network
NEAR = (5400, 4 * 3600)  # seconds after the last departure that are searched first


@dataclass(frozen=True)
class Search:
    """From a stop at a time, with a maximum number of rides: after each number of rides the least time at which the
    last of them ends at each stop; who hasn't ridden is at the origin.
    """

    network: SearchNetwork
    origin: int
    departure: int
    rides: int

    @cached_property
    def ridden(self) -> list[Narrow]:
        times = np.full(len(self.network.changes), NEVER, np.int32)
        times[self.origin] = self.departure
        rounds = [times]
        for _ in range(self.rides):
            rounds.append(np.minimum(rounds[-1], self.network.carried(self.ready(rounds[-1]))))
        return rounds

    def ready(self, times: Narrow) -> Narrow:
        """When a traveller is ready to board: after the change time; after a walk, and at the start, at once."""
        changed = np.minimum(times + self.network.changes, NEVER).astype(np.int32)
        times_ready: Narrow = np.minimum(changed, self.network.walked(times))
        times_ready[self.origin] = min(times_ready[self.origin], self.departure)
        return times_ready

    def taken(self) -> SearchNetwork:
        """The part of the network that a later departure can use."""
        return self.network.taken_by(self.ready(self.ridden[-2]))

    def arrival(self, stop: int) -> int | None:
        """The least time at which a journey ends at a stop."""
        last, walks = self.ridden[-1], self.network.walks
        there = np.flatnonzero(walks.end == stop)
        on_foot = last[walks.begin[there]] + walks.seconds[there]
        best = min(int(last[stop]), int(on_foot.min(initial=NEVER)))
        return best if best < NEVER else None


@dataclass(frozen=True)
class Leg:
    """A walk, or a ride in a run."""

    start: int  # places of stops
    end: int
    begin: int  # seconds on the axis: when the walk begins, or the vehicle departs
    finish: int
    run: int | None  # None for a walk
    change: int  # seconds that pass before boarding is possible, after another vehicle


def journey(search: Search, stop: int) -> list[Leg]:
    """A journey of the least duration, with as few rides as that takes, and a walk only where it needs one."""
    arrival, legs = search.arrival(stop), list[Leg]()
    if arrival is None:
        return legs
    walks = search.network.walks
    for rides, times in enumerate(search.ridden):
        if times[stop] == arrival:
            return ridden_to(search, stop, rides)
        walk = np.flatnonzero((walks.end == stop) & (times[walks.begin] + walks.seconds == arrival))
        if len(walk):
            start, seconds = int(walks.begin[walk[0]]), int(walks.seconds[walk[0]])
            last = Leg(start, stop, arrival - seconds, arrival, None, 0)
            return [*ridden_to(search, start, rides), last]
    raise AssertionError("no round has the arrival")


def ridden_to(search: Search, stop: int, rides: int) -> list[Leg]:
    """The legs of a journey that ends at a stop with a ride, as early as this number of rides allows; empty at the
    origin.
    """
    arrival = search.ridden[rides][stop]
    rides = next(count for count, times in enumerate(search.ridden) if times[stop] == arrival)
    if rides == 0:
        return []
    network, before = search.network, search.ridden[rides - 1]
    ready = search.ready(before)
    ends = network.aboard(ready) & network.alight & (network.stop == stop) & (network.arrive == arrival)
    end = int(np.flatnonzero(ends)[0])
    own = np.arange(int(network.begin[end]), end)
    caught = own[network.board[own] & (ready[network.stop[own]] <= network.depart[own])]
    ways = [way_to(search, before, int(network.stop[place]), int(network.depart[place])) for place in caught.tolist()]
    chosen = min(range(len(ways)), key=lambda place: (ways[place][1], -place))
    (start, seconds), at = ways[chosen], int(caught[chosen])
    boarded, run = int(network.stop[at]), int(network.run[at])
    begin = int(before[start])
    walk = [Leg(start, boarded, begin, begin + seconds, None, 0)] if start != boarded else []
    first = walk or (start == search.origin and begin == search.departure)
    ride = Leg(boarded, stop, int(network.depart[at]), int(arrival), run, 0 if first else int(network.changes[boarded]))
    return [*ridden_to(search, start, rides - 1), *walk, ride]


def way_to(search: Search, times: Narrow, stop: int, departure: int) -> tuple[int, int]:
    """The stop from which a walk gets there in time, and its seconds: the shortest of these walks."""
    stays = times[stop] == search.departure and stop == search.origin
    if stays or times[stop] + search.network.changes[stop] <= departure:
        return stop, 0
    walks = search.network.walks
    found = np.flatnonzero((walks.end == stop) & (times[walks.begin] + walks.seconds <= departure))
    best = found[np.argmin(walks.seconds[found])]
    return int(walks.begin[best]), int(walks.seconds[best])


def durations(schedule: Schedule, origin: int, stop: int, departures: list[int], rides: int) -> list[int | None]:
    """The least duration for each departure, ascending; None if it never arrives."""
    durations_found: list[int | None] = [None] * len(departures)
    count, last = arriving(schedule, origin, stop, departures, rides)
    if count:
        network = between(schedule.within(departures[0], last), origin, departures[0], stop, last, rides)
        for begin in reversed(range(0, count, AT_ONCE)):
            some = departures[begin : min(count, begin + AT_ONCE)]
            ends = arrivals(network.within(some[0], last), origin, stop, some, rides)
            durations_found[begin : begin + len(some)] = [end - departure for end, departure in zip(ends, some)]
            last = ends[0]
    return durations_found


def between(network: SearchNetwork, origin: int, departure: int, stop: int, arrival: int, rides: int) -> SearchNetwork:
    """The part of the network that journeys between a departure and an arrival can use."""
    network = Search(network, origin, departure, rides).taken()
    return Search(network.mirrored(), stop, -arrival, rides).taken().mirrored()


def arriving(schedule: Schedule, origin: int, stop: int, departures: list[int], rides: int) -> tuple[int, int]:
    """How many of the departures, the first ones, get to a stop, and when the last of these does."""
    for near in NEAR:
        end = departures[-1] + near
        last = Search(schedule.within(departures[-1], end), origin, departures[-1], rides).arrival(stop)
        if last is not None and last <= end:
            return len(departures), last
    network = schedule.within(departures[0], NEVER)
    first = Search(network, origin, departures[0], rides)
    found = first.arrival(stop)
    if found is None:
        return 0, 0
    network, low, high = first.taken(), 0, len(departures) - 1  # `low` gets there
    while low < high:
        place = (low + high + 1) // 2
        arrival = Search(network, origin, departures[place], rides).arrival(stop)
        low, high, found = (low, place - 1, found) if arrival is None else (place, high, arrival)
    return low + 1, found


def arrivals(network: SearchNetwork, origin: int, stop: int, departures: list[int], rides: int) -> list[int]:
    """The earliest arrival at a stop for each of some departures, ascending, all of which get there.

    A backward search from an arrival finds the last departure that achieves it.
    """
    arrival_times, back = list[int](), network.mirrored()
    while len(arrival_times) < len(departures):
        arrival = Search(network, origin, departures[len(arrival_times)], rides).arrival(stop)
        assert arrival is not None
        latest = Search(back, stop, -arrival, rides).arrival(origin)
        assert latest is not None
        arrival_times += [arrival] * (bisect_right(departures, -latest) - len(arrival_times))
    return arrival_times


def cell(durations: list[int | None], share: int) -> int | None:
    """The least duration that this percentage of all departures achieves."""
    reached = sorted(time for time in durations if time is not None)
    rank = -(-share * len(durations) // 100)
    return reached[rank - 1] if rank <= len(reached) else None
