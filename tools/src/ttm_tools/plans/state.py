"""The trips of a scenario while its actions are carried out: those of the feed, kept or shifted, and its own."""

from dataclasses import dataclass, field, replace

import numpy as np

from ..core.arrays import Mask, Whole
from ..core.limits import LAST_TIME
from ..core.times import as_clock
from ..core.toml_file import Entry
from .base import Base, Headway, free

LAST_LABEL = 2_000_000  # seconds from which on `ttm` takes no times of a day


@dataclass(frozen=True)
class Trip:
    """A trip with its calls."""

    label: str  # its name; a trip that replaces one of the feed has the name of that one
    source: int  # the trip of the feed whose other fields it takes over; -1 for a new line's
    route: str
    service: str
    direction: str
    stop: Whole  # places among the stops
    arrive: Whole  # seconds since midnight; with headways only their differences count
    depart: Whole
    row: Whole  # the record of stop_times.txt that each call takes other fields from, NO_ROW for none
    headways: tuple[Headway, ...] = ()
    redrawn: bool = False  # whether it runs along another line than its source

    @property
    def departures(self) -> list[int]:
        """When it leaves its first stop."""
        if self.headways:
            return [time for headway in self.headways for time in headway.departures]
        return [int(self.depart[0])]

    @property
    def seconds(self) -> int:
        """From the first departure to the last arrival."""
        return int(self.arrive[-1] - self.depart[0])

    def moved(self, seconds: int) -> "Trip":
        """The same trip, later by some seconds."""
        if self.headways:
            return self.leaving(seconds)
        return replace(self, arrive=self.arrive + seconds, depart=self.depart + seconds)

    def leaving(self, seconds: int) -> "Trip":
        """The same trip, with headways that are later by some seconds; its own times stay."""
        return replace(self, headways=tuple(headway.moved(seconds) for headway in self.headways))


@dataclass(frozen=True)
class Change:
    """What an action did to a trip."""

    what: str  # taken out, shifted, changed or added
    trip: str  # its name before; "" for a new trip
    now: str  # and afterwards, a label
    route: str
    seconds: int = 0  # of a shift


@dataclass
class State:
    """A scenario's trips."""

    base: Base
    name: str
    kept: Mask = field(init=False)  # of the feed's trips
    shift: Whole = field(init=False)  # seconds
    own: dict[str, Trip] = field(default_factory=dict)  # by their labels
    lines: dict[str, Entry] = field(default_factory=dict)  # new routes, with the actions that add them
    changes: list[Change] = field(default_factory=list)  # of the action that is carried out
    used: set[str] = field(default_factory=set)  # labels

    def __post_init__(self) -> None:
        self.kept = self.base.lengths > 0
        self.shift = np.zeros(len(self.base.trips), dtype=np.int64)
        self.calls = self.base.calls_at.copy()
        self.trips, self.events = int(self.kept.sum()), len(self.base.stop)

    def counts(self) -> dict[str, int]:
        """How many trips with calls it has, stops at which these call, and calls."""
        return {"trips": self.trips, "stops": int(np.count_nonzero(self.calls)), "events": self.events}

    def trip(self, place: int) -> Trip:
        """A trip of the feed as the scenario has it."""
        base = self.base
        span = slice(base.begins[place], base.begins[place + 1])
        columns = base.stop, base.arrive, base.depart, base.row
        stop, arrive, depart, row = (np.array(column[span], dtype=np.int64) for column in columns)
        about = base.routes[place], base.services[place], base.directions[place]
        headways = base.headways.get(place, ())
        trip = Trip(base.trips[place], place, *about, stop, arrive, depart, row, headways)
        seconds = int(self.shift[place])
        return trip.moved(seconds) if seconds else trip

    def of_route(self, route: str) -> list[Trip]:
        """The trips of a route, those of the feed first."""
        places = self.base.by_route.get(route, np.zeros(0, np.int64))
        own = [trip for trip in self.own.values() if trip.route == route]
        return [*map(self.trip, places[self.kept[places]].tolist()), *own]

    def drop(self, trip: Trip) -> None:
        self.leave(trip)
        self.changes.append(Change("taken out", trip.label, "", trip.route))

    def leave(self, trip: Trip) -> None:
        if trip.label in self.own:
            del self.own[trip.label]
        else:
            self.kept[trip.source] = False
        self.count(trip, -1)

    def count(self, trip: Trip, by: int) -> None:
        np.add.at(self.calls, trip.stop, by)
        self.trips += by
        self.events += by * len(trip.stop)

    def add(self, trip: Trip) -> None:
        """Puts a new trip in; its label becomes one that no other has."""
        added = replace(trip, label=free(trip.label, self.used, self.base.numbers))
        self.put(added)
        self.changes.append(Change("added", "", added.label, added.route))

    def put(self, trip: Trip) -> None:
        self.used.add(trip.label)
        self.own[trip.label] = trip
        self.count(trip, 1)

    def change(self, before: Trip, after: Trip) -> None:
        self.leave(before)
        self.put(after)
        self.changes.append(Change("changed", before.label, after.label, after.route))

    def move(self, trip: Trip, seconds: int) -> None:
        if trip.label in self.own:
            self.own[trip.label] = trip.moved(seconds)
        else:
            self.shift[trip.source] += seconds
        self.changes.append(Change("shifted", trip.label, trip.label, trip.route, seconds))


def in_range(entry: Entry, trip: Trip) -> Trip:
    """The trip, all of whose times a feed can state, and `ttm` takes."""
    departures = trip.departures
    first, last = (min(departures), max(departures)) if departures else (0, 0)
    begin = first if trip.headways else int(trip.arrive.min())
    end = last if trip.headways else int(trip.depart.max())
    if begin < 0 or end > LAST_TIME or last + int(trip.depart[-1] - trip.depart[0]) >= LAST_LABEL:
        time = f"-{as_clock(-begin)}" if begin < 0 else as_clock(end)
        message = f"trip {trip.label} would be under way at {time}"
        raise entry.fault(f"{message}; times go from 0:00:00 to 167:59:59", "do", str(entry.values.get("do")))
    if (trip.depart < trip.arrive).any() or (trip.arrive[1:] < trip.depart[:-1]).any():
        raise entry.fault(f"makes times of trip {trip.label} go back", "do", str(entry.values.get("do")))
    return trip
