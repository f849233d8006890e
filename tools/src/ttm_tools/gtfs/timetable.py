"""A feed's timetable in columns: trips with their events, headways, and runs on service days.

All as docs/explanation/definitions.md says. What `ttm` refuses isn't looked for here: a feed is one that it takes.
"""

import datetime
import os
from dataclasses import dataclass
from functools import cached_property
from typing import Callable, Sequence

import numpy as np

from ..core.arrays import Mask, Whole
from ..core.tables import rows
from .call_numbers import CallNumbers
from .calls import begins_of, calls_of
from .columns import Codes, match_values, one_of, positions_of, times_of, values_of
from .feeds import Feed, read_files
from .fields import number
from .service_days import services_on
from .stops import Stops
from .tables import Table

DAY = 86_400
NOT_ALLOWED = 1  # a pickup_type or drop_off_type
ALLOWED = ("pickup_type", "drop_off_type")  # columns that say whether boarding and alighting are allowed


@dataclass(frozen=True)
class Events:
    """The events of all trips, trip after trip, each trip's in the order in which it makes them."""

    begins: Whole  # where the events of each trip begin, and behind the last one how many there are
    stop: Codes  # places among the stops at which vehicles call
    arrive: Codes  # seconds since midnight of the service day
    depart: Codes
    board: Mask  # whether boarding is allowed
    alight: Mask

    @cached_property
    def counts(self) -> Whole:
        """How many events each trip has."""
        return np.diff(self.begins)

    @cached_property
    def earliest(self) -> Whole:
        """The least arrival of each trip; 0 for one without events."""
        return self.of_trips(np.minimum.reduceat, self.arrive)

    @cached_property
    def latest(self) -> Whole:
        """The greatest departure of each trip; 0 for one without events."""
        return self.of_trips(np.maximum.reduceat, self.depart)

    def of_trips(self, reduceat: Callable[[Codes, Whole], Whole], times: Codes) -> Whole:
        numbers, called = np.zeros(len(self.counts), np.int64), np.flatnonzero(self.counts)
        if len(called):
            numbers[called] = reduceat(times, self.begins[called])
        return numbers


@dataclass(frozen=True)
class Timetable:
    """What a feed says, with its trips in the order of trips.txt."""

    feed: Feed  # its calendars, headways and transfers
    all_stops: Stops  # stations too
    stops: list[str]  # at which vehicles call, in the order of stops.txt
    trips: list[str]
    routes: list[str]  # of each trip
    events: Events
    headways: dict[int, list[tuple[int, int, int]]]  # by trip: start, end (not included), and seconds between

    @property
    def folder(self) -> str:
        return os.path.dirname(self.all_stops.path)


def read_timetable(all_stops: Stops) -> Timetable:
    """The timetable of the feed that has these stops."""
    files = ("trips.txt", "stop_times.txt", "frequencies.txt", "calendar.txt", "calendar_dates.txt", "transfers.txt")
    feed = read_files(os.path.dirname(all_stops.path), files)
    stops = [name for name, kind in zip(all_stops.identifiers, all_stops.kinds.tolist()) if kind == 0]
    trips, routes = (feed.tables["trips.txt"].texts(name) for name in ("trip_id", "route_id"))
    events = events_of(feed.tables.pop("stop_times.txt"), trips, stops)
    return Timetable(feed, all_stops, stops, trips, routes, events, headways_of(feed, trips))


def narrow_events(calls: CallNumbers, table: Table) -> Events:
    """The events of some calls; the columns of their file say where boarding and alighting are allowed."""
    allowed = [match_values(table[name], lambda text: number(text) != NOT_ALLOWED) for name in ALLOWED]
    board, alight = allowed if isinstance(calls.rows, range) else (column[calls.rows] for column in allowed)
    return Events(calls.begins, calls.stop, calls.arrive, calls.depart, board, alight)


def events_of(table: Table, trips: Sequence[str], stops: Sequence[str]) -> Events:
    """The events of stop_times.txt; a trip with a record that names no stop has none."""
    calls = calls_of(table, trips)
    stop = positions_of(table["stop_id"], stops)[calls.rows]
    allowed = ((values_of(table[name], number) != NOT_ALLOWED)[calls.rows] for name in ALLOWED)
    return Events(begins_of(calls, len(trips)), stop, *calls.filled(), *allowed)


def headways_of(feed: Feed, trips: Sequence[str]) -> dict[int, list[tuple[int, int, int]]]:
    """The rows of frequencies.txt by trip."""
    table, found = feed.get("frequencies.txt"), dict[int, list[tuple[int, int, int]]]()
    start, end = (times_of(table[name]).tolist() for name in ("start_time", "end_time"))
    seconds = values_of(table["headway_secs"], number).tolist()
    for trip, row in zip(positions_of(table["trip_id"], trips).tolist(), zip(start, end, seconds)):
        found.setdefault(trip, []).append(row)
    return found


@dataclass(frozen=True)
class Edits:
    """What a scenario file changes."""

    routes: set[str]  # that are removed
    trips: set[str]
    shifts: dict[str, int]  # seconds by trip


def read_edits(path: str | None) -> Edits:
    """A scenario file; without one nothing changes."""
    edits = Edits(set(), set(), {})
    for _, (action, name, seconds) in rows(path, ["action", "id"], ["seconds"]) if path is not None else ():
        if action == "shift_trip":
            edits.shifts[name] = edits.shifts.get(name, 0) + int(seconds)
        else:
            (edits.routes if action == "remove_route" else edits.trips).add(name)
    return edits


@dataclass(frozen=True)
class Runs:
    """Each run of a trip, by its number and what is added to its times for those on the axis."""

    trip: Whole
    shift: Whole


def runs_of(timetable: Timetable, date: datetime.date, days: tuple[int, int], edits: Edits) -> Runs:
    """The runs that a scenario keeps, some days before a date to some after; the axis begins on the first day."""
    table = timetable.feed.tables["trips.txt"]
    gone = one_of(table["route_id"], edits.routes) | one_of(table["trip_id"], edits.trips)
    kept = (timetable.events.counts > 0) & ~gone
    shifts = np.array([edits.shifts.get(name, 0) for name in timetable.trips] if edits.shifts else [], np.int64)
    trips, moved = [np.zeros(0, np.int64)], [np.zeros(0, np.int64)]
    for day in range(-days[0], days[1] + 1):
        running = services_on(timetable.feed, date + datetime.timedelta(days=day))
        trip, more = departures_of(timetable, np.flatnonzero(kept & one_of(table["service_id"], running)))
        trips.append(trip)
        moved.append(more + DAY * (days[0] + day) + (shifts[trip] if len(shifts) else 0))
    return Runs(np.concatenate(trips), np.concatenate(moved))


def departures_of(timetable: Timetable, trips: Whole) -> tuple[Whole, Whole]:
    """Some trips, each as often as it runs on a day, and what is added to its own times in each of its runs."""
    if not timetable.headways:
        return trips, np.zeros(len(trips), np.int64)
    own = [added_times(timetable, trip) for trip in trips.tolist()]
    return np.repeat(trips, [len(some) for some in own]), np.array([time for some in own for time in some], np.int64)


def added_times(timetable: Timetable, trip: int) -> list[int]:
    """What is added to a trip's own times in each of its runs of a day."""
    if trip not in timetable.headways:
        return [0]
    first = int(timetable.events.depart[timetable.events.begins[trip]])
    return [time - first for start, end, headway in timetable.headways[trip] for time in range(start, end, headway)]
