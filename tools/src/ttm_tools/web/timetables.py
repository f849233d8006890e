"""The timetable of the network that answers: that of the feed, and that of the trips which a plan adds to it.

Both are views of what plans hold in memory, so no feed is read again.
"""

from dataclasses import dataclass
from functools import cached_property

import numpy as np

from ..core.arrays import Mask, Whole
from ..gtfs.call_numbers import CALLS, CallNumbers
from ..gtfs.columns import Codes, coded, match_values
from ..gtfs.feeds import Feed
from ..gtfs.fields import number
from ..gtfs.footpaths import Footpaths, closed, direct_walks
from ..gtfs.stops import Stops
from ..gtfs.tables import Table, joined, unnumbered
from ..gtfs.timetable import ALLOWED, Events, NOT_ALLOWED, Runs, Timetable, headways_of, narrow_events
from ..plans.base import Base
from ..plans.new_records import new_days, timed, together
from ..plans.writing import Written

CALENDARS, DATES = "calendar.txt", "calendar_dates.txt"


@dataclass(frozen=True)
class Timetables:
    """The timetable of a feed, and behind it that of a plan's own trips if there are any; both have the same stops."""

    parts: list[Timetable]
    footpaths: str | None  # the file
    limit: int  # seconds, the longest walk

    @property
    def stops(self) -> list[str]:
        return self.parts[0].stops

    @cached_property
    def called(self) -> Mask:
        called = np.zeros(len(self.stops), dtype=np.bool_)
        for part in self.parts:
            called[part.events.stop] = True
        return called

    @cached_property
    def from_called(self) -> tuple[Footpaths, Whole]:
        """The walks from these stops, and the change time at each stop."""
        direct, changes = self.direct()
        return closed(direct, self.limit, self.called), changes

    def direct(self) -> tuple[Footpaths, Whole]:
        return direct_walks(self.parts[0], self.footpaths, self.limit)

    def walks(self, start: int) -> tuple[Footpaths, Whole]:
        """The walks of journeys from a stop, and the change time at each stop."""
        if self.called[start]:
            return self.from_called
        direct, changes = self.direct()
        begins = self.called.copy()
        begins[start] = True
        return closed(direct, self.limit, begins), changes


@dataclass(frozen=True)
class Ran:
    """A run of a trip of some timetable, which is one of a schedule's."""

    timetable: Timetable
    trip: int  # its number
    shift: int  # seconds that are added to the trip's times


def run_of(parts: list[tuple[Timetable, Runs]], run: int) -> Ran:
    """A run by its number among those of all parts."""
    for timetable, runs in parts:
        if run < len(runs.trip):
            return Ran(timetable, int(runs.trip[run]), int(runs.shift[run]))
        run -= len(runs.trip)
    raise AssertionError("no part has the run")


def timetable_of(base: Base, all_stops: Stops) -> Timetable:
    """The timetable of the feed that plans begin from, among its stops and those of the plan."""
    calls = CallNumbers(base.begins, base.row, base.stop, base.arrive, base.depart, base.records)
    events, stops = narrow_events(calls, base.feed.tables[CALLS]), base.places.identifiers
    return Timetable(base.feed, all_stops, stops, base.trips, base.routes, events, headways_of(base.feed, base.trips))


def own_timetable(written: Written, all_stops: Stops) -> Timetable | None:
    """The timetable of the trips that a plan's scenarios add, as they are written; None where they add none."""
    base, own = written.base, written.own
    if not own:
        return None
    trips, routes = [one.name for one in own], [one.route for one in own]
    services = (one.trip.service for one in own)
    columns = {"route_id": coded(routes), "service_id": coded(services), "trip_id": coded(trips)}
    tables = {"trips.txt": Table("trips.txt", columns, unnumbered(len(own)))}
    tables[DATES] = joined(base.feed.get(DATES), new_days(base, own))
    if CALENDARS in base.feed.tables:
        tables[CALENDARS] = base.feed.tables[CALENDARS]
    stated = {place: one.trip.headways for place, one in enumerate(own) if one.trip.headways}
    headways = {place: [(row.start, row.end, row.seconds) for row in rows] for place, rows in stated.items()}
    feed = Feed(base.feed.name, tables)
    return Timetable(feed, all_stops, base.places.identifiers, trips, routes, own_events(written), headways)


def own_events(written: Written) -> Events:
    base, own = written.base, written.own
    begins = np.cumsum([0, *(len(one.trip.stop) for one in own)])
    stop, row = (together([getattr(one.trip, name) for one in own]) for name in ("stop", "row"))
    arrive, depart = (together([timed(one.trip, name) for one in own]) for name in ("arrive", "depart"))
    board, alight = (allowed(base.feed.tables[CALLS], name, row) for name in ALLOWED)
    times = arrive.astype(base.arrive.dtype), depart.astype(base.depart.dtype)
    return Events(begins, stop.astype(base.stop.dtype), *times, board, alight)


def allowed(table: Table, name: str, rows: Codes) -> Mask:
    """Whether records of stop_times.txt allow boarding, or alighting; a call without a record allows both."""
    found = np.ones(len(rows), dtype=np.bool_)
    stated = np.flatnonzero(rows >= 0)
    found[stated] = match_values(table[name].at(rows[stated]), lambda text: number(text) != NOT_ALLOWED)
    return found
