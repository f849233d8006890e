"""The feed that a plan begins from, in columns: its stops and those that the plan adds, and its trips with their calls.

It is read as `ttm-tools prepare` reads a feed, and one that `ttm` would refuse is refused. A plan takes some 200 bytes
for each stop time that is written in the end.
"""

import datetime
from dataclasses import dataclass, field
from functools import cached_property
from pathlib import Path
from typing import Container, Sequence

import numpy as np

from ..core.arrays import Narrow, Whole
from ..core.errors import InputError
from ..core.limits import MOST_STOPS
from ..core.text import display_text
from ..core.toml_file import Entry
from ..core.toml_values import decimal
from ..gtfs.call_numbers import CALLS, CallNumbers, CallReader, narrow
from ..gtfs.calls import begins_of, calls_of
from ..gtfs.check import check
from ..gtfs.columns import Codes, positions_of, values_of
from ..gtfs.fault_report import refuse
from ..gtfs.feeds import Feed, is_stop, read_feed, read_folder, refuse_planned
from ..gtfs.fields import date, number, time
from ..gtfs.likely import unclosed
from ..gtfs.service_days import Days, MOST_DAYS, days_of, ordinals
from ..gtfs.stops import Stops, place_of

BLOCK = 1 << 20  # calls that are counted at once
NO_ROW = -1  # for a call that no record of the feed states


@dataclass(frozen=True)
class Headway:
    """A row of frequencies.txt: departures from the start on, a headway apart, strictly before the end."""

    start: int
    end: int
    seconds: int
    row: int  # the record of the feed

    @property
    def departures(self) -> range:
        return range(self.start, self.end, self.seconds)

    def moved(self, seconds: int) -> "Headway":
        """The same departures, later by some seconds; the end is the least that leaves them all."""
        if not self.departures:
            return self
        return Headway(self.start + seconds, self.departures[-1] + 1 + seconds, self.seconds, self.row)


def free(name: str, *taken: Container[str]) -> str:
    """A name that isn't taken."""
    while any(name in names for names in taken):
        name += "'"
    return name


@dataclass
class Base:
    """A feed, and what a plan's scenarios begin with."""

    feed: Feed
    folder: Path
    places: Stops  # the feed's at which vehicles call, in its order, and then the plan's own
    old_stops: int  # how many of the stops are the feed's
    trips: list[str]
    routes: list[str]  # of each trip
    services: list[str]
    begins: Whole  # where each trip's calls begin, and behind the last one how many there are
    stop: Codes  # of each call, a place among the stops
    arrive: Narrow
    depart: Narrow
    row: Narrow | range  # the record of stop_times.txt
    records: int  # of that file
    headways: dict[int, tuple[Headway, ...]] = field(default_factory=dict)
    new_services: dict[str, list[datetime.date]] = field(default_factory=dict)  # of the plan, with their days

    @cached_property
    def lengths(self) -> Whole:
        """How many calls each trip has."""
        return np.diff(self.begins)

    @cached_property
    def calls_at(self) -> Whole:
        """How many calls there are at each stop."""
        calls = np.zeros(len(self.places.identifiers), np.int64)
        for begin in range(0, len(self.stop), BLOCK):
            calls += np.bincount(self.stop[begin : begin + BLOCK], minlength=len(calls))
        return calls

    @cached_property
    def numbers(self) -> dict[str, int]:
        """Where each trip stands."""
        return {name: place for place, name in enumerate(self.trips)}

    @cached_property
    def by_route(self) -> dict[str, Whole]:
        """The trips of each route of the feed."""
        trips: dict[str, list[int]] = {name: [] for name in self.feed.tables["routes.txt"].texts("route_id")}
        for place, route in enumerate(self.routes):
            trips[route].append(place)
        return {name: np.array(places, dtype=np.int64) for name, places in trips.items()}

    @cached_property
    def route_types(self) -> dict[str, int]:
        """The route_type of each route of the feed."""
        table = self.feed.tables["routes.txt"]
        return dict(zip(table.texts("route_id"), values_of(table["route_type"], number).tolist()))

    @cached_property
    def first_agency(self) -> str:
        """The agency of the feed's first route, which new lines have where they name none."""
        table = self.feed.tables["routes.txt"]
        return table.text("agency_id", 0) if len(table) else ""

    @cached_property
    def directions(self) -> list[str]:
        """The direction_id of each trip, empty where none is stated."""
        return self.feed.tables["trips.txt"].texts("direction_id")

    @cached_property
    def shapes(self) -> list[str]:
        """The shape of each trip, empty where none is named."""
        return self.feed.tables["trips.txt"].texts("shape_id")

    def stops_of(self, trip: int) -> list[int]:
        stops: list[int] = self.stop[self.begins[trip] : self.begins[trip + 1]].tolist()
        return stops

    @cached_property
    def short_names(self) -> dict[str, str]:
        """The routes by the names that people use."""
        table = self.feed.tables["routes.txt"]
        pairs = [zip(table.texts(name), table.texts("route_id")) for name in ("route_long_name", "route_short_name")]
        return {display_text(name): route for some in pairs for name, route in some if name}

    @cached_property
    def days(self) -> Days:
        return days_of(self.feed)

    @cached_property
    def service_numbers(self) -> dict[str, int]:
        """Where each service of the feed stands among the days."""
        return {name: place for place, name in enumerate(self.days.services)}

    @cached_property
    def endless(self) -> set[str]:
        """Services with a row of the calendar that is too long for their days to be listed."""
        table = self.feed.get("calendar.txt")
        start, end = (ordinals(values_of(table[name], date)) for name in ("start_date", "end_date"))
        long = (start < 1) | (end - start >= MOST_DAYS)
        names = table.texts("service_id")
        return {names[row] for row in np.flatnonzero(long)} if self.days.runs.shape[1] else set(names)


def read_base(folder: str, new_stops: Sequence[Entry]) -> Base:
    """Reads the folder of a feed; one that `ttm` refuses is reported by its first fault."""
    path = Path(folder)
    if not path.is_dir():
        raise InputError(folder, "not the folder of a feed (unzip it first)")
    refuse_planned(path)
    feed = read_feed(path, path)
    refuse(folder, check(feed), "ttm-tools prepare reports and repairs errors", unclosed(feed))
    table, trips, places = feed.tables[CALLS], feed.tables["trips.txt"].texts("trip_id"), read_places(feed, new_stops)
    calls = calls_of(table, trips)
    stop = positions_of(table["stop_id"], places.places)[calls.rows]
    columns = [narrow(column) for column in (calls.rows, stop, *calls.filled())]
    numbers = CallNumbers(begins_of(calls, len(trips)), columns[0], columns[1], columns[2], columns[3], len(table))
    return base_of(feed, path, places, len(places.identifiers) - len(new_stops), numbers)


def read_taken_base(folder: str, new_stops: Sequence[Entry]) -> Base:
    """Reads the folder of a feed that `ttm` has taken: no look for faults, some 20 bytes a stop time."""
    path = Path(folder)
    feed = read_folder(path, (CALLS,))
    places, trips = read_places(feed, new_stops), feed.tables["trips.txt"].texts("trip_id")
    numbers, feed.tables[CALLS] = CallReader(path / CALLS, trips, places.places).read()
    return base_of(feed, path, places, len(places.identifiers) - len(new_stops), numbers)


def base_of(feed: Feed, path: Path, places: Stops, old_stops: int, calls: CallNumbers) -> Base:
    table = feed.tables["trips.txt"]
    trips, routes, services = (table.texts(name) for name in ("trip_id", "route_id", "service_id"))
    columns = (calls.begins, calls.stop, calls.arrive, calls.depart, calls.rows, calls.records)
    base = Base(feed, path, places, old_stops, trips, routes, services, *columns)
    base.headways = read_headways(feed, base.numbers)
    return base


def read_headways(feed: Feed, numbers: dict[str, int]) -> dict[int, tuple[Headway, ...]]:
    table = feed.get("frequencies.txt")
    start, end = (values_of(table[name], time).tolist() for name in ("start_time", "end_time"))
    seconds = values_of(table["headway_secs"], number).tolist()
    headways: dict[int, tuple[Headway, ...]] = {}
    for row, trip in enumerate(table.texts("trip_id")):
        place = numbers[trip]
        headways[place] = (*headways.get(place, ()), Headway(start[row], end[row], seconds[row], row))
    return headways


def read_places(feed: Feed, new_stops: Sequence[Entry]) -> Stops:
    """The stops at which vehicles call, and behind them the new ones."""
    table = feed.tables["stops.txt"]
    rows = np.flatnonzero(is_stop(table))
    columns = {name: table.texts(name) for name in ("stop_id", "stop_name", "stop_lat", "stop_lon")}
    stops = [columns["stop_id"][row] for row in rows]
    names = [display_text(columns["stop_name"][row].strip()) for row in rows]
    where = [place_of(columns["stop_lat"][row], columns["stop_lon"][row]) for row in rows]
    taken = set(columns["stop_id"])
    for entry in new_stops:
        entry.only(("id", "name", "lat", "lon"))
        stop = entry.text("id")
        if stop in taken:
            raise entry.fault("already exists", "id", stop)
        taken.add(stop)
        stops.append(stop)
        names.append(entry.text("name", stop))
        where.append((float(entry.read("lat", decimal("-90", "90"))), float(entry.read("lon", decimal("-180", "180")))))
    if new_stops and len(taken) > MOST_STOPS:
        raise new_stops[-1].fault(f"makes {len(taken):,} stops and stations; ttm takes {MOST_STOPS:,}", "id")
    found = np.array(where, dtype=np.float64).reshape(-1, 2)
    return Stops("stops.txt", stops, names, found[:, 0], found[:, 1], np.zeros(len(stops), np.int8), [""] * len(stops))
