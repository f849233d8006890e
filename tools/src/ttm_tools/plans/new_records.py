"""The records that scenarios add to the files of a feed, and what their routes and trips are called there.

In the feed of all scenarios, those of a scenario's own end with its name behind an @. A scenario's trips are on
routes of its own, copies of the feed's, so that another scenario removes them by their routes. In the feed of one
scenario all have the names that the plan and the feed give them.
"""

from dataclasses import dataclass
from typing import Sequence

import numpy as np

from ..core.arrays import Whole
from ..core.times import as_clock
from ..core.toml_values import whole
from ..gtfs.columns import Column, clocks, coded, column_of
from ..gtfs.tables import Table, table_of
from .base import Base, free
from .shapes import Shapes
from .state import State, Trip

ROUTE_TYPE = whole(0, 1_702)  # of the GTFS, extended ones too
HEADSIGN = "trip_headsign"
NEEDED = ("trip_id", "arrival_time", "departure_time", "stop_id", "stop_sequence")


@dataclass(frozen=True)
class Names:
    """The names of a feed that is written."""

    base: Base
    shared: frozenset[str]  # new routes that several scenarios add
    alone: bool  # whether it is the feed of one scenario

    def route(self, state: State, route: str) -> str:
        """The route of a scenario's own trips."""
        if self.alone or route in state.lines and route not in self.shared:
            return route
        return free(f"{route}@{state.name}", self.base.by_route)

    def trip(self, state: State, label: str) -> str:
        return label if self.alone else free(f"{label}@{state.name}", self.base.numbers)

    def now(self, state: State, label: str) -> str:
        """What a trip is called in the feed after an action, whichever it is."""
        return self.trip(state, label) if label in state.own else label


def own_routes(state: State) -> list[str]:
    """The routes of a scenario's own trips, each once."""
    return list(dict.fromkeys(trip.route for trip in state.own.values()))


@dataclass(frozen=True)
class OwnTrip:
    """A trip that is written, with the names that it has in the feed."""

    trip: Trip
    name: str
    route: str
    shape: str


def own_trips(states: Sequence[State], names: Names, shapes: Shapes | None) -> list[OwnTrip]:
    """The trips that are written, scenario by scenario: its own, and in a feed of its own the shifted ones too."""
    trips = []
    for state in states:
        shifted = np.flatnonzero(state.kept & (state.shift != 0)).tolist() if names.alone else []
        for trip in (*map(state.trip, shifted), *state.own.values()):
            route = names.route(state, trip.route)
            shape = "" if shapes is None else shapes.of(trip, route)
            trips.append(OwnTrip(trip, names.trip(state, trip.label), route, shape))
    return trips


def heads(base: Base, name: str, needed: Sequence[str]) -> list[str]:
    """The columns of a file, and those that new records need."""
    return list(dict.fromkeys((*base.feed.get(name).names, *needed)))


def new_stops(base: Base, used: Sequence[int]) -> Table:
    """The plan's own stops at which some scenario calls."""
    places, needed = base.places, ("stop_id", "stop_name", "stop_lat", "stop_lon")
    rows = list[dict[str, str]]()
    for place in used:
        degrees = (places.latitudes[place], places.longitudes[place])
        where = (f"{number:.6f}".rstrip("0").rstrip(".") for number in degrees)
        rows.append(dict(zip(needed, (places.identifiers[place], places.names[place], *where))))
    return table_of("stops.txt", heads(base, "stops.txt", needed if rows else ()), rows)


def new_routes(base: Base, states: Sequence[State], names: Names) -> Table:
    """The routes of the scenarios' own trips: new lines, and copies of the feed's."""
    table = base.feed.tables["routes.txt"]
    records = {record["route_id"]: record for record in table.rows()}
    rows, lined = list[dict[str, str]](), False
    for state in states:
        for route in own_routes(state):
            name = names.route(state, route)
            if route in state.lines:
                entry, lined = state.lines[route], True
                kind, agency = str(entry.read("type", ROUTE_TYPE, 3)), entry.text("agency", "") or base.first_agency
                named = {"route_short_name": entry.text("name", route), "agency_id": agency}
                rows.append({"route_id": name, "route_type": kind, **named})
            elif name != route:
                rows.append({**records[route], "route_id": name})
    needed = ("route_id", "route_short_name", "route_type") if lined else ("route_id",)
    return table_of("routes.txt", heads(base, "routes.txt", needed if rows else ()), rows)


def new_trips(base: Base, own: Sequence[OwnTrip]) -> Table:
    """The records of trips: those of their sources, but for what is another; they belong to no block."""
    sources, rows = (sorted({new.trip.source for new in own if new.trip.source >= 0}), list[dict[str, str]]())
    records = dict(zip(sources, base.feed.tables["trips.txt"].rows(sources)))
    for new in own:
        named = {"trip_id": new.name, "route_id": new.route, "service_id": new.trip.service}
        old = records[new.trip.source] if new.trip.source >= 0 else {"direction_id": new.trip.direction}
        shape = new.shape if new.trip.redrawn else old.get("shape_id", "")
        if old.get(HEADSIGN) and ends_elsewhere(base, new):
            named[HEADSIGN] = base.places.names[new.trip.stop[-1]]
        rows.append({**old, **named, "shape_id": shape, "block_id": ""})
    needed = ["route_id", "service_id", "trip_id"]
    needed += ["shape_id"] if any(new.trip.redrawn and new.shape for new in own) else []
    needed += ["direction_id"] if any(new.trip.source < 0 for new in own) else []
    return table_of("trips.txt", heads(base, "trips.txt", needed if rows else ()), rows)


def ends_elsewhere(base: Base, own: OwnTrip) -> bool:
    """Whether a trip ends at another stop than the trip of the feed from which it comes."""
    return own.trip.source >= 0 and int(own.trip.stop[-1]) != base.stops_of(own.trip.source)[-1]


def new_stop_times(base: Base, own: Sequence[OwnTrip]) -> Table:
    """The calls of trips; other fields than places and times are those of the records that they come from."""
    table = base.feed.tables["stop_times.txt"]
    counts = np.array([len(new.trip.stop) for new in own], dtype=np.int64)
    number = np.repeat(np.arange(len(own)), counts)
    sequence = np.arange(len(number)) - np.repeat(np.cumsum(counts) - counts, counts)
    redrawn = np.array([new.trip.redrawn for new in own] or [False], dtype=np.bool_)[number]
    elsewhere = np.array([ends_elsewhere(base, new) for new in own] or [False], dtype=np.bool_)[number]
    none = np.zeros(len(number), dtype=np.bool_)
    arrive, depart = (together([timed(new.trip, name) for new in own]) for name in ("arrive", "depart"))
    row = together([new.trip.row for new in own])
    columns = {
        "trip_id": column_of([new.name for new in own], number),
        "arrival_time": clocks(arrive),
        "departure_time": clocks(depart),
        "stop_id": column_of(base.places.identifiers, together([new.trip.stop for new in own])),
        "stop_sequence": column_of([str(number) for number in range(int(counts.max(initial=0)))], sequence),
    }
    for name in table.names:
        if name not in columns:
            lost = redrawn if name == "shape_dist_traveled" else elsewhere if name == "stop_headsign" else none
            columns[name] = taken_from(table[name], np.where(lost, -1, row))
    ordered = {name: columns[name] for name in heads(base, "stop_times.txt", NEEDED if own else ())}
    return Table("stop_times.txt", ordered, np.zeros(len(number), np.int64))


def taken_from(column: Column, rows: Whole) -> Column:
    """The texts of some records of a column; empty for a record of -1."""
    codes = np.full(len(rows), len(column.categories), np.int32)
    codes[rows >= 0] = column.codes[rows[rows >= 0]]
    return coded([*column.categories, ""]).at(codes)


def timed(trip: Trip, name: str) -> Whole:
    """Times of a trip that a feed can state: where headways say when it runs, from midnight on."""
    column: Whole = getattr(trip, name)
    return column - min(0, int(trip.arrive[0])) if trip.headways else column


def together(columns: Sequence[Whole]) -> Whole:
    return np.concatenate([np.zeros(0, np.int64), *columns])


def new_headways(base: Base, own: Sequence[OwnTrip]) -> Table:
    table, rows = base.feed.get("frequencies.txt"), list[dict[str, str]]()
    records = table.rows()
    for new in own:
        for headway in new.trip.headways:
            times = {"start_time": as_clock(headway.start), "end_time": as_clock(headway.end)}
            rows.append({**records[headway.row], "trip_id": new.name, **times})
    return table_of("frequencies.txt", list(table.columns), rows)


def new_route_rows(states: Sequence[State], names: Names, table: Table) -> Table:
    """The records of a file that name a route, again for each copy of that route."""
    copies: dict[str, list[str]] = {}
    for state in states:
        for route in own_routes(state):
            if route not in state.lines and names.route(state, route) != route:
                copies.setdefault(route, []).append(names.route(state, route))
    rows = [{**row, "route_id": copy} for row in table.rows() for copy in copies.get(row.get("route_id", ""), ())]
    return table_of(table.name, list(table.columns), rows)


def new_days(base: Base, own: Sequence[OwnTrip]) -> Table:
    """The days of new services, as days that are added."""
    used = sorted({new.trip.service for new in own} & base.new_services.keys())
    dates = [(name, day.strftime("%Y%m%d"), "1") for name in used for day in base.new_services[name]]
    needed = ("service_id", "date", "exception_type")
    rows = [dict(zip(needed, date)) for date in dates]
    return table_of("calendar_dates.txt", heads(base, "calendar_dates.txt", needed if rows else ()), rows)
