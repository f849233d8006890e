"""New lines, how long a vehicle takes along a way for which the feed has no times, and run times that change."""

from dataclasses import replace
from fractions import Fraction

import numpy as np

from ...core.arrays import Whole
from ...core.text import display_text, quantity
from ...core.times import as_clock
from ...core.toml_file import Entry
from ...core.toml_values import FLAG, TIME, decimal, whole, wholes
from ...gtfs.projection import metres_between
from ..base import NO_ROW
from ..choice import chosen, stop_named, stop_shown, stops_named
from ..days import service_named
from ..new_records import ROUTE_TYPE
from ..state import State, Trip, in_range

MOST = 86_400  # seconds between two stops
MOST_DEPARTURES = 10_000  # of a period; one every ten seconds for more than a day
EVERY = whole(1, 86_400)  # seconds
PERIOD = {"first": TIME, "last": TIME, "every": EVERY}


def add_line(state: State, entry: Entry) -> list[str]:
    """A new line, in one direction or in both, with its departures from either end."""
    route = entry.text("route")
    if route in state.base.by_route or route in state.lines:
        raise entry.fault("is already a route", "route", route)
    if "@" in route:
        raise entry.fault("can't be the name of a new route: a scenario's name follows an @", "route", route)
    if len(entry.texts("stops")) < 2:
        raise entry.fault("is a single stop; a line needs two or more", "stops")
    way = np.array(stops_named(state, entry, "stops"), dtype=np.int64)
    run, dwell = run_times(state, entry, way)
    service, times = service_named(state.base, entry), departures_of(entry)
    entry.text("name", route)
    agency = entry.text("agency", "") or state.base.first_agency
    entry.read("type", ROUTE_TYPE, 3)
    state.lines[route] = entry
    ways = ((way, run), (way[::-1], run[::-1]))[: 1 + entry.read("both", FLAG, True)]
    for direction, (stops, seconds) in enumerate(ways):
        for number, time in enumerate(times, 1):
            arrive, depart = times_of(time, seconds, dwell)
            label, none = f"{route}-{direction}#{number}", np.full(len(stops), NO_ROW)
            trip = Trip(label, -1, route, service, str(direction), stops, arrive, depart, none, redrawn=True)
            state.add(in_range(entry, trip))
    length = int(run.sum()) + dwell * (len(way) - 2)
    departures = f"{quantity(len(times), 'departure')} from each end"
    sentence = f"route {route}: {quantity(len(way), 'stop')} in {as_clock(length)}; {departures}"
    return [sentence, *([f"route {route}: agency {display_text(agency)}"] if agency else [])]


def times_of(time: int, run: Whole, dwell: int) -> tuple[Whole, Whole]:
    """Arrivals and departures of a trip that leaves at a time."""
    between = np.append(np.full(len(run) - 1, dwell), 0)
    depart = np.append(time, time + np.cumsum(run + between))
    return np.append(time, depart[1:] - between), depart


def departures_of(entry: Entry) -> list[int]:
    """The departures of all periods, each once; the last one of a period counts."""
    times = set[int]()
    for period in entry.inner("departures"):
        period.only([*PERIOD])
        first, last, every = (period.read(key, kind) for key, kind in PERIOD.items())
        if last < first:
            raise period.fault(f"is before first, {as_clock(first)}", "last", as_clock(last))
        refuse_many(period, len(range(first, last + 1, every)), "every")
        times.update(range(first, last + 1, every))
    return sorted(times)


def refuse_many(entry: Entry, count: int, column: str) -> None:
    """Refuses more departures than any line has, each of which would be a trip."""
    if count > MOST_DEPARTURES:
        allowed = f"at most {MOST_DEPARTURES:,} departures"
        raise entry.fault(f"makes {count:,} departures", column, str(entry.values.get(column)), allowed)


def run_times(state: State, entry: Entry, way: Whole) -> tuple[Whole, int]:
    """The seconds between each two stops of a way, as stated or by a speed, rounded up; and at each stop."""
    dwell = entry.read("dwell", whole(0, 3_600), 0)
    if entry.one_of("seconds", "speed") == "seconds":
        return np.array(entry.read("seconds", wholes(len(way) - 1, MOST)), dtype=np.int64), dwell
    kilometres_an_hour = float(entry.read("speed", decimal("0.1", "1000")))
    places = state.base.places
    north, east = places.latitudes[way], places.longitudes[way]
    for stop in way[np.isnan(north)].tolist():
        raise entry.fault(f"needs coordinates, and stop {stop_shown(state, stop)} has none: give seconds", "speed")
    metres = metres_between(east[:-1], north[:-1], east[1:], north[1:])
    return np.ceil(np.round(metres * 3.6 / kilometres_an_hour, 6)).astype(np.int64), dwell


def speed(state: State, entry: Entry) -> list[str]:
    """Run times times a factor, or dwell times plus seconds, of routes or between two stops of them."""
    if entry.one_of("factor", "dwell") == "factor":
        factor, more = Fraction(entry.read("factor", decimal("0", "100"))), 0
    else:
        factor, more = Fraction(1), entry.read("dwell", whole(-3_600, 3_600))
    found, changed = [(trip, span_of(state, entry, trip)) for trip in chosen(state, entry)], 0
    spans = [(trip, span) for trip, span in found if span is not None]
    if not spans:
        raise entry.fault("no trip of the route calls there and later at to_stop", "from_stop")
    for trip, span in spans:
        after = paced(trip, span, factor, more)
        if (after.arrive != trip.arrive).any() or (after.depart != trip.depart).any():
            state.change(trip, in_range(entry, after))
            changed += 1
    if not changed:
        raise entry.fault("changes no time", "factor" if entry.has("factor") else "dwell")
    return [f"{len(spans) - changed:,} of {quantity(len(spans), 'trip')} keep their times"] * (changed < len(spans))


def span_of(state: State, entry: Entry, trip: Trip) -> tuple[int, int] | None:
    """The calls between which a trip changes: its ends, or its first call at one stop and the next one at the other."""
    begins = np.arange(len(trip.stop))
    if entry.has("from_stop"):
        begins = np.flatnonzero(trip.stop == stop_named(state, entry, "from_stop", entry.text("from_stop")))
        if not len(begins):
            return None
    ends = np.arange(begins[0] + 1, len(trip.stop))
    if entry.has("to_stop"):
        ends = ends[trip.stop[ends] == stop_named(state, entry, "to_stop", entry.text("to_stop"))][:1]
    return (int(begins[0]), int(ends[-1])) if len(ends) else None


def paced(trip: Trip, span: tuple[int, int], factor: Fraction, more: int) -> Trip:
    """A trip with other times from one call to another. What all run times up to a call add up to is rounded, to the
    nearest second, a half up: so they never go back, and no rounding adds up.
    """
    first, last = span
    run, dwell = trip.arrive[1:] - trip.depart[:-1], trip.depart - trip.arrive
    sums = np.cumsum(run[first:last])
    sums_paced = (2 * factor.numerator * sums + factor.denominator) // (2 * factor.denominator)
    run, dwell = run.copy(), dwell.copy()
    run[first:last] = np.diff(sums_paced, prepend=0)
    dwell[first + 1 : last] += more
    later = np.concatenate([[0], np.cumsum(run + dwell[1:])])
    depart = trip.depart[0] + later
    return replace(trip, arrive=depart - dwell, depart=depart)
