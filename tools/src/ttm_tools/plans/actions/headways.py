"""A route that runs at a headway, by copies of a typical trip; or several times as often, by trips in between."""

import itertools
from dataclasses import replace
from typing import Iterator, Mapping, Sequence

import numpy as np

from ...core.arrays import Mask
from ...core.text import quantity
from ...core.times import as_clock
from ...core.toml_file import Entry
from ...core.toml_values import TIME, whole
from ..base import Headway
from ..choice import chosen, directions_of, pattern_of, stop_shown
from ..days import runs_of, service_of, service_on
from ..state import State, Trip, in_range
from .lines import EVERY, refuse_many

MOST_TIMES = 60
WHOLE_DAY = 'from = "00:00", to = "30:00"'  # past midnight too; where trips stay, later departures do no harm


def headway(state: State, entry: Entry) -> list[str]:
    """In each direction, departures from the start on, strictly before the end; or some added between others."""
    start, end = time_of(entry, "from"), time_of(entry, "to")
    if end <= start:
        raise entry.fault(f"isn't after from, {as_clock(start)}", "to", as_clock(end))
    by_route: dict[str, list[Trip]] = {}
    for trip in chosen(state, entry):
        by_route.setdefault(trip.route, []).append(trip)
    groups = [group for trips in by_route.values() for group in directions_of(trips)]
    if entry.one_of("every", "times") == "every":
        times = range(start, end, entry.read("every", EVERY))
        refuse_many(entry, len(times), "every")
        return [line for group in groups for line in thinned(state, entry, group, times, end)]
    sentences = [line for group in groups for line in oftener(state, entry, group, start, end)]
    if not state.changes:
        raise entry.fault(f"adds no departure between {as_clock(start)} and {as_clock(end)}", "times")
    return sentences


def time_of(entry: Entry, key: str) -> int:
    """The start or the end of the period, in seconds after midnight; with `times` an error says how to take all day."""
    if entry.has("times") and not entry.has(key):
        raise entry.fault(f"needed; {WHOLE_DAY} takes the whole day", key)
    return entry.read(key, TIME)


def thinned(state: State, entry: Entry, trips: Sequence[Trip], times: range, end: int) -> list[str]:
    """Carries it out for the trips of one direction, and names the typical one."""
    inside = [trip for trip in trips if departures_in(trip, times.start, end)]
    typical = typical_of(inside or trips, times.start, end)
    service = service_of(state.base, entry, {trip.service for trip in inside or trips})
    for trip in inside:
        rest = without(trip, times.start, end)
        if rest is None:
            state.drop(trip)
        else:
            state.change(trip, rest)
    for number, time in enumerate(times, 1):
        state.add(in_range(entry, copy_of(state, typical, number, time, service)))
    ends = " to ".join(stop_shown(state, int(typical.stop[place])) for place in (0, -1))
    count = sum(departures_in(trip, times.start, end) for trip in inside)
    sentence = f"route {typical.route}, {ends}: {quantity(count, 'departure')} replaced by {len(times):,}"
    calls = quantity(len(typical.stop), "call")
    return [f"{sentence}, copies of trip {typical.label} ({calls}, {as_clock(typical.seconds)})"]


def departures_in(trip: Trip, start: int, end: int) -> int:
    """How many departures of a trip are in a period."""
    return sum(start <= time < end for time in trip.departures)


def typical_of(trips: Sequence[Trip], start: int, end: int) -> Trip:
    """Of the pattern with the most departures in the period, then calls, the first trip of the median running time."""
    by_pattern: dict[tuple[int, ...], list[Trip]] = {}
    for trip in trips:
        by_pattern.setdefault(pattern_of(trip), []).append(trip)

    def weight(some: list[Trip]) -> tuple[int, int, int]:
        return sum(departures_in(trip, start, end) for trip in some), len(some), len(some[0].stop)

    some = max(by_pattern.values(), key=weight)
    ordered = sorted(some, key=lambda trip: (trip.seconds, min(trip.departures, default=0)))
    half = ordered[(len(ordered) - 1) // 2].seconds
    return next(trip for trip in ordered if trip.seconds == half)


def copy_of(state: State, typical: Trip, number: int, time: int, service: str) -> Trip:
    """The typical trip, leaving at a time."""
    name = state.base.trips[typical.source] if typical.source >= 0 else typical.label
    later = time - int(typical.depart[0])
    arrive, depart = typical.arrive + later, typical.depart + later
    arrive[0] = depart[0]  # a first call has no arrival of its own
    return replace(typical, label=f"{name}#{number}", service=service, arrive=arrive, depart=depart, headways=())


def without(trip: Trip, start: int, end: int) -> Trip | None:
    """A trip without its departures of a period; none where none is left."""
    if not trip.headways:
        return None
    kept = [part for headway in trip.headways for part in parts(headway, start, end)]
    return replace(trip, headways=tuple(kept)) if kept else None


def parts(row: Headway, start: int, end: int) -> list[Headway]:
    """The departures of a row before a period, and those after it."""
    times = np.array(row.departures, dtype=np.int64)
    rows = []
    for some in (times[times < start], times[times >= end]):
        if len(some):
            rows.append(Headway(int(some[0]), int(some[-1]) + 1, row.seconds, row.row))
    return rows


def next_departures(
    service: str, later: Sequence[tuple[int, str]], days: Mapping[str, Mask]
) -> Iterator[tuple[int, Mask]]:
    """The times of the next departure, each with the days of a service on which it is the next one."""
    left = days[service].copy()
    if not left.any():  # its days are too many to be listed
        at = next((at for at, other in later if other == service), None)
        if at is not None:
            yield at, left
        return
    for at, departures in itertools.groupby(later, lambda departure: departure[0]):
        on = left & np.any([days[other] for _, other in departures], axis=0)
        if on.any():
            yield at, on
            left &= ~on


def oftener(state: State, entry: Entry, trips: Sequence[Trip], start: int, end: int) -> list[str]:
    """For the trips of one direction: behind each departure of the period copies of its trip, evenly up to the next
    departure from the same stop on the same day; strictly before the end of the period. Where the next departure isn't
    the same on all days of the trip, the copies of some of the days have a service of their own.
    """
    times = entry.read("times", whole(2, MOST_TIMES))
    days = {name: runs_of(state.base, name) for name in {trip.service for trip in trips}}
    known = [(int(trip.stop[0]), time, trip) for trip in trips for time in sorted(trip.departures)]
    inside = sorted((time, trip.label, stop) for stop, time, trip in known if start <= time < end)
    if not inside:
        return []
    by_label = {trip.label: trip for trip in trips}
    added = 0
    for time, label, stop in inside:
        trip = by_label[label]
        later = sorted((at, other.service) for place, at, other in known if place == stop and at > time)
        for at, on in next_departures(trip.service, later, days):
            extras = [time + (at - time) * part // times for part in range(1, times)]
            for extra in (extra for extra in extras if time < extra < end):
                added += 1
                service = service_on(state.base, entry, [trip.service, *days], on)
                state.add(in_range(entry, copy_of(state, trip, added, extra, service)))
    ends = " to ".join(stop_shown(state, int(trips[0].stop[place])) for place in (0, -1))
    return [f"route {trips[0].route}, {ends}: {quantity(added, 'departure')} added to {len(inside):,}"]
