"""The action `headway` of docs/reference/plan-file.md in plain Python, which shares no code with the tools."""

import datetime
from collections import Counter
from dataclasses import replace
from typing import Callable

from plain_trips import Action, Carried, Days, Town, Trip, Trips, clock_seconds, is_chosen


def headway(town: Town, trips: Trips, action: Action) -> Carried:
    """Departures of each direction on their own, between two times of day."""
    begin, end = clock_seconds(action["from"]), clock_seconds(action["to"])
    after: Carried = list(trips)
    about = [trip for trip in trips if is_chosen(trip, action, trips)]
    for route, direction in sorted({(trip.route, trip.direction) for trip in about}):
        some = [trip for trip in about if (trip.route, trip.direction) == (route, direction)]
        if after is not None and "every" in action:
            after = every(after, some, begin, end, action["every"])
        elif after is not None:
            after = after + between(some, begin, end, action["times"])
    return None if after == trips else after


def every(trips: Trips, some: Trips, begin: int, end: int, seconds: int) -> Carried:
    """Replaces all departures of a period by copies of a typical trip."""

    def inside(trip: Trip) -> int:
        return sum(begin <= time < end for time in trip.departures)

    about = [trip for trip in some if inside(trip)] or some
    typical = typical_of(about, inside)
    if typical is None:
        return None
    rest = list[Trip]()
    for trip in trips:
        left = tuple(time for time in trip.departures if not (trip in about and begin <= time < end))
        rest += [replace(trip, departures=left)] if left else []
    days = frozenset(day for trip in about for day in trip.days)
    start = typical.calls[0]
    calls = ((start[0], 0, 0), *typical.calls[1:])
    copy = replace(typical, label="", service="", days=days, calls=calls)
    return rest + [replace(copy, departures=(time,)) for time in range(begin, end, seconds)]


def typical_of(trips: Trips, inside: Callable[[Trip], int]) -> Trip | None:
    """Of the pattern with the most departures in a period a trip with the median running time, the earliest of several.

    The lower median counts. If nothing leaves in the period, the pattern with the most trips counts.
    """
    departures = Counter[tuple[str, ...]]()
    for trip in trips:
        departures[trip.pattern] += inside(trip) or 0
    if not sum(departures.values()):
        departures = Counter(trip.pattern for trip in trips)
    (pattern, most), *others = departures.most_common()
    if others and others[0][1] == most:
        return None
    ordered = sorted((trip.seconds, min(trip.departures)) for trip in trips if trip.pattern == pattern)
    median = ordered[(len(ordered) - 1) // 2][0]
    earliest = min(departure for seconds, departure in ordered if seconds == median)
    found = [
        trip for trip in trips if (trip.pattern, trip.seconds, min(trip.departures)) == (pattern, median, earliest)
    ]
    return found[0] if len({trip.calls for trip in found}) == 1 else None


def between(some: Trips, begin: int, end: int, times: int) -> Trips:
    """Copies of trips, evenly up to the next departure of the same direction from the same stop on the same day."""
    added = list[Trip]()
    for trip in some:
        for time in (time for time in trip.departures if begin <= time < end):
            for later, days in next_departures(trip, time, some):
                for part in range(1, times):
                    extra = time + (later - time) * part // times
                    if time < extra < end:
                        start = trip.calls[0]
                        calls = ((start[0], 0, 0), *trip.calls[1:])
                        added.append(Trip("", trip.route, trip.direction, "", days, calls, (extra,)))
    return added


def next_departures(trip: Trip, time: int, some: Trips) -> list[tuple[int, Days]]:
    """When the next trip leaves the same stop, with the days of the trip on which that is the next one."""
    found = dict[int, set[datetime.date]]()
    for day in trip.days:
        later = [
            departure
            for other in some
            if day in other.days and other.calls[0][0] == trip.calls[0][0]
            for departure in other.departures
            if departure > time
        ]
        if later:
            found.setdefault(min(later), set()).add(day)
    return [(later, frozenset(days)) for later, days in sorted(found.items())]
