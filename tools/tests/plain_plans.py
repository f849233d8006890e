"""The actions of docs/reference/plan-file.md in plain Python, trip by trip. They share no code with the tools.

Each function returns the trips after an action, or `None` where it changes nothing, is impossible, or has two answers,
as with two patterns that have equally many departures.
"""

import math
from dataclasses import replace
from fractions import Fraction
from typing import Callable, Sequence

from pyproj import Geod

from plain_headways import headway
from plain_trips import Action, Carried, Town, Trip, Trips, clock_seconds, is_chosen, replaced

WGS84 = Geod(ellps="WGS84")
WEEK = ("monday", "tuesday", "wednesday", "thursday", "friday", "saturday", "sunday")
NAMED_DAYS = {"daily": WEEK, "weekdays": WEEK[:5], "weekend": WEEK[5:]}


def remove(town: Town, trips: Trips, action: Action) -> Carried:
    if action["do"] == "remove_trip":
        return replaced(trips, lambda trip: None if trip.label == action["trip"] else trip)
    return replaced(trips, lambda trip: None if is_chosen(trip, action, trips) else trip)


def remove_stop(town: Town, trips: Trips, action: Action) -> Carried:
    def change(trip: Trip) -> Trip | None:
        rest = [call for call in trip.calls if call[0] != action["stop"]]
        if len(rest) == len(trip.calls) or ("route" in action and not is_chosen(trip, action, trips)):
            return trip
        return trip.with_calls(rest) if len(rest) > 1 else None

    return replaced(trips, change)


def shift(town: Town, trips: Trips, action: Action) -> Carried:
    def change(trip: Trip) -> Trip:
        about = trip.label == action["trip"] if "trip" in action else is_chosen(trip, action, trips)
        more = action["seconds"] if about else 0
        return replace(trip, departures=tuple(time + more for time in trip.departures))

    return replaced(trips, change)


def run_seconds(town: Town, action: Action, way: Sequence[str]) -> list[int]:
    """The seconds between each two stops of a way, as stated, or by a speed over the ellipsoid, rounded up."""
    if "seconds" in action:
        return list(action["seconds"])
    metres = [WGS84.inv(*town.places[one][::-1], *town.places[other][::-1])[2] for one, other in zip(way, way[1:])]
    return [math.ceil(round(length * 3.6 / action["speed"], 6)) for length in metres]


def add_line(town: Town, trips: Trips, action: Action) -> Carried:
    if any(trip.route == action["route"] for trip in trips):
        return None
    if "service" in action:
        days = town.services[action["service"]]
    else:
        named = action["days"] if isinstance(action["days"], list) else NAMED_DAYS[action["days"]]
        days = frozenset(day for day in town.days if WEEK[day.weekday()] in named)
    times = sorted(
        {
            time
            for period in action["departures"]
            for time in range(clock_seconds(period["first"]), clock_seconds(period["last"]) + 1, period["every"])
        }
    )
    run, added = run_seconds(town, action, action["stops"]), list[Trip]()
    for direction in range(2 if action.get("both", True) else 1):
        stops, seconds = (list(reversed(it)) if direction else it for it in (action["stops"], run))
        calls, second = [(stops[0], 0, 0)], 0
        for stop, more in zip(stops[1:], seconds):
            arrival = second + more
            second = arrival + action["dwell"]
            calls.append((stop, arrival, second))
        calls[-1] = calls[-1][0], arrival, arrival
        added += [Trip("", action["route"], str(direction), "", days, tuple(calls), (time,)) for time in times]
    return trips + added


def speed(town: Town, trips: Trips, action: Action) -> Carried:
    def change(trip: Trip) -> Trip:
        span = span_of(trip, action) if is_chosen(trip, action, trips) else None
        return trip if span is None else paced(trip, *span, action)

    after = replaced(trips, change)
    return None if after is not None and any(goes_back(trip) for trip in after) else after


def span_of(trip: Trip, action: Action) -> tuple[int, int] | None:
    """The places of a trip's first call at `from_stop`, and of its next one at `to_stop`; else of its ends."""
    stops = list(trip.pattern)
    if "from_stop" in action and action["from_stop"] not in stops:
        return None
    begin = stops.index(action["from_stop"]) if "from_stop" in action else 0
    ends = [
        place for place in range(begin + 1, len(stops)) if "to_stop" not in action or stops[place] == action["to_stop"]
    ]
    return (begin, ends[0] if "to_stop" in action else ends[-1]) if ends else None


def paced(trip: Trip, begin: int, end: int, action: Action) -> Trip:
    """A trip whose vehicle takes a multiple of its run times between two calls, or waits longer between them."""
    factor, more = Fraction(str(action.get("factor", 1))), action.get("dwell", 0)
    calls, ran, later = [trip.calls[0]], 0, trip.calls[0][2]
    for place in range(1, len(trip.calls)):
        stop, arrival, departure = trip.calls[place]
        run, dwell = arrival - trip.calls[place - 1][2], departure - arrival
        if begin < place <= end:
            before = math.floor(ran * factor + Fraction(1, 2))
            ran += run
            run = math.floor(ran * factor + Fraction(1, 2)) - before
        dwell += more if begin < place < end else 0
        calls.append((stop, later + run, later + run + dwell))
        later += run + dwell
    return replace(trip, calls=tuple(calls))


def goes_back(trip: Trip) -> bool:
    times = [time for _, *both in trip.calls for time in both]
    return times != sorted(times)


def extend(town: Town, trips: Trips, action: Action) -> Carried:
    """Trips that go on behind their last stop, or begin before their first one."""

    def change(trip: Trip) -> Trip:
        if not is_chosen(trip, action, trips):
            return trip
        if "after" in action:
            return gone_on(town, trip, action) if trip.pattern[-1] == action["after"] else trip
        return begun_earlier(town, trip, action) if trip.pattern[0] == action["before"] else trip

    return replaced(trips, change)


def gone_on(town: Town, trip: Trip, action: Action) -> Trip:
    stop, arrival, departure = trip.calls[-1]
    second = max(departure, arrival + action["dwell"])
    calls = [*trip.calls[:-1], (stop, arrival, second)]
    for further, run in zip(action["stops"], run_seconds(town, action, [stop, *action["stops"]])):
        calls.append((further, second + run, second + run + action["dwell"]))
        second += run + action["dwell"]
    calls[-1] = (calls[-1][0], calls[-1][1], calls[-1][1])
    return replace(trip, calls=tuple(calls))


def begun_earlier(town: Town, trip: Trip, action: Action) -> Trip:
    stop, _, departure = trip.calls[0]
    second = departure - action["dwell"]
    calls = [(stop, second, departure), *trip.calls[1:]]
    way = [*action["stops"], stop]
    for earlier, run in reversed(list(zip(way, run_seconds(town, action, way)))):
        second -= run
        calls.insert(0, (earlier, second - action["dwell"], second))
        second -= action["dwell"]
    calls[0] = (calls[0][0], calls[0][2], calls[0][2])
    return trip.with_calls(calls)


def cut(town: Town, trips: Trips, action: Action) -> Carried:
    """Trips that end at their first call at a stop, or begin at their last one there."""

    def change(trip: Trip) -> Trip | None:
        stop, stops = action.get("after", action.get("before")), list(trip.pattern)
        if not is_chosen(trip, action, trips) or stop not in stops:
            return trip
        last = len(stops) - 1 - stops[::-1].index(stop)
        rest = trip.calls[: stops.index(stop) + 1] if "after" in action else trip.calls[last:]
        if len(rest) == len(trip.calls):
            return trip
        return trip.with_calls(rest) if len(rest) > 1 else None

    return replaced(trips, change)


CARRY_OUT: dict[str, Callable[[Town, Trips, Action], Carried]] = {
    "remove_route": remove,
    "remove_trip": remove,
    "remove_stop": remove_stop,
    "shift_route": shift,
    "shift_trip": shift,
    "add_line": add_line,
    "headway": headway,
    "speed": speed,
    "extend": extend,
    "cut": cut,
}
