"""Trips of a feed in plain Python, each with its days, its calls and its departures, for plain actions of plans."""

import datetime
import itertools
from collections import Counter
from dataclasses import dataclass, replace
from typing import Any, Callable, Mapping, Sequence

Action = Mapping[str, Any]
Call = tuple[str, int, int]  # stop, arrival, departure, in seconds after the trip's first departure
Places = Mapping[str, tuple[float, float]]  # latitude and longitude of stops
Days = frozenset[datetime.date]


@dataclass(frozen=True)
class Trip:
    """A trip with its days, its calls, and all departures from its first stop."""

    label: str  # empty for one of the plan
    route: str
    direction: str
    service: str  # empty for one of the plan
    days: Days
    calls: tuple[Call, ...]
    departures: tuple[int, ...]

    @property
    def pattern(self) -> tuple[str, ...]:
        return tuple(stop for stop, *_ in self.calls)

    @property
    def seconds(self) -> int:
        return self.calls[-1][1]

    def with_calls(self, calls: Sequence[Call]) -> "Trip":
        """The trip with other calls, whose times stay what they are at each stop."""
        first = calls[0][2]
        moved = tuple((stop, arrival - first, departure - first) for stop, arrival, departure in calls)
        return replace(self, calls=moved, departures=tuple(time + first for time in self.departures))


@dataclass(frozen=True)
class Town:
    """What actions need of a feed besides its trips."""

    places: Places
    days: Days  # all days from the first to the last of the calendars
    services: Mapping[str, Days]


Trips = list[Trip]
Carried = Trips | None


def runs_of(trips: Sequence[Trip]) -> Counter[Any]:
    """Counts the runs of each day by route, direction and calls, without the first arrival and the last departure."""
    found = Counter[Any]()
    for trip in trips:
        for start, day in itertools.product(trip.departures, trip.days):
            calls = [(stop, start + arrival, start + departure) for stop, arrival, departure in trip.calls]
            calls[0], calls[-1] = (calls[0][0], start, start), (calls[-1][0], calls[-1][1], calls[-1][1])
            found[day, trip.route, trip.direction, tuple(calls)] += 1
    return found


def is_chosen(trip: Trip, action: Action, trips: Sequence[Trip]) -> bool:
    """Whether an action is about a trip: of its routes, and of its direction, pattern and service where it has some."""
    route = action["route"]
    if trip.route not in (route if isinstance(route, list) else [route]):
        return False
    patterns = {other.pattern for other in trips if other.label == action.get("pattern")}
    return (
        str(action.get("direction", trip.direction)) == trip.direction
        and action.get("service", trip.service) == trip.service
        and ("pattern" not in action or trip.pattern in patterns)
    )


def replaced(trips: Trips, change: Callable[[Trip], Trip | None]) -> Carried:
    """The trips with what a function makes of each, without those of which it makes nothing; `None` if all stay."""
    after = [change(trip) for trip in trips]
    return None if after == trips else [trip for trip in after if trip is not None]


def clock_seconds(text: str) -> int:
    hours, minutes, *seconds = map(int, text.split(":"))
    return 3600 * hours + 60 * minutes + sum(seconds)
