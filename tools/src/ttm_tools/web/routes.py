"""The routes of a feed, for a person who chooses one: where each runs, which ways, and how often on the day."""

import datetime
from dataclasses import dataclass
from typing import Any, Mapping

import numpy as np
import numpy.typing as npt

from ..core.text import display_text
from ..gtfs.route_names import name_of
from ..gtfs.service_days import services_on
from ..plans.base import Base
from ..plans.choice import runs_along
from ..views.journeys import with_identifiers

MOST_WAYS = 4  # of a route that are shown, those with the most trips
HOURS = 24
Whole = npt.NDArray[np.int64]


@dataclass(frozen=True)
class Way:
    """Trips of a route that call at the same stops."""

    stops: list[int]  # numbers of places
    count: int  # trips on the day, each departure of a headway
    hours: list[int]  # how many of them leave in each hour
    trip: str  # one of them
    direction: int | None  # that all trips of the route state, or None


@dataclass(frozen=True)
class Route:
    """A route that has trips."""

    identifier: str
    name: str  # for people
    ways: list[Way]
    hours: list[int]  # departures in each hour of the day, the way that most of its trips run
    pairs: list[int]  # two numbers of places for each piece of its lines

    def as_json(self) -> dict[str, Any]:
        ways = [{"stops": way.stops, "count": way.count} for way in self.ways]
        own = {"id": display_text(self.identifier), "name": self.name, "ways": ways}
        return {**own, "hours": self.hours, "pairs": self.pairs}


def routes_of(base: Base, date: datetime.date, numbers: Mapping[str, int]) -> list[Route]:
    """The routes of a feed in its order, with places of the page by the stops' identifiers."""
    running, names, routes = services_on(base.feed, date), names_of(base), []
    place = np.array([numbers.get(name, -1) for name in base.places.identifiers], dtype=np.int64)  # -1: of no trip
    for own, trips in base.by_route.items():
        if base.lengths[trips].sum() > 0:
            ways = ways_of(base, trips[base.lengths[trips] > 1], place, running)
            routes.append(Route(own, names[own], ways[:MOST_WAYS], hours_of(ways), pairs_of(ways)))
    return routes


def names_of(base: Base) -> dict[str, str]:
    table = base.feed.tables["routes.txt"]
    columns = (table.texts(name) for name in ("route_id", "route_short_name", "route_long_name"))
    return with_identifiers({route: name_of(route, short, long) for route, short, long in zip(*columns)})


def ways_of(base: Base, trips: Whole, place: Whole, running: set[str]) -> list[Way]:
    """The ways of a route, those with the most departures on the day first."""
    states = all(base.directions[trip].strip() in ("0", "1") for trip in trips.tolist())
    groups: dict[bytes, list[int]] = {}
    for trip in trips.tolist():
        groups.setdefault(base.stop[base.begins[trip] : base.begins[trip + 1]].tobytes(), []).append(trip)
    ways = [way_of(base, some, place, running, states) for some in groups.values()]
    return sorted(ways, key=lambda way: -way.count)


def hours_of(ways: list[Way]) -> list[int]:
    """The departures in each hour of all ways that run along the one with the most of them."""
    hours = [0] * HOURS
    for way in ways:
        if way.direction == ways[0].direction and (way.direction is not None or runs_along(way.stops, ways[0].stops)):
            hours = [one + other for one, other in zip(hours, way.hours)]
    return hours


def way_of(base: Base, trips: list[int], place: Whole, running: set[str], states: bool) -> Way:
    hours, first = [0] * HOURS, trips[0]
    for trip in trips:
        if base.services[trip] in running:
            for time in departures_of(base, trip):
                hours[time // 3600 % HOURS] += 1
    stops = place[base.stop[base.begins[first] : base.begins[first + 1]]].tolist()
    direction = int(base.directions[first]) if states else None
    return Way(stops, sum(hours), hours, base.trips[first], direction)


def departures_of(base: Base, trip: int) -> list[int]:
    """When a trip leaves, each departure of its headways."""
    if trip in base.headways:
        return [time for row in base.headways[trip] for time in row.departures]
    return [int(base.depart[base.begins[trip]])]


def pairs_of(ways: list[Way]) -> list[int]:
    """The pieces between stops that follow one another, each once whichever way it is run."""
    pairs = {(min(pair), max(pair)) for way in ways for pair in zip(way.stops, way.stops[1:])}
    return [place for pair in sorted(pairs) for place in pair]
