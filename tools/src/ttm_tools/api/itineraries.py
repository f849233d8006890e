"""The journeys of a question leg by leg, as a frame."""

from collections.abc import Iterator
from dataclasses import dataclass, field
from functools import cached_property
from typing import Any

import geopandas
import numpy as np
import pandas
from shapely.geometry import LineString

from ..core.errors import ArgumentError
from ..core.notes import Note
from ..core.question import not_allowed, travel_seconds, window_of
from ..core.settings import Progress
from ..core.text import quantity
from ..core.times import as_minute, day_of, minutes_of
from ..engine.network import EngineNetwork
from ..gtfs.modes import mode_of, route_types
from ..gtfs.route_names import routes_called
from ..journeys.itineraries import DepartureWindow, ItinerarySearch, Journey, LegDrawing, PlacesToSearch
from ..matrices import open_matrix
from ..places.doors import NEAR, DoorToDoorFolder
from .asking import (
    Request,
    engine_for,
    folder_for,
    notes_of_unchanged,
    notes_of_unreached,
    notes_of_warnings,
    scenario_files,
    tuple_of_unreached,
    walking_of,
)
from .engines import NetworkState
from .frames import DEGREES
from .service import route_of
from .tracking import Tracker

WALK = "walk"
COLUMNS = (
    "scenario from_id to_id option leg mode route_id trip_id from_stop_id to_stop_id departure arrival wait_seconds "
    "seconds metres geometry"
).split()
PAIRS = ("all", "row_by_row")
Row = dict[str, Any]


def pairs_of(request: Request, pairs: str) -> list[tuple[int, int]]:
    """Return the positions of origins and destinations between which journeys are wanted."""
    begins, ends = len(request.origins.names), len(request.destinations.names)
    if pairs not in PAIRS:
        raise not_allowed("pairs", pairs, " or ".join(PAIRS))
    if pairs == "row_by_row":
        if begins != ends:
            counts = f"{quantity(begins, 'origin')} and {quantity(ends, 'destination')}"
            raise ArgumentError(f"pairs is 'row_by_row' for {counts}; allowed: as many of one as of the other")
        return list(zip(range(begins), range(ends)))
    return [(one, other) for one in range(begins) for other in range(ends) if not (request.same and one == other)]


@dataclass(frozen=True)
class EngineTimes:
    """The engine's travel times of single departures, for all scenarios at once."""

    engine: EngineNetwork
    rides: int
    asked: dict[tuple[str, str, str, str], dict[str, float]] = field(default_factory=dict)
    warnings: dict[str, None] = field(default_factory=dict)

    def between(self, scenario: str, origin: str, destination: str, minute: int) -> float:
        """Return the seconds from one stop to another; NaN for none."""
        at = as_minute(minute)
        return self.over(origin, destination, at, at)[scenario]

    def over(self, origin: str, destination: str, first: str, last: str) -> dict[str, float]:
        """Return the longest of the seconds of some departures, by the engine's names of scenarios."""
        key = (origin, destination, first, last)
        if key not in self.asked:
            options = {"from": first, "to": last, "trips": self.rides, "share": 100}
            with self.engine.ask(options, {"origins": [origin], "destinations": [destination]}) as answered:
                matrix = open_matrix(str(answered.matrix))
                place = matrix.places[destination]
                found = {name: float(matrix.rows(name, 100, 0, 1)[0, place]) for name in matrix.scenarios}
            self.warnings.update(dict.fromkeys(answered.warnings))
            self.asked[key] = found
        return self.asked[key]


@dataclass(frozen=True)
class RouteNames:
    """Modes and identifiers of the routes of a feed, also of those that scenarios add."""

    folder: str
    scenarios: tuple[str, ...]

    @cached_property
    def modes(self) -> dict[str, str]:
        return {route: mode_of(kind) for route, kind in route_types(self.folder).items()}

    @cached_property
    def called(self) -> dict[str, str]:
        return routes_called(self.folder)

    def of(self, route: str) -> tuple[str, str]:
        """Return the mode of a route, and the identifier of the one that it is of."""
        return self.modes[route], route_of(route, self.called, self.scenarios)


@dataclass(frozen=True)
class ItineraryTask:
    """The places of a request, and what finds the journeys between them."""

    state: NetworkState
    request: Request
    folder: DoorToDoorFolder
    names: dict[str, str]  # of scenarios as the engine has them
    times: EngineTimes

    @cached_property
    def places(self) -> PlacesToSearch:
        folder, request = self.folder, self.request
        are_stops = request.origins.are_stops, request.destinations.are_stops
        ends = folder.ends[0], folder.ends[1]
        feed, walks = folder.feed.folder, folder.footpaths
        return PlacesToSearch(feed, walks, folder.walk, ends, folder.direct, folder.alights, are_stops)

    @cached_property
    def window(self) -> DepartureWindow:
        question = self.request.question
        first, last = map(minutes_of, window_of(question))
        days = question.days_before, question.days_after
        date = day_of(str(question.date))
        return DepartureWindow(date, first, last - first + 1, max(1, question.max_rides), days)

    def search(self, scenario: str) -> ItinerarySearch:
        """Return the search for one scenario."""
        own = self.names[scenario]
        file = next((path for path in scenario_files(self.folder, self.request.question) if path.stem == own), None)
        most = travel_seconds(self.request.question)

        def expected(origin: str, destination: str, minute: int) -> float:
            return self.times.between(own, origin, destination, minute)

        return ItinerarySearch(self.places, self.window, expected, float("inf") if most is None else most + 1, file)


def itinerary_frame(
    state: NetworkState, request: Request, pairs: str, progress: Progress
) -> tuple[geopandas.GeoDataFrame, tuple[Note, ...]]:
    """Return the legs, and what a reader should know: see `Network.itineraries`."""
    wanted, folder = pairs_of(request, pairs), folder_for(state, request)
    engine, names = engine_for(state, request, folder)
    task = ItineraryTask(state, request, folder, names, EngineTimes(engine, max(1, request.question.max_rides)))
    task.times.over(folder.ends[0][0], folder.ends[1][-1], *window_of(request.question))  # for the engine's warnings
    found = list[Row]()
    with Tracker(progress, len(wanted) * len(request.scenarios), "pairs") as tracker:
        for scenario in request.scenarios:
            found += rows_of(task, scenario, wanted, tracker)
    unreached = notes_of_unreached(request, tuple_of_unreached(request, folder))
    notes = *notes_of_warnings(task.times.warnings, folder), *notes_of_unchanged(state.feed, request), *unreached
    return framed(found, request), notes


def rows_of(task: ItineraryTask, scenario: str, pairs: list[tuple[int, int]], tracker: Tracker) -> Iterator[Row]:
    """Yield the legs of all pairs in one scenario."""
    search, (begins, ends) = task.search(scenario), task.folder.ends
    journeys = dict[tuple[int, int], list[Journey]]()
    for one, other in pairs:
        journeys[one, other] = search.between(begins[one], ends[other])
        tracker.advance(1)
    streets = task.state.streets
    drawing = LegDrawing(search, (streets[0], NEAR) if streets else None, walking_of(task.request.question))
    drawing.walk_along([leg for some in journeys.values() for journey in some for leg in journey.legs])
    named = RouteNames(str(task.folder.feed.folder), task.request.scenarios)
    identifiers = task.request.origins.identifiers, task.request.destinations.identifiers
    for (one, other), some in journeys.items():
        for option, journey in enumerate(some):
            ends_of_pair = {"from_id": identifiers[0][one], "to_id": identifiers[1][other]}
            head = {"scenario": scenario, **ends_of_pair, "option": option}
            yield from ({**head, **row} for row in leg_rows(drawing, journey, named))


def leg_rows(drawing: LegDrawing, journey: Journey, named: RouteNames) -> Iterator[Row]:
    """Yield the legs of a journey."""
    timetable = drawing.found.places.timetable
    for number, leg in enumerate(drawing.legs_of(journey)):
        mode, route = (WALK, None) if leg.trip is None else named.of(timetable.routes[leg.trip])
        yield {
            "leg": number,
            "mode": mode,
            "route_id": route,
            "trip_id": None if leg.trip is None else timetable.trips[leg.trip],
            "from_stop_id": leg.from_stop,
            "to_stop_id": leg.to_stop,
            "departure": leg.departure,
            "arrival": leg.arrival,
            "wait_seconds": float(leg.wait),
            "seconds": float(leg.seconds),
            "metres": leg.metres,
            "geometry": LineString(leg.line),
        }


def framed(found: list[Row], request: Request) -> geopandas.GeoDataFrame:
    """Return legs as a frame in the projection of the origins; its columns have their types even without rows."""
    table = pandas.DataFrame(found, columns=COLUMNS)
    whole, decimal = ("option", "leg"), ("wait_seconds", "seconds", "metres")
    ids = {"from_id": request.origins.frame["id"].dtype, "to_id": request.destinations.frame["id"].dtype}
    kinds: dict[str, Any] = {**ids, **dict.fromkeys(whole, np.int64), **dict.fromkeys(decimal, np.float64)}
    table = table.astype(kinds)
    for name in ("departure", "arrival"):
        table[name] = pandas.to_datetime(table[name])
    frame = geopandas.GeoDataFrame(table, geometry="geometry", crs=DEGREES)
    crs = request.origins.frame.crs
    return frame.set_crs(crs, allow_override=True) if not len(frame) else frame.to_crs(crs)
