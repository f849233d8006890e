"""Journeys for programs: each with its legs, their times, metres and lines. docs/reference/json.md has each field."""

from dataclasses import dataclass
from functools import cached_property
from typing import Iterable, Iterator, Sequence

import numpy as np

from ..core.arrays import Floats
from ..core.walking import Walking
from ..gtfs.modes import WALK, mode_named, route_types
from ..gtfs.route_names import routes_called
from ..gtfs.shape_parts import Shapes, read_shapes
from ..gtfs.timetable import DAY, Runs, Timetable
from ..journeys.found import ExplainOptions, Found, Option
from ..journeys.legs import calls_of_ride
from ..journeys.search import Leg
from ..streets.graph import degrees_of
from ..streets.osm import Streets
from ..streets.router import Router
from ..streets.straight import distances, points_of
from ..streets.walks import NEAR

DECIMALS = 6  # of degrees, some tenths of a metre
LONGER = 2.0  # a drawn walk takes at most this multiple of its seconds, at the default speed
Line = list[list[float]]
Journey = dict[str, object]


@dataclass(frozen=True)
class JourneyValues:
    """The journeys of some pairs as values of JSON.

    Attributes
    ----------
    timetable
        The timetable of the feed.
    found
        What was found for each pair.
    streets
        The streets along which walks are drawn; None draws straight lines.
    places
        The identifiers that are points, not stops of the feed.
    """

    timetable: Timetable
    found: Sequence[tuple[ExplainOptions, list[Found]]]
    streets: Streets | None = None
    places: frozenset[str] = frozenset()

    @cached_property
    def names(self) -> dict[str, str]:
        """What people call each route."""
        return routes_called(self.timetable.folder)

    @cached_property
    def modes(self) -> dict[str, str | None]:
        """The mode of each route; None where its route_type has none."""
        return {route: mode_named(kind) for route, kind in route_types(self.timetable.folder).items()}

    def journeys(self) -> Iterator[Journey]:
        """Each journey of each pair and scenario; one without a departure if too few departures get there."""
        for options, every in self.found:
            ends = {"origin": options.origin, "destination": options.destination}
            pair = {name: self.timetable.stops[place] for name, place in ends.items()}
            for of in every:
                head = {"scenario": of.name, **pair, "percentile": options.share}
                for count, option in enumerate(of.options, 1):
                    yield {**head, **self.option_values(options, of, option, count)}
                if not of.options:
                    yield {**head, "option": 1, "seconds": None, "departure": None, "legs": []}

    def option_values(self, options: ExplainOptions, found: Found, option: Option, count: int) -> Journey:
        """One journey: how long it takes, when it begins, and its legs."""
        midnight = DAY * options.back
        legs, time = list[Journey](), option.departure
        for leg in option.legs:
            legs.append(self.leg_values(found.runs, leg, time, midnight))
            time = leg.finish
        return {"option": count, "seconds": option.seconds, "departure": option.departure - midnight, "legs": legs}

    def leg_values(self, runs: Runs, leg: Leg, time: int, midnight: int) -> Journey:
        """One leg, for a traveller who is at its start from a time on."""
        line, metres = self.walk_line(leg) if leg.run is None else self.ride_line(runs, leg)
        return {
            **self.route_values(runs, leg),
            **{name: self.stop_value(place) for name, place in (("from_stop_id", leg.start), ("to_stop_id", leg.end))},
            "departure": leg.begin - midnight,
            "wait": leg.begin - time,
            "seconds": leg.finish - leg.begin,
            "metres": None if line is None else round(metres, 1),
            "line": None if line is None else rounded(line).tolist(),
        }

    def route_values(self, runs: Runs, leg: Leg) -> Journey:
        """How a leg goes."""
        if leg.run is None:
            return {"mode": WALK, "route_id": None, "route_name": None, "trip_id": None}
        trip = int(runs.trip[leg.run])
        route = self.timetable.routes[trip]
        named = {"route_id": route, "route_name": self.names.get(route), "trip_id": self.timetable.trips[trip]}
        return {"mode": self.modes.get(route), **named}

    def stop_value(self, place: int) -> str | None:
        """The identifier of a stop; None for a point."""
        name = self.timetable.stops[place]
        return None if name in self.places else name

    @cached_property
    def degrees(self) -> Floats:
        """Longitude and latitude of each stop at which vehicles call; NaN without coordinates."""
        stops = self.timetable.all_stops
        chosen = [stops.places[name] for name in self.timetable.stops]
        return np.stack([stops.longitudes[chosen], stops.latitudes[chosen]], axis=1)

    @cached_property
    def shapes(self) -> Shapes:
        """The shapes along which the journeys' vehicles run."""
        runs = ((of.runs, leg.run) for of, leg in self.legs() if leg.run is not None)
        return read_shapes(self.timetable.folder, {self.timetable.trips[int(own.trip[run])] for own, run in runs})

    def legs(self) -> Iterable[tuple[Found, Leg]]:
        """All legs of all journeys."""
        every = (of for _, some in self.found for of in some)
        return [(of, leg) for of in every for option in of.options for leg in option.legs]

    def ride_line(self, runs: Runs, leg: Leg) -> tuple[Floats | None, float]:
        """The line of a ride, along its shape or from stop to stop, and its metres; None without coordinates."""
        assert leg.run is not None
        trip, events = int(runs.trip[leg.run]), self.timetable.events
        stops = self.degrees[events.stop[calls_of_ride(events, trip, int(runs.shift[leg.run]), leg)]]
        if np.isnan(stops[[0, -1]]).any():
            return None, 0.0
        stops = stops[~np.isnan(stops[:, 0])]
        along = self.shapes.along(self.timetable.trips[trip], stops)
        return measured(stops if along is None else along)

    @cached_property
    def router(self) -> tuple[Router, dict[int, int]] | None:
        """The streets with the ends of all walks on them, and the number of each end; None without streets."""
        walks = [leg for _, leg in self.legs() if leg.run is None]
        ends = sorted({place for leg in walks for place in (leg.start, leg.end)})
        ends = [place for place in ends if not np.isnan(self.degrees[place]).any()]
        if self.streets is None or not ends:
            return None
        points = points_of(self.degrees[ends, 1], self.degrees[ends, 0])
        walking = Walking(max_seconds=LONGER * max(leg.finish - leg.begin for leg in walks))
        return Router(self.streets, points, walking, NEAR), {place: count for count, place in enumerate(ends)}

    def walk_line(self, leg: Leg) -> tuple[Floats | None, float]:
        """The line of a walk, along streets or straight, and its metres; None without coordinates."""
        ends = self.degrees[[leg.start, leg.end]]
        if np.isnan(ends).any():
            return None, 0.0
        if self.router is not None:
            router, numbers = self.router
            line, metres = router.path(numbers[leg.start], numbers[leg.end])
            if len(line):
                return degrees_of(line), metres
        return measured(ends)


def rounded(line: Floats) -> Floats:
    """A line without needless decimals and repeated points; it has two at least."""
    points = np.round(line, DECIMALS)
    moves = (np.diff(points, axis=0) != 0).any(axis=1)
    return np.asarray(points[np.append(True, moves)] if moves.any() else points[[0, -1]])


def measured(line: Floats) -> tuple[Floats, float]:
    """A line with its metres on the globe."""
    points = points_of(line[:, 1], line[:, 0])
    return line, float(distances(points[:-1], points[1:]).sum())
