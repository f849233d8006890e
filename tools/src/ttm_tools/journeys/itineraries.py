"""The journeys of a window between two places, leg by leg, and how each leg goes.

`ItinerarySearch` finds them by the search of this package and compares each with the travel time of the engine. If
several departures arrive at the same time, only the last has a journey. Journeys by the same vehicles are one.
"""

import datetime
from collections.abc import Callable, Hashable, Iterator, Mapping, Sequence
from dataclasses import dataclass, field
from functools import cached_property
from pathlib import Path

import numpy as np
import numpy.typing as npt

from ..core.arrays import Floats, Whole
from ..core.errors import InputError
from ..core.times import as_minute
from ..core.walking import Walking
from ..gtfs.footpaths import Footpaths, joined, read_walks
from ..gtfs.stops import read_stops
from ..gtfs.timetable import DAY, Runs, Timetable, read_edits, read_timetable, runs_of
from ..streets.graph import degrees_of
from ..streets.osm import Streets
from ..streets.router import Router
from ..streets.walks import distances, points_of
from . import search
from .found import last_to_arrive
from .legs import DrawnLeg, calls_of_ride, ridden
from .network import Schedule
from .search import Leg

Expected = Callable[[str, str, int], float]  # the engine's seconds of an origin, a destination and a minute of the day


@dataclass(frozen=True)
class DepartureWindow:
    """When journeys begin, and with how many vehicles.

    Attributes
    ----------
    first
        The first departure, in minutes since midnight.
    count
        The number of departures, one each minute.
    days
        The numbers of service days before and after the date whose trips run.
    """

    date: datetime.date
    first: int
    count: int
    rides: int
    days: tuple[int, int] = (1, 1)

    @property
    def begin(self) -> int:
        """The first departure in seconds on the axis of times, which begins with the first of the service days."""
        return DAY * self.days[0] + 60 * self.first

    def at(self, seconds: int) -> datetime.datetime:
        """Return a time of the axis as a local date and time."""
        midnight = datetime.datetime.combine(self.date, datetime.time())
        return midnight + datetime.timedelta(days=-self.days[0], seconds=int(seconds))


@dataclass(frozen=True)
class PlacesToSearch:
    """A feed whose stops include origins and destinations, and the walks between its stops.

    Attributes
    ----------
    feed, footpaths
        The folder of the feed, and the file of its walks.
    walk
        The longest walk, in seconds.
    ends
        The stops that are origins, and those that are destinations.
    direct
        Seconds of walks from origins to destinations that `footpaths` leaves out; NaN for none.
    alights
        For each stop at which you alight the one at which you board, where these are two.
    are_stops
        Whether origins, and destinations, are stops of the feed itself, which legs name.
    """

    feed: Path
    footpaths: Path
    walk: int
    ends: tuple[Sequence[str], Sequence[str]]
    direct: npt.NDArray[np.float64] | None = None
    alights: Mapping[str, str] = field(default_factory=dict)
    are_stops: tuple[bool, bool] = (False, False)

    @cached_property
    def timetable(self) -> Timetable:
        return read_timetable(read_stops(str(self.feed)))

    @cached_property
    def numbers(self) -> dict[str, int]:
        """The position of each stop in the timetable."""
        return {name: place for place, name in enumerate(self.timetable.stops)}

    @cached_property
    def boards(self) -> dict[int, int]:
        """`alights` by positions in the timetable."""
        return {self.numbers[name]: self.numbers[stop] for name, stop in self.alights.items()}

    @cached_property
    def unnamed(self) -> set[str]:
        """The origins and destinations that are no stops of the feed itself."""
        return {name for names, are_stops in zip(self.ends, self.are_stops) if not are_stops for name in names}

    @cached_property
    def walks(self) -> tuple[Footpaths, Whole]:
        """All walks, and the change time at each stop."""
        walks, changes = read_walks(self.timetable, str(self.footpaths), self.walk)
        if self.direct is None:
            return walks, changes
        begins, ends = (np.array([self.numbers[name] for name in names], np.int64) for names in self.ends)
        one, other = np.nonzero(~np.isnan(self.direct))
        own = Footpaths(begins[one], ends[other], self.direct[one, other].astype(np.int64))
        return joined([walks, own]), changes


@dataclass(frozen=True)
class Journey:
    """A journey that begins at a minute of the window."""

    minute: int
    seconds: int
    legs: list[Leg]


@dataclass(frozen=True)
class ItinerarySearch:
    """The search for journeys in one scenario.

    Attributes
    ----------
    scenario
        The file of the scenario; None for the feed as it is.
    expected
        The engine's travel times, NaN for none, with which the journeys are compared.
    below
        Journeys that take as many seconds or more are left out.
    """

    places: PlacesToSearch
    window: DepartureWindow
    expected: Expected
    below: float = float("inf")
    scenario: Path | None = None

    @cached_property
    def runs(self) -> Runs:
        edits = read_edits(None if self.scenario is None else str(self.scenario))
        return runs_of(self.places.timetable, self.window.date, self.window.days, edits)

    @cached_property
    def schedule(self) -> Schedule:
        walks, changes = self.places.walks
        return Schedule(self.places.timetable.events, self.runs, walks, changes, self.window.begin)

    @cached_property
    def departures(self) -> list[int]:
        return [self.window.begin + 60 * minute for minute in range(self.window.count)]

    def between(self, origin: str, destination: str) -> list[Journey]:
        """Return the journeys from one place to another, by their departures.

        Raises
        ------
        InputError
            The engine has another travel time.
        """
        if origin == destination:
            return []
        begin, end = self.places.numbers[origin], self.places.numbers[destination]
        seconds = search.durations(self.schedule, begin, end, self.departures, self.window.rides)
        journeys = dict[Hashable, Journey]()
        for minute in reversed(last_to_arrive(self.departures, seconds)):
            taken = seconds[minute]
            if taken is not None and taken < self.below:
                self.check(origin, destination, minute, taken)
                legs = [leg for leg in self.legs(begin, end, minute, taken) if not self.is_change(leg)]
                journeys.setdefault(ridden(legs), Journey(minute, taken, legs))
        return sorted(journeys.values(), key=lambda journey: journey.minute)

    def legs(self, begin: int, end: int, minute: int, taken: int) -> list[Leg]:
        departure = self.departures[minute]
        within = self.schedule.within(departure, departure + taken)
        return search.journey(search.Search(within, begin, departure, self.window.rides), end)

    def is_change(self, leg: Leg) -> bool:
        """Return whether a walk is a change between two vehicles at a stop, in a feed with two stops for one."""
        return leg.run is None and self.places.boards.get(leg.start) == leg.end

    def check(self, origin: str, destination: str, minute: int, taken: int) -> None:
        """Refuse a journey that doesn't take as long as the engine says."""
        of_day = self.window.first + minute
        expected = self.expected(origin, destination, of_day)
        if self.places.direct is not None:
            begins, ends = self.places.ends
            expected = float(np.fmin(expected, self.places.direct[begins.index(origin), ends.index(destination)]))
        if np.isnan(expected) or int(expected) != taken:
            text = f"at {as_minute(of_day)}: ttm has {expected} seconds, and this search {taken}"
            raise InputError("the travel times differ", text)


class LegDrawing:
    """Where the legs of journeys go: walks along streets, rides straight from stop to stop.

    Parameters
    ----------
    found
        The search that found the journeys.
    streets
        The streets, and the metres to one that are walked straight; None for straight walks.
    walking
        How far and how fast travellers walk.
    """

    def __init__(self, found: ItinerarySearch, streets: tuple[Streets, float] | None, walking: Walking) -> None:
        self.found, self.streets, self.walking = found, streets, walking
        timetable = found.places.timetable
        stops = timetable.all_stops
        chosen = [stops.places[name] for name in timetable.stops]
        self.points = points_of(stops.latitudes[chosen], stops.longitudes[chosen])
        self.placed = stops.placed[chosen]
        self.router: Router | None = None
        self.numbers = dict[int, int]()

    def walk_along(self, legs: Sequence[Leg]) -> None:
        """Put the ends of all walks on the streets, at once."""
        ends = {place for leg in legs if leg.run is None for place in (leg.start, leg.end) if self.placed[place]}
        if ends and self.streets is not None:
            points = self.points[sorted(ends)]
            self.numbers = {place: number for number, place in enumerate(sorted(ends))}
            self.router = Router(self.streets[0], points, self.walking, self.streets[1])

    def line_of(self, leg: Leg) -> tuple[Floats, float]:
        """Return the points of a leg, and its metres."""
        ends, detour = self.points[[leg.start, leg.end]], 1.0
        if leg.run is not None:
            ends = self.points[self.stops_of(leg)]
        elif self.streets is None:
            detour = self.walking.detour
        elif self.router is not None and {leg.start, leg.end} <= self.numbers.keys():
            line, metres = self.router.path(self.numbers[leg.start], self.numbers[leg.end])
            if len(line):
                return line, metres
        return ends, detour * float(distances(ends[:-1], ends[1:]).sum())

    def stops_of(self, leg: Leg) -> list[int]:
        """Return the stops of a ride, with both ends."""
        assert leg.run is not None
        runs, events = self.found.runs, self.found.places.timetable.events
        calls = calls_of_ride(events, int(runs.trip[leg.run]), int(runs.shift[leg.run]), leg)
        called = [self.found.places.boards.get(stop, stop) for stop in events.stop[calls].tolist()]
        return [stop for stop, before in zip(called, [-1, *called]) if stop != before]

    def legs_of(self, journey: Journey) -> Iterator[DrawnLeg]:
        """Yield the legs of a journey."""
        places, window = self.found.places, self.found.window
        time = self.found.departures[journey.minute]
        for leg in journey.legs:
            line, metres = self.line_of(leg)
            called = [places.timetable.stops[places.boards.get(stop, stop)] for stop in (leg.start, leg.end)]
            ends = [None if name in places.unnamed else name for name in called]
            trip = None if leg.run is None else int(self.found.runs.trip[leg.run])
            begin, end = window.at(leg.begin), window.at(leg.finish)
            yield DrawnLeg(trip, ends[0], ends[1], begin, end, int(leg.begin - time), metres, degrees_of(line))
            time = leg.finish
