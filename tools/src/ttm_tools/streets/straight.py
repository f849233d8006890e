"""Footpaths from the coordinates of stops: straight lines over ground, made longer by a detour factor.

Two stops have a footpath, in each direction, where the way between them takes at most the limit: the distance times the
detour factor at the walking speed, rounded up to whole seconds. Stops are those at which vehicles call: `location_type`
0 or empty. Where their station lists entrances (`location_type` 2), one reaches or leaves it only by an entrance;
within one station one walks directly (GTFS reference, stops.txt).
"""

import math
from dataclasses import dataclass, field
from typing import BinaryIO, Iterator, Mapping

import numpy as np
import numpy.typing as npt

from ..core.arrays import Floats
from ..core.errors import InputError
from ..core.limits import MOST_FOOTPATHS
from ..core.tables import RoundingCounter, rows
from ..core.text import display_text
from ..core.walking import Walking
from ..gtfs.columns import coded
from ..gtfs.footpath_file import write_footpaths
from ..gtfs.stops import EARTH, Stops
from .counting import Places, Ways, WaysFound

PAIRS_AT_ONCE = 1_000_000
TOLERANCE = 1e-5  # metres: more than what rounding moves, and than the slack of `Walking`


@dataclass(frozen=True)
class Walks:
    """Footpaths between stops, in the order of the feed's stops, and how many stops have no place."""

    stops: list[str]
    origins: Places  # places among the stops
    destinations: Places
    seconds: npt.NDArray[np.int64]
    lost: int = 0  # stops without a place
    far: int = 0  # joined to a street that isn't near
    apart: int = 0  # with no street in reach
    unlinked: Mapping[str, Places] = field(default_factory=dict)  # the stops of these counts, by their names

    def named(self, which: str) -> list[str]:
        """The identifiers of the stops that are lost, far or apart, in the feed's order."""
        return [self.stops[place] for place in self.unlinked.get(which, np.zeros(0, np.int64)).tolist()]

    def write(self, out: BinaryIO) -> None:
        """Write the footpaths as `ttm` reads them."""
        write_footpaths(out, (self.origins, self.destinations), self.seconds, (self.stops, self.stops))

    def rows(self) -> list[tuple[str, str, int]]:
        """Return the footpaths, with the identifiers of their stops."""
        ends = zip(self.origins.tolist(), self.destinations.tolist(), self.seconds.tolist())
        return [(self.stops[a], self.stops[b], seconds) for a, b, seconds in ends]


@dataclass(frozen=True)
class Entrances:
    """Points at which stops are reached from outside of their stations, `inside` metres of way from the stop itself."""

    stop: Places
    point: Floats  # metres from the middle of the globe, three a point
    inside: Floats


def points_of(latitudes: Floats, longitudes: Floats) -> Floats:
    """Places on the globe, in metres from its middle."""
    north, east = np.radians(latitudes), np.radians(longitudes)
    across = np.cos(north)
    return np.asarray(EARTH * np.stack([across * np.cos(east), across * np.sin(east), np.sin(north)], axis=-1))


def distances(a: Floats, b: Floats) -> Floats:
    """Metres over ground between points of the globe."""
    chord = np.sqrt(((a - b) ** 2).sum(axis=-1))
    return np.asarray(2 * EARTH * np.arcsin(np.minimum(1.0, chord / (2 * EARTH))))


def count_pairs(points: Floats, metres: float) -> int:
    """Count the pairs of points within a distance over ground, which takes no memory."""
    from scipy.spatial import cKDTree

    tree = cKDTree(points)
    chord = 2 * EARTH * math.sin(min(max(metres, 0.0) / (2 * EARTH), math.pi / 2))
    return int(tree.count_neighbors(tree, chord) - len(points)) // 2


def near_pairs(points: Floats, metres: float, some: Places | None = None) -> Iterator[tuple[Places, Places]]:
    """Yield the pairs of points within a distance, `PAIRS_AT_ONCE` of them at a time.

    Parameters
    ----------
    points
        Positions, shape (n, 3).
    metres
        The distance, through the globe.
    some
        If given, pairs have one of these points first, and two of these are in two pairs. Otherwise each pair is
        yielded once.
    """
    from scipy.spatial import cKDTree

    tree = cKDTree(points)
    if some is None and tree.count_neighbors(tree, metres) - len(points) <= MOST_FOOTPATHS:
        pairs = tree.query_pairs(metres, output_type="ndarray")
        for begin in range(0, len(pairs), PAIRS_AT_ONCE):
            yield pairs[begin : begin + PAIRS_AT_ONCE, 0], pairs[begin : begin + PAIRS_AT_ONCE, 1]
        return
    chosen = np.arange(len(points)) if some is None else some
    counts = np.cumsum(tree.query_ball_point(points[chosen], metres, return_length=True))
    cuts = np.searchsorted(counts, np.arange(PAIRS_AT_ONCE, counts[-1:].max(initial=0), PAIRS_AT_ONCE))
    for own in np.split(chosen, cuts):
        found = cKDTree(points[own]).sparse_distance_matrix(tree, metres, output_type="ndarray")
        one, other = own[found["i"]], found["j"]
        once = one < other if some is None else one != other
        yield one[once], other[once]


def doors_of(points: Floats, stations: list[str], entrances: dict[str, Floats]) -> Entrances:
    """Where each stop is reached from outside: at the entrances of its station, or where it stands."""
    entered = np.array([station in entrances for station in stations], dtype=np.bool_)
    alone = np.flatnonzero(~entered)
    stop, where, inside = [alone], [points[alone]], [np.zeros(len(alone))]
    for number in np.flatnonzero(entered).tolist():
        there = entrances[stations[number]]
        stop.append(np.full(len(there), number))
        where.append(there)
        inside.append(distances(points[number : number + 1], there))
    order = np.argsort(np.concatenate(stop), kind="stable")
    return Entrances(np.concatenate(stop)[order], np.concatenate(where)[order], np.concatenate(inside)[order])


def ways(points: Floats, stations: list[str], entrances: dict[str, Floats], metres: float, found: WaysFound) -> Ways:
    """The shortest way between two stops, the lower first, in metres before any detour, where it is at most so long."""
    doors, station = doors_of(points, stations, entrances), coded(stations).codes
    entered = np.array([name in entrances for name in stations], dtype=np.bool_)
    some = None if found.first is None else np.flatnonzero(doors.stop < found.first)
    if some is None and not entered.any():
        found.expect(count_pairs(doors.point, metres - TOLERANCE))
    for one, other in near_pairs(doors.point, metres, some):
        a, b = doors.stop[one], doors.stop[other]
        outside = (a != b) & ~(entered[a] & (station[a] == station[b]))
        a, b, one, other = a[outside], b[outside], one[outside], other[outside]
        length = doors.inside[one] + distances(doors.point[one], doors.point[other]) + doors.inside[other]
        near = length <= metres
        found.take(np.minimum(a, b)[near], np.maximum(a, b)[near], length[near])
    for a, b, length in inside_ways(points, stations, entrances, metres):
        found.take(np.minimum(a, b), np.maximum(a, b), length)
    return found.all()


def inside_ways(points: Floats, stations: list[str], entrances: dict[str, Floats], metres: float) -> list[Ways]:
    """The ways between two stops within a station that lists its entrances."""
    station = coded(stations).codes
    inside = np.flatnonzero([name in entrances for name in stations])
    found = []
    for one, other in near_pairs(points[inside], metres):
        a, b = inside[one], inside[other]
        within = station[a] == station[b]
        a, b = a[within], b[within]
        length = distances(points[a], points[b])
        near = length <= metres
        found.append((a[near], b[near], length[near]))
    return found


def entrances_of(stops: Stops) -> dict[str, Floats]:
    found: dict[str, list[int]] = {}
    for place in np.flatnonzero((stops.kinds == 2) & stops.placed):
        found.setdefault(stops.stations[place], []).append(int(place))
    found.pop("", None)
    return {station: points_of(stops.latitudes[places], stops.longitudes[places]) for station, places in found.items()}


def straight_walks(stops: Stops, walking: Walking, first: int | None = None) -> Walks:
    """The footpaths between all stops of a feed at which vehicles call, or between the first ones and all."""
    called = stops.kinds == 0
    chosen = np.flatnonzero(called & stops.placed)
    points = points_of(stops.latitudes[chosen], stops.longitudes[chosen])
    found = WaysFound(stops.path, first and int(np.searchsorted(chosen, first)), directions=2)
    stations = [stops.stations[place] for place in chosen]
    low, high, length = ways(points, stations, entrances_of(stops), walking.max_straight_metres, found)
    seconds = walking.straight_seconds(length)
    near = seconds <= walking.max_seconds
    low, high, seconds = low[near], high[near], np.tile(seconds[near], 2)
    a, b = np.concatenate([low, high]), np.concatenate([high, low])
    order = np.lexsort((b, a))
    lost = np.flatnonzero(called & ~stops.placed)
    ends = chosen[a[order]], chosen[b[order]]
    return Walks(stops.identifiers, *ends, seconds[order], len(lost), unlinked={"lost": lost})


def read_walks(path: str, stops: Stops, rounded: RoundingCounter) -> Walks:
    """The footpaths of a table with from_stop_id, to_stop_id and seconds, as an engine of streets writes it."""
    found = list[tuple[int, int, int]]()
    for number, (a, b, seconds) in rows(path, ["from_stop_id", "to_stop_id", "seconds"]):
        for column, stop in (("from_stop_id", a), ("to_stop_id", b)):
            if stop not in stops.places:
                raise InputError(
                    path, f"is not a stop of {stops.path}", record=number, column=column, value=display_text(stop)
                )
        whole = rounded.to_int(seconds, path, number, "seconds", up=True)
        found.append((stops.places[a], stops.places[b], whole))
    return Walks(stops.identifiers, *np.array(found, np.int64).reshape(-1, 3).T)
