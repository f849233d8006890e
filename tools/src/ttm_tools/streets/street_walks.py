"""Walking links along streets between the stops of a feed, by way of the entrances of their stations."""

from dataclasses import dataclass
from typing import Iterator

import numpy as np

from ..core.arrays import Floats
from ..core.walking import Walking
from ..gtfs.stops import Stops
from .counting import Places, Ways, WaysFound
from .osm import Streets
from .router import Endpoints, Router
from .straight import Entrances, Walks, doors_of, entrances_of, inside_ways, points_of


@dataclass(frozen=True)
class SnappedStops:
    """The stops of a feed that have coordinates, on streets.

    A stop has one *door*: its own position. If its station lists entrances, each of these is a door instead (GTFS
    reference, stops.txt).

    Attributes
    ----------
    indices
        Index of each of these stops among all stops of the feed, shape (n,).
    positions
        Positions of these stops, shape (n, 3).
    stations
        The `parent_station` of each of these stops, or "".
    entrances
        Positions of each station's entrances, by station.
    doors
        The doors of all these stops, d in number.
    router
        The streets with the d doors on them.
    """

    indices: Places
    positions: Floats
    stations: list[str]
    entrances: dict[str, Floats]
    doors: Entrances
    router: Router

    def walks(self, only: Endpoints) -> Iterator[Ways]:
        """Find the walks between these stops, along streets and within stations.

        Several walks may join the same two stops; one of these is the shortest.

        Parameters
        ----------
        only
            Which stops are origins, and which destinations, among all stops of the feed.

        Yields
        ------
        tuple of arrays
            Origin, destination (both as positions in `indices`) and metres of some walks.
        """
        origins, destinations = only.origins[self.indices], only.destinations[self.indices]
        doors = self.doors.stop
        for origin, destination, metres in self.router.walks(Endpoints(origins[doors], destinations[doors])):
            a, b = doors[origin], doors[destination]
            differ = a != b
            yield a[differ], b[differ], metres[differ]
        detour = self.router.walking.detour
        for a, b, metres in inside_ways(self.positions, self.stations, self.entrances, self.router.limit / detour):
            for origin, destination in ((a, b), (b, a)):
                chosen = origins[origin] & destinations[destination]
                yield origin[chosen], destination[chosen], metres[chosen] * detour


def snap_stops(stops: Stops, streets: Streets, walking: Walking, near: float) -> SnappedStops:
    """Put the stops at which vehicles call (`location_type` 0 or empty) on streets.

    Parameters
    ----------
    near
        See `Snaps.connectors`.
    """
    indices = np.flatnonzero((stops.kinds == 0) & stops.placed)
    positions = points_of(stops.latitudes[indices], stops.longitudes[indices])
    stations, entrances = [stops.stations[index] for index in indices], entrances_of(stops)
    doors = doors_of(positions, stations, entrances)
    router = Router(streets, doors.point, walking, near, doors.inside)
    return SnappedStops(indices, positions, stations, entrances, doors, router)


def street_walks(
    stops: Stops,
    walking: Walking,
    streets: Streets,
    near: float,
    first: int | None = None,
    only: Endpoints | None = None,
) -> Walks:
    """Compute walking links along streets between stops.

    Parameters
    ----------
    stops
        The stops of a feed. Only those at which vehicles call get links.
    walking
        The walking limit and speed; its detour factor applies only off the streets.
    near
        See `Snaps.connectors`.
    first
        If given, only links to or from one of the first `first` stops are returned.
    only
        Which stops are origins, and which destinations; by default every stop at which vehicles call is both.

    Raises
    ------
    TooManyWalks
        There are more links than `ttm` reads.
    """
    called, snapped = stops.kinds == 0, snap_stops(stops, streets, walking, near)
    indices, router = snapped.indices, snapped.router
    found = WaysFound(stops.path, first and int(np.searchsorted(indices, first)), directions=1)
    for walks in snapped.walks(only or Endpoints(called, called)):
        found.take(*walks)
    origins, destinations, metres = found.all()

    # The limit in metres has some slack for rounding; the whole seconds decide.
    seconds = walking.seconds(metres)
    fits = seconds <= walking.max_seconds

    in_reach = router.connectors <= router.limit
    doors = snapped.doors.stop
    unlinked = {
        "lost": np.flatnonzero(called & ~stops.placed),
        "far": indices[np.unique(doors[(router.snaps.distance > near) & in_reach])],
        "apart": np.delete(indices, np.unique(doors[in_reach])),
    }
    lost, far, apart = (len(places) for places in unlinked.values())
    ends = indices[origins[fits]], indices[destinations[fits]]
    return Walks(stops.identifiers, *ends, seconds[fits], lost, far, apart, unlinked)
