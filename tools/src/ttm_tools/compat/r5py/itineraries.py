"""Journeys leg by leg, as frames with r5py's columns."""

import datetime
import itertools
import warnings
from functools import partial
from typing import Any, Iterator, Sequence

import geopandas
import numpy as np
from shapely.geometry import LineString

from ...api.itineraries import itinerary_frame
from ...api.network import Network
from ...core.tables import rows
from ...places.frames import DEGREES, FramePlaces
from ...streets.graph import degrees_of
from ...streets.router import Router
from ...streets.walks import points_of
from .asking import request_of, warn_of_notes
from .frames import ComputedGeoFrame
from .matrix import ends_of
from .modes import TransportMode, mode_of
from .network import TransportNetwork, network_from
from .task import NEAR, RegionalTask

COLUMNS = (
    "from_id to_id option segment transport_mode departure_time distance travel_time wait_time feed agency_id route_id "
    "start_stop_id end_stop_id geometry"
).split()
Row = dict[str, Any]
PlacePairs = Sequence[tuple[int, int]]  # places among the origins and the destinations


def pairs_of(origins: FramePlaces, destinations: FramePlaces, all_to_all: bool) -> list[tuple[int, int]]:
    """Between which places: the first with the first and so on where there are as many, else all with all."""
    begins, ends = range(len(origins.identifiers)), range(len(destinations.identifiers))
    if origins is destinations or len(begins) != len(ends) or all_to_all:
        pairs = [(begin, end) for begin in begins for end in ends]
    else:
        pairs = list(zip(begins, ends))
    placed = set(origins.placed.tolist()), set(destinations.placed.tolist())
    return [(begin, end) for begin, end in pairs if begin in placed[0] and end in placed[1]]


def ridden(
    feed: Network, task: RegionalTask, ends: tuple[FramePlaces, FramePlaces], pairs: PlacePairs
) -> Iterator[Row]:
    """The journeys of each pair, which take vehicles or walk."""
    in_turn = pairs != list(itertools.product(*(places.placed.tolist() for places in ends)))
    if in_turn:
        ends = chosen(ends[0], [begin for begin, _ in pairs]), chosen(ends[1], [end for _, end in pairs])
    request = request_of(task, *ends, task.max_time - 1)
    legs, notes = itinerary_frame(feed._state, request, "row_by_row" if in_turn else "all", False)
    warn_of_notes(notes)
    kinds = rows(feed._state.feed.folder / "routes.txt", ["route_id"], ["agency_id", "route_type"])
    routes = {route: (agency or None, mode_of(int(kind.strip() or -1))) for _, (route, agency, kind) in kinds}
    for leg in legs.to_dict("records"):
        agency, mode = (None, TransportMode.WALK) if leg["route_id"] is None else routes[leg["route_id"]]
        yield {
            "from_id": leg["from_id"],
            "to_id": leg["to_id"],
            "option": leg["option"],
            "segment": leg["leg"],
            "transport_mode": mode,
            "departure_time": leg["departure"],
            "distance": leg["metres"],
            "travel_time": datetime.timedelta(seconds=leg["seconds"]),
            "wait_time": datetime.timedelta(seconds=leg["wait_seconds"]),
            "feed": None if leg["route_id"] is None else feed._state.feed.name,
            "agency_id": agency,
            "route_id": leg["route_id"],
            "start_stop_id": leg["from_stop_id"],
            "end_stop_id": leg["to_stop_id"],
            "geometry": leg["geometry"],
        }


def chosen(places: FramePlaces, rows_chosen: Sequence[int]) -> FramePlaces:
    """Some places, in this order."""
    identifiers = [places.identifiers[row] for row in rows_chosen]
    wanted = list(rows_chosen)
    return FramePlaces(places.name, identifiers, places.longitudes[wanted], places.latitudes[wanted])


def walked(
    network: TransportNetwork, task: RegionalTask, ends: tuple[FramePlaces, FramePlaces], pairs: PlacePairs
) -> Iterator[Row]:
    """The walk of each pair, where there is one."""
    begins, others = (points_of(np.nan_to_num(places.latitudes), np.nan_to_num(places.longitudes)) for places in ends)
    router = Router(network.streets, np.concatenate([begins, others]), task.walking(), NEAR)
    seconds = router.seconds(len(begins))
    for one, other in pairs:
        same = ends[0] is ends[1] and one == other
        if same or np.isnan(seconds[one, other]):
            continue
        line, metres = router.path(one, len(begins) + other)
        yield {
            "from_id": ends[0].identifiers[one],
            "to_id": ends[1].identifiers[other],
            "option": 0,
            "segment": 0,
            "transport_mode": TransportMode.WALK,
            "departure_time": task.times.at(0),
            "distance": metres,
            "travel_time": datetime.timedelta(seconds=float(seconds[one, other])),
            "wait_time": datetime.timedelta(),
            "geometry": LineString(degrees_of(line)),
        }


class DetailedItineraries(ComputedGeoFrame):
    """The journeys between origins and destinations, a row for each leg: between the first, the second and so on where
    there are as many, else between all of them.
    """

    def __init__(
        self,
        transport_network: Any,
        origins: Any = None,
        destinations: Any = None,
        snap_to_network: bool | float = False,
        force_all_to_all: bool = False,
        **kwargs: Any,
    ) -> None:
        network = network_from(transport_network)
        task = RegionalTask(network, **kwargs)
        both = ends_of(network, origins, destinations, snap_to_network)[:2]
        pairs, feed = pairs_of(*both, force_all_to_all), network.feed_with(task.vehicles)
        found = list[Row]()
        if pairs:
            found += walked(network, task, both, pairs) if feed is None else ridden(feed, task, both, pairs)
        columns = {name: [row.get(name) for row in found] for name in COLUMNS[:-1]}
        super().__init__(columns, geometry=[row["geometry"] for row in found], crs=DEGREES)


class DetailedItinerariesComputer:
    """The same by the names of r5py 0.1: `DetailedItinerariesComputer(..).compute_travel_details()`."""

    def __init__(
        self,
        transport_network: Any,
        origins: Any = None,
        destinations: Any = None,
        snap_to_network: bool | float = False,
        force_all_to_all: bool = False,
        **kwargs: Any,
    ) -> None:
        text = "DetailedItineraries replaces DetailedItinerariesComputer in r5py 1.0"
        warnings.warn(text, DeprecationWarning, stacklevel=2)
        RegionalTask(transport_network, **kwargs)
        more = (snap_to_network, force_all_to_all)
        self.compute = partial(DetailedItineraries, transport_network, origins, destinations, *more, **kwargs)

    def compute_travel_details(self) -> geopandas.GeoDataFrame:
        """The journeys."""
        return geopandas.GeoDataFrame(self.compute())
