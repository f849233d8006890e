"""Streets and feeds, made ready once and kept, and the networks of the library that answer for them."""

import datetime
import os
import threading
from dataclasses import replace
from pathlib import Path
from typing import Any, Iterable

import numpy as np

from ...api.network import Network
from ...api.opening import prepared_feed, read_cached_streets
from ...core.errors import needs
from ...core.notes import warn_of
from ...core.tables import rows
from ...engine.arguments import Pathlike
from ...places.frames import DEGREES
from .modes import ElevationCostFunction, TransportMode, VEHICLES, mode_of
from .refusals import NotAvailable
from .task import NEAR

TODAY = "today"  # the scenario of a network as it is
INSTEAD = "ttm_tools.open_network(gtfs) has stops, routes, trips_by_date and service(date)"


class TransitLayer:
    """What r5py's `transit_layer` says of the dates of a timetable; all else of it raises `NotAvailable`."""

    def __init__(self, feed: Network | None) -> None:
        self._feed = feed

    @property
    def _dates(self) -> tuple[datetime.date, datetime.date]:
        if self._feed is None:
            raise NotAvailable("gtfs", "the network has no feed", "TransportNetwork(osm_pbf, gtfs)")
        return self._feed.dates

    @property
    def start_date(self) -> datetime.datetime:
        """The first day on which a trip runs."""
        return datetime.datetime.combine(self._dates[0], datetime.time())

    @property
    def end_date(self) -> datetime.datetime:
        """The last second of the last day on which a trip runs."""
        return datetime.datetime.combine(self._dates[1], datetime.time(23, 59, 59))

    def covers(self, point_in_time: datetime.datetime) -> bool:
        """Whether a time is on the first or the last day on which a trip runs, or between them."""
        return self._feed is not None and self.start_date <= point_in_time <= self.end_date

    def __getattr__(self, name: str) -> Any:
        if name.startswith("__"):
            raise AttributeError(name)
        raise NotAvailable(f"transit_layer.{name}", "it isn't supported", INSTEAD)


class TransportNetwork:
    """Streets of OpenStreetMap and feeds of public transport, for matrices, isochrones and itineraries.

    Feeds are repaired by the rules of `ttm-tools prepare`, and a warning says what was repaired; `repair=False` refuses
    feeds with errors, and `allow_errors=True` goes on where mending takes much of a feed. Streets, feeds and walks are
    kept in the cache folder.
    """

    def __init__(
        self,
        osm_pbf: Pathlike,
        gtfs: Pathlike | Iterable[Pathlike] = (),
        elevation_model: Pathlike | None = None,
        elevation_cost_function: ElevationCostFunction = ElevationCostFunction.TOBLER,
        allow_errors: bool = False,
        *,
        repair: bool = True,
        program: Pathlike | None = None,
    ) -> None:
        needs("geopandas", "osmium", "scipy")
        if elevation_model is not None:
            raise NotAvailable("elevation_model", "ttm knows no slopes", "leave it out: walks are as on flat ground")
        paths = [os.fspath(gtfs)] if isinstance(gtfs, (str, os.PathLike)) else [os.fspath(path) for path in gtfs]
        self.program, self.lock = program, threading.Lock()
        self.parts: dict[tuple[str, ...], Network] = {}  # by routes, of a feed with some of them alone
        self.streets, self.streets_key = read_cached_streets(os.fspath(osm_pbf))
        self.paths, self.options = paths, (repair, allow_errors)
        self.feed: Network | None = None
        self.feed = self.opened(()) if paths else None

    @classmethod
    def from_directory(cls, path: Pathlike) -> "TransportNetwork":
        """The streets of the one .osm.pbf file and the feeds of all .zip files of a folder."""
        found = sorted(Path(path).glob("*.osm.pbf"))
        if len(found) != 1:
            raise NotAvailable("path", f"{path} has {len(found)} .osm.pbf files", "put one there")
        return cls(found[0], sorted(Path(path).glob("*.zip")))

    def __enter__(self) -> "TransportNetwork":
        return self

    def __exit__(self, *_: object) -> None:
        self.close()

    def close(self) -> None:
        """Ends the processes that keep networks."""
        with self.lock:
            for network in [*self.parts.values(), *([self.feed] if self.feed is not None else [])]:
                network.close()

    @property
    def transit_layer(self) -> TransitLayer:
        """The dates of the timetable."""
        return TransitLayer(self.feed)

    @property
    def extent(self) -> Any:
        """The rectangle of all streets, in degrees, as a polygon of shapely."""
        from shapely.geometry import box

        east, north = self.streets.longitudes, self.streets.latitudes
        return box(east.min(), north.min(), east.max(), north.max())

    def snap_to_network(
        self, points: Any, radius: float = NEAR, street_mode: TransportMode = TransportMode.WALK
    ) -> Any:
        """The nearest point on a street to each point of a series of geopandas; an empty point where none is so near,
        metres.
        """
        import geopandas

        from ...streets.graph import on_streets

        if street_mode is not TransportMode.WALK:
            raise NotAvailable("street_mode", f"{street_mode} isn't supported", "TransportMode.WALK")
        degrees = points.to_crs(DEGREES)
        found, metres = on_streets(self.streets, degrees.y.to_numpy(), degrees.x.to_numpy())
        found[metres > radius] = np.nan
        series = geopandas.GeoSeries(geopandas.points_from_xy(*found.T), index=points.index, crs=DEGREES)
        return series.to_crs(points.crs)

    def feed_with(self, vehicles: frozenset[TransportMode]) -> Network | None:
        """The network of the routes of some modes alone; none where the feed has no such routes."""
        if self.feed is None or not vehicles or vehicles == frozenset(VEHICLES):
            return self.feed if vehicles else None
        kinds = rows(self.feed._state.feed.folder / "routes.txt", ["route_id", "route_type"])
        routes = tuple(route for _, (route, kind) in kinds if mode_of(int(kind.strip() or -1)) in vehicles)
        if not routes:
            return None
        with self.lock:
            if routes not in self.parts:
                self.parts[routes] = self.opened(routes)
            return self.parts[routes]

    def opened(self, routes: tuple[str, ...]) -> Network:
        """The network of the feed, or of some of its routes; a warning says what was repaired."""
        if self.feed is None or not routes:
            feed, note = prepared_feed(self.paths, *self.options)
        else:
            whole = self.feed._state.feed
            feed, note = prepared_feed([str(whole.folder)], False, False, routes=routes)
            feed = replace(feed, name=whole.name)
        notes = [note] if note is not None else []
        for one in notes:
            warn_of(one)
        network = Network(feed, (self.streets, self.streets_key), tuple(notes))
        network._state.program = None if self.program is None else Path(self.program)
        return network


def network_from(given: Any) -> TransportNetwork:
    """A network, or what one is made from: a tuple of the file of streets, feeds, and further arguments by name."""
    if isinstance(given, TransportNetwork):
        return given
    if not isinstance(given, tuple) or not given:
        what = f"{type(given).__name__} is not a network"
        raise NotAvailable("transport_network", what, "TransportNetwork(osm_pbf, gtfs)")
    return TransportNetwork(*given[:2], **(given[2] if len(given) > 2 else {}))
