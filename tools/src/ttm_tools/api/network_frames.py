"""The parts of a network as frames and values: its timetable, stops, routes, streets and scenarios."""

import datetime as dt
from functools import cached_property
from pathlib import Path
from typing import Any, Literal

import geopandas
import numpy as np
import pandas
from shapely.geometry import Polygon

from ..core.errors import ArgumentError, InputError
from ..core.notes import Note, warn_of
from ..core.question import Date, checked_date, not_allowed
from ..core.scenarios import TODAY
from ..core.text import quantity
from ..core.times import day_of
from ..places.doors import NEAR, PreparedFeed
from ..streets.graph import on_streets
from ..streets.osm import Streets
from .engines import NetworkState
from .feed_frames import extent_of, read_repairs, routes_of, stops_of, trips_by_date_of
from .frames import DEGREES
from .service import GROUPINGS, day_of as service_day_of, service_frame


class NetworkFrames:
    """The parts of a network, as frames and values."""

    def __init__(
        self,
        feed: PreparedFeed,
        streets: tuple[Streets, str] | None,
        notes: tuple[Note, ...],
        names: tuple[str, ...] = (),
    ) -> None:
        self._state, self._notes, self._names = NetworkState(feed, streets), notes, names
        self._base: Any = self  # the network without scenarios

    @property
    def scenarios(self) -> tuple[str, ...]:
        """Names; the first, ``"today"``, is the feed as it is."""
        return (TODAY, *self._names)

    @property
    def dates(self) -> tuple[dt.date, dt.date]:
        """First and last day on which a trip runs."""
        days = self.trips_by_date.index
        if not len(days):
            raise InputError("gtfs", "no trip runs on any day")
        return days[0].date(), days[-1].date()

    @cached_property
    def _runs(self) -> pandas.Series:
        return trips_by_date_of(self._base._state.feed.folder)

    @property
    def trips_by_date(self) -> pandas.Series:
        """Number of trips of each day between them, by date; for choosing a typical day."""
        return self._runs.copy()

    @cached_property
    def _stops(self) -> geopandas.GeoDataFrame:
        return stops_of(self._state.feed.folder)

    @property
    def stops(self) -> geopandas.GeoDataFrame:
        """Stops as points in EPSG:4326, by `stop_id`, with the feed's own columns."""
        return self._stops.copy()

    @property
    def routes(self) -> geopandas.GeoDataFrame:
        """Routes as lines in EPSG:4326, by `route_id`, with the feed's own columns and `mode`."""
        return routes_of(self._base._state.feed.folder, self._base._stops)

    @property
    def extent(self) -> Polygon:
        """Rectangle around streets and stops, in EPSG:4326."""
        return extent_of(self._stops, self._state.streets[0] if self._state.streets else None)

    @property
    def repairs(self) -> pandas.DataFrame:
        """Each repair: file, record, column, value, rule, result."""
        return read_repairs(self._base._state.feed.folder)

    @property
    def notes(self) -> tuple[Note, ...]:
        """What was repaired, and what each action of a scenario did."""
        return self._notes

    def service(self, date: Date, *, by: Literal["direction", "route", "stop", "all"] = "route") -> pandas.DataFrame:
        """What runs on a day, for each scenario.

        Parameters
        ----------
        date
            The day. Trips past midnight belong to the day of their service.
        by
            The kind of each row. Headways need a direction; both directions together have none.

        Returns
        -------
        DataFrame
            scenario; of route_id, direction_id and route_name those that `by` needs; departures, headway_minutes,
            greatest_gap_minutes, first_departure and last_arrival (seconds since midnight), kilometres_an_hour,
            vehicles, vehicle_hours, vehicle_kilometres. By stop: scenario, stop_id, stop_name, departures and
            departures_an_hour.
        """
        if by not in GROUPINGS:
            raise not_allowed("by", by, ", ".join(GROUPINGS))
        paths: list[Path | None] = list(self._state.feed.scenario_files)
        files = dict(zip(self.scenarios, paths or [None]))
        found = service_day_of(self._state.feed.folder, files, day_of(checked_date(date)))
        if not any(len(runs.trip) for runs in found.running.values()):
            warn_of(Note("no service", f"no trip runs on {checked_date(date)}", 0))
        return service_frame(found, by)

    def snap(self, points: geopandas.GeoSeries, radius_m: float = NEAR) -> geopandas.GeoSeries:
        """Nearest point on a walkable street, with index and CRS of `points`; an empty point if none is so near."""
        if self._state.streets is None:
            raise ArgumentError("snap needs streets; give open_network a file of OpenStreetMap")
        if points.crs is None:
            raise InputError("points", "names no coordinate reference system; set it with .set_crs(..)")
        degrees = points.to_crs(DEGREES)
        found, metres = on_streets(self._state.streets[0], degrees.y.to_numpy(), degrees.x.to_numpy())
        found[metres > radius_m] = np.nan
        series = geopandas.GeoSeries(geopandas.points_from_xy(*found.T), index=points.index, crs=DEGREES)
        return series.to_crs(points.crs)

    def __repr__(self) -> str:
        streets = "with streets" if self._state.streets else "without streets"
        return f"<Network of {quantity(len(self._stops), 'stop')}, {streets}: {', '.join(self.scenarios)}>"

    def _repr_html_(self) -> str:
        from html import escape

        notes = "".join(f"<li>{escape(note.text)}</li>" for note in self._notes)
        return f"<p>{escape(repr(self)[1:-1])}</p>" + (f"<ul>{notes}</ul>" if notes else "")
