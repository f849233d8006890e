"""Areas that are reached within given minutes, from the travel times to a grid of points along the streets."""

import datetime
from typing import Any, Iterable

import geopandas
import pandas
from shapely.geometry import Point

from ...places.frames import DEGREES
from ...places.street_grid import grid_around
from .asking import seconds_between
from .frames import ComputedGeoFrame
from .matrix import ends_of
from .network import network_from
from .refusals import NotAvailable
from .task import RegionalTask

QUARTERS = pandas.timedelta_range(start="0min", end="60min", freq="15min")


def limits_of(isochrones: Iterable[Any]) -> list[datetime.timedelta]:
    """The limits, ascending; numbers are minutes, and 0 bounds no area."""
    limits = {
        limit if isinstance(limit, datetime.timedelta) else datetime.timedelta(minutes=float(limit))
        for limit in isochrones
    }
    found = sorted(
        datetime.timedelta(seconds=limit.total_seconds()) for limit in limits if limit > datetime.timedelta()
    )
    if not found:
        raise NotAvailable("isochrones", "no limit above 0", "minutes, or a pandas.timedelta_range")
    return found


class Isochrones(ComputedGeoFrame):
    """The areas that are reached within some limits from the nearest of the origins, which may be one point of shapely
    in degrees: `travel_time` and `geometry`, a row for each limit, ascending.
    """

    def __init__(
        self,
        transport_network: Any,
        origins: Any,
        isochrones: Iterable[Any] = QUARTERS,
        point_grid_resolution: float = 100,
        point_grid_sample_ratio: float = 1.0,
        **kwargs: Any,
    ) -> None:
        if point_grid_sample_ratio != 1:
            what = f"{point_grid_sample_ratio!r} isn't supported, since all points are computed"
            raise NotAvailable("point_grid_sample_ratio", what, "leave it out, or give a larger point_grid_resolution")
        limits, network = limits_of(isochrones), network_from(transport_network)
        kwargs["max_time"] = limits[-1]
        task = RegionalTask(network, **kwargs)
        if len(task.percentiles) != 1:
            raise NotAvailable("percentiles", f"{task.percentiles} are several", "use one at a time")
        if isinstance(origins, Point):
            origins = geopandas.GeoDataFrame({"id": ["origin"]}, geometry=[origins], crs=DEGREES)
        begins = ends_of(network, origins, None, False)[0]
        grid = grid_around(network.streets, begins.latitudes, begins.longitudes, point_grid_resolution)
        found = seconds_between(network, task, begins, grid.places())[task.percentiles[0]]
        areas = [grid.within(found, limit.total_seconds()) for limit in limits]
        table = geopandas.GeoDataFrame({"travel_time": pandas.to_timedelta(limits)}, geometry=areas, crs=grid.crs)
        super().__init__(table.to_crs(DEGREES))
