"""Areas that are reached within given minutes."""

from collections.abc import Iterator, Sequence
from dataclasses import replace
from typing import Any

import geopandas
import numpy as np
import numpy.typing as npt
from shapely.geometry import MultiPolygon, Polygon

from ..core.errors import ArgumentError
from ..core.question import Question, not_allowed, travel_seconds
from ..core.settings import Progress
from ..core.times import as_duration
from ..places.street_grid import StreetGrid, grid_around
from .asking import GRID, Request, answer
from .engines import NetworkState
from .frames import DEGREES, GivenPlaces
from .opportunities import checked_minutes

AREA = 1e6  # square metres of a square kilometre


def isochrone_frame(
    state: NetworkState, request: Request, minutes: Sequence[float], cell_m: float, dissolve: bool, progress: Progress
) -> geopandas.GeoDataFrame:
    """Return the areas that are reached: see `Network.isochrones`.

    Parameters
    ----------
    request
        A question about the origins; its destinations are replaced by squares along streets.
    """
    limits = sorted(checked_minutes(minutes), reverse=True)
    if not cell_m > 0:
        raise not_allowed("cell_m", cell_m, "metres above 0")
    if state.streets is None:
        raise ArgumentError("isochrones need streets; give open_network a file of OpenStreetMap")
    frame = request.origins.frame
    grid = grid_around(state.streets[0], request.origins.latitudes, request.origins.longitudes, cell_m)
    asked = replace(request, destinations=grid_places(grid), same=False, question=within(request.question, limits[0]))
    reply = answer(state, asked, progress)
    rows = list[dict[str, Any]]()
    for minute in limits:
        for (scenario, percentile), seconds in reply.arrays.items():
            about = {"scenario": scenario, "percentile": percentile}
            for origin, area in areas_of(grid, frame["id"].tolist(), seconds, 60 * minute, dissolve):
                own = {} if dissolve else {"from_id": origin}
                rows.append({**about, **own, "minutes": minute, "square_km": area.area / AREA, "geometry": area})
    return geopandas.GeoDataFrame(rows, crs=grid.crs).to_crs(frame.crs)


def within(question: Question, minutes: float) -> Question:
    """Return a question without what takes longer than an area's limit."""
    most, seconds = travel_seconds(question), int(60 * minutes)
    return (
        question if most is not None and most <= seconds else question.replace(max_travel=as_duration(max(1, seconds)))
    )


def grid_places(grid: StreetGrid) -> GivenPlaces:
    """Return the middles of squares as places."""
    places = grid.places()
    points = geopandas.points_from_xy(places.longitudes, places.latitudes)
    frame = geopandas.GeoDataFrame({"id": np.arange(len(points))}, geometry=points, crs=DEGREES)
    return GivenPlaces(GRID, frame, places.longitudes, places.latitudes)


def areas_of(
    grid: StreetGrid, origins: list[Any], seconds: npt.NDArray[np.float32], limit: float, dissolve: bool
) -> Iterator[tuple[Any, MultiPolygon]]:
    """Yield the area of each origin, or that of all of them."""
    if dissolve:
        yield None, parts_of(grid.within(seconds, limit))
        return
    for origin, row in zip(origins, seconds):
        yield origin, parts_of(grid.within(row[None], limit))


def parts_of(area: Any) -> MultiPolygon:
    return MultiPolygon([area] if isinstance(area, Polygon) and not area.is_empty else list(getattr(area, "geoms", [])))
