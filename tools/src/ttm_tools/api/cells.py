"""Square cells, and numbers summed into them."""

from collections.abc import Sequence
from importlib.util import find_spec
from typing import Any

import geopandas
import numpy as np
import pandas
import shapely
from pyproj import CRS
from shapely.geometry import box
from shapely.prepared import prep

from ..core.errors import InputError, LimitError, needs
from ..core.limits import MOST_STOPS
from ..core.notes import TtmWarning, warn
from ..core.question import not_allowed
from .opportunities import numbers_in

MOST_TRIED = 2_000_000  # squares of a bounding box
POLYGONS = ("Polygon", "MultiPolygon")


def grid(area: geopandas.GeoDataFrame, cell_m: float, *, crs: CRS | str | int | None = None) -> geopandas.GeoDataFrame:
    """Square cells over polygons, or over the hull of points, with `id`; in `crs`, else in their UTM zone.

    Parameters
    ----------
    area
        Polygons, or points whose convex hull is covered.
    cell_m
        The width of a cell in metres.
    crs
        A projection in metres.

    Returns
    -------
    GeoDataFrame
        id (row and column from the south-west, such as r02c11) and the cells that have a part in the area.

    Raises
    ------
    LimitError
        There are more cells than the engine takes as places.

    Examples
    --------
    >>> area = geopandas.GeoDataFrame(geometry=[box(0, 0, 1000, 500)], crs="EPSG:2056")
    >>> grid(area, 500, crs=area.crs)["id"].tolist()
    ['r1c1', 'r1c2']
    """
    checked_frame("area", area)
    if not cell_m > 0:
        raise not_allowed("cell_m", cell_m, "metres above 0")
    metric = area.to_crs(crs or area.estimate_utm_crs())
    shapes = metric.geometry
    is_polygon = shapes.geom_type.isin(POLYGONS)
    covered = shapes[is_polygon].unary_union if is_polygon.any() else shapes.unary_union.convex_hull
    west, south, east, north = covered.bounds
    counts = [max(1, int(np.ceil(length / cell_m - 1e-9))) for length in (north - south, east - west)]
    if counts[0] * counts[1] > MOST_TRIED:
        text = f"{counts[0] * counts[1]:,} cells are too many: use larger cells, or a smaller area"
        raise LimitError("cell_m", text, limit=MOST_TRIED)
    inside, squares, names = prep(covered), [], []
    digits = [len(str(count)) for count in counts]
    for row in range(counts[0]):
        for column in range(counts[1]):
            x, y = west + column * cell_m, south + row * cell_m
            square = box(x, y, x + cell_m, y + cell_m)
            if inside.intersects(square) and (not is_polygon.any() or covered.intersection(square).area > 0):
                squares.append(square)
                names.append(f"r{row + 1:0{digits[0]}d}c{column + 1:0{digits[1]}d}")
    if len(squares) > MOST_STOPS:
        text = f"{len(squares):,} cells are more than the {MOST_STOPS:,} that ttm takes: use larger cells"
        raise LimitError("cell_m", text, limit=MOST_STOPS)
    return geopandas.GeoDataFrame({"id": names}, geometry=squares, crs=metric.crs)


def allocate(
    source: geopandas.GeoDataFrame, cells: geopandas.GeoDataFrame, columns: Sequence[str] | None = None
) -> geopandas.GeoDataFrame:
    """`cells` with numbers of `source`: points count where they lie, polygons are shared out by area.

    Parameters
    ----------
    source
        Points or polygons with numbers.
    cells
        Polygons that don't overlap.
    columns
        The columns to sum; by default all numbers but `id`.

    Returns
    -------
    GeoDataFrame
        The cells with their index, and the sums as float64.

    Warns
    -----
    TtmWarning
        Part of a column is outside all cells; the warning says how much.

    Examples
    --------
    >>> area = geopandas.GeoDataFrame({"jobs": [30]}, geometry=[box(0, 0, 1000, 500)], crs="EPSG:2056")
    >>> allocate(area, grid(area, 500, crs=area.crs))["jobs"].tolist()
    [15.0, 15.0]
    """
    checked_frame("source", source)
    checked_frame("cells", cells)
    needs_index()
    if columns is None:
        known = [name for name in source.columns if name not in ("id", source.geometry.name)]
        columns = [name for name in known if pandas.api.types.is_numeric_dtype(source[name])]
    names, numbers = numbers_in("source", source, columns)
    if not names:
        raise InputError("source", "has no column of numbers")
    metric = cells.geometry.to_crs(cells.estimate_utm_crs()) if cells.crs.is_geographic else cells.geometry
    there = geopandas.GeoDataFrame(
        {"of": np.arange(len(source))}, geometry=source.geometry.to_crs(metric.crs).to_numpy(), crs=metric.crs
    )
    own = geopandas.GeoDataFrame({"cell": np.arange(len(cells))}, geometry=metric.to_numpy(), crs=metric.crs)
    is_polygon = there.geom_type.isin(POLYGONS)
    pieces = [shared_points(there[~is_polygon], own), shared_areas(there[is_polygon], own)]
    parts = (
        pandas.concat([piece for piece in pieces if len(piece)], ignore_index=True) if any(map(len, pieces)) else None
    )
    sums = np.zeros((len(cells), len(names)))
    if parts is not None:
        np.add.at(sums, parts["cell"].to_numpy(), numbers[parts["of"].to_numpy()] * parts["part"].to_numpy()[:, None])
    warn_of_outside(names, numbers.sum(axis=0) - sums.sum(axis=0), numbers.sum(axis=0))
    return cells.assign(**dict(zip(names, sums.T)))


def needs_index() -> None:
    """Raise a `MissingDependencyError` if geopandas has none of the packages by which it looks up shapes by place."""
    if shapely.__version__ < "2" and find_spec("pygeos") is None:
        needs("rtree")


def shared_points(points: geopandas.GeoDataFrame, cells: geopandas.GeoDataFrame) -> pandas.DataFrame:
    """Return the cell in which each point or line has its middle; of several that touch it the first."""
    if not len(points):
        return pandas.DataFrame({"of": [], "cell": [], "part": []})
    middles = points.set_geometry(points.geometry.centroid)
    found = middles.sjoin(cells, predicate="intersects").drop_duplicates("of")
    return pandas.DataFrame({"of": found["of"], "cell": found["cell"], "part": 1.0})


def shared_areas(areas: geopandas.GeoDataFrame, cells: geopandas.GeoDataFrame) -> pandas.DataFrame:
    """Return the share of the area of each polygon that is in each cell."""
    if not len(areas):
        return pandas.DataFrame({"of": [], "cell": [], "part": []})
    valid = areas.set_geometry(areas.geometry.buffer(0))
    total = pandas.Series(valid.geometry.area.to_numpy(), index=valid["of"].to_numpy())
    cut = geopandas.overlay(valid, cells, how="intersection", keep_geom_type=True)
    part = cut.geometry.area.to_numpy() / total.loc[cut["of"]].to_numpy()
    return pandas.DataFrame({"of": cut["of"].to_numpy(), "cell": cut["cell"].to_numpy(), "part": part})


def warn_of_outside(names: Sequence[str], lost: Any, totals: Any) -> None:
    """Warn of how much of each column is outside all cells."""
    for name, outside, total in zip(names, lost.tolist(), totals.tolist()):
        if outside > 1e-6 * max(total, 1):
            warn(f"{outside:,.6g} of {total:,.6g} {name} are outside all cells", TtmWarning)


def checked_frame(argument: str, frame: Any) -> None:
    """Refuse what is no frame of geometries in a projection."""
    if not isinstance(frame, geopandas.GeoDataFrame):
        raise InputError(argument, f"is {type(frame).__name__}", allowed="a GeoDataFrame")
    if not len(frame):
        raise InputError(argument, "has no rows")
    if frame.crs is None:
        raise InputError(argument, "names no coordinate reference system; set it with .set_crs(..)")
    bad = np.flatnonzero(frame.geometry.isna() | frame.geometry.is_empty)
    if len(bad):
        raise InputError(argument, f"row {bad[0]}: its geometry is missing or empty")
