"""Places that a caller gives: frames in any projection, series of geometries, or stops of the feed."""

from collections.abc import Sequence
from dataclasses import dataclass
from functools import cached_property
from typing import Any

import geopandas
import numpy as np
import numpy.typing as npt
import pandas

from ..core.arrays import Floats
from ..core.errors import InputError
from ..core.text import first_few, quantity
from ..core.toml_values import near
from ..places.read import Points

DEGREES = "EPSG:4326"
Places = geopandas.GeoDataFrame | geopandas.GeoSeries | Sequence[str]


@dataclass(frozen=True)
class GivenPlaces:
    """Origins or destinations, in the order of the frame that gives them.

    Attributes
    ----------
    argument
        The argument that they are: origins, or destinations.
    frame
        The frame with the column `id`; its index and projection are those of results.
    longitudes, latitudes
        Degrees of a point of each place.
    stops
        Their identifiers in the feed, if they are stops of it.
    """

    argument: str
    frame: geopandas.GeoDataFrame
    longitudes: Floats
    latitudes: Floats
    stops: tuple[str, ...] = ()

    @property
    def identifiers(self) -> list[Any]:
        """The identifiers as the frame has them."""
        found: list[Any] = self.frame["id"].tolist()
        return found

    @cached_property
    def names(self) -> list[str]:
        """The identifiers of the places in a feed that has them as stops."""
        return list(self.stops) or [f"{self.argument}-{place}" for place in range(len(self.frame))]

    @property
    def are_stops(self) -> bool:
        return bool(self.stops)

    def points(self) -> Points:
        """Return the places as points for a folder of the engine."""
        none = np.full(len(self.frame), np.nan)
        numbers = np.zeros((len(self.frame), 0))
        return Points(self.argument, self.names, self.names, self.latitudes, self.longitudes, none, [], numbers)

    def content(self) -> bytes:
        """Return what walks to these places depend on."""
        return self.argument.encode() + self.longitudes.tobytes() + self.latitudes.tobytes()


def read_places(argument: str, given: Any, stops: geopandas.GeoDataFrame) -> GivenPlaces:
    """Check what a caller gives as places.

    Raises
    ------
    InputError
        Identifiers are missing or occur twice, a geometry is missing or lies off the globe, the frame has no
        projection, or a stop is not of the feed. The message names the argument and the row; rows count from 0.
    """
    if isinstance(given, geopandas.GeoSeries):
        given = geopandas.GeoDataFrame(geometry=given)
    if isinstance(given, geopandas.GeoDataFrame):
        return from_frame(argument, given)
    if isinstance(given, (str, bytes)) or not isinstance(given, (Sequence, pandas.Index, np.ndarray)):
        allowed = "a GeoDataFrame, a GeoSeries, or a list of stop_id"
        raise InputError(argument, f"is {type(given).__name__}", allowed=allowed)
    return from_stops(argument, [str(name) for name in given], stops)


def from_frame(argument: str, given: geopandas.GeoDataFrame) -> GivenPlaces:
    """Return the places of a frame: a point inside each geometry."""
    if len(given) == 0:
        raise InputError(argument, "has no rows")
    if given.crs is None:
        raise InputError(argument, "names no coordinate reference system; set it with .set_crs(..)")
    identifiers = given["id"] if "id" in given.columns else given.index.to_series(index=given.index)
    column = "id" if "id" in given.columns else "the index"
    refuse_rows(argument, identifiers.isna(), "is missing", column)
    refuse_rows(argument, identifiers.duplicated(), "occurs twice", column, identifiers)
    shapes = given.geometry
    refuse_rows(argument, shapes.isna() | shapes.is_empty, "is missing or empty", "geometry")
    inside = shapes.where(shapes.geom_type == "Point", shapes.representative_point())
    degrees = inside.to_crs(DEGREES)
    east, north = degrees.x.to_numpy(np.float64), degrees.y.to_numpy(np.float64)
    on_globe = pandas.Series((np.abs(north) <= 90) & (np.abs(east) <= 180), index=given.index)
    refuse_rows(argument, ~on_globe, "lies off the globe: is its projection the right one?", "geometry")
    return GivenPlaces(argument, given.assign(id=identifiers.to_numpy()), east, north)


def from_stops(argument: str, names: list[str], stops: geopandas.GeoDataFrame) -> GivenPlaces:
    """Return stops of the feed as places; walks begin and end at the stops themselves."""
    if not names:
        raise InputError(argument, "has no stops")
    known = set(stops.index)
    for row, name in enumerate(names):
        if name not in known:
            what = f"is not a stop of the feed{near(name, known)}"
            raise FrameError(argument, what, row=row, column="stop_id", value=name)
    refuse_rows(argument, pandas.Series(names).duplicated(), "occurs twice", "stop_id", pandas.Series(names))
    if "location_type" in stops.columns:
        apart = ~stops.loc[names, "location_type"].str.strip().isin(["", "0"])
        refuse_rows(argument, apart, "is a location at which no vehicle calls", "stop_id", pandas.Series(names))
    frame = stops.loc[names].rename_axis(None)
    frame = frame.assign(id=names)
    where = frame.geometry
    return GivenPlaces(argument, frame, where.x.to_numpy(np.float64), where.y.to_numpy(np.float64), tuple(names))


class FrameError(InputError):
    """Something is wrong with a row of a frame; rows count from 0."""

    def __init__(self, argument: str, what: str, *, row: int, column: str, value: str | None = None) -> None:
        super().__init__(argument, what, record=row, column=column, value=value)
        self.args = (str(self).replace(": record ", ": row ", 1),)


def refuse_rows(argument: str, bad: Any, what: str, column: str, values: Any = None) -> None:
    """Raise a `FrameError` for the first row that is bad, with the number of all."""
    rows: npt.NDArray[np.intp] = np.flatnonzero(bad.to_numpy())
    if len(rows):
        value = None if values is None else str(values.iloc[rows[0]])
        more = f" ({quantity(len(rows), 'row')}: {first_few(list(map(str, rows.tolist())))})" if len(rows) > 1 else ""
        raise FrameError(argument, what + more, row=int(rows[0]), column=column, value=value)
