"""Origins and destinations: frames of points or polygons in any projection, and where each lies in degrees."""

from dataclasses import dataclass
from typing import Any

import numpy as np
import numpy.typing as npt

from ..core.arrays import Floats
from ..core.errors import InputError
from .read import Points

DEGREES = "EPSG:4326"
GRID = "grid"  # the name of places that no frame has: those of an isochrone


@dataclass(frozen=True)
class FramePlaces:
    """The places of a frame, in its order."""

    name: str  # which argument they are
    identifiers: list[Any]  # as the frame has them
    longitudes: Floats  # degrees; NaN for a place that has none
    latitudes: Floats

    @property
    def placed(self) -> npt.NDArray[np.intp]:
        """Which of them lie anywhere."""
        return np.flatnonzero(~np.isnan(self.longitudes))

    @property
    def stops(self) -> tuple[str, ...]:
        """The stops of a feed that they are: none."""
        return ()

    @property
    def are_stops(self) -> bool:
        """Whether they are stops of a feed."""
        return False

    def points(self) -> Points:
        """Those that lie anywhere as points, called by the argument and their numbers."""
        chosen = self.placed
        names = [f"{self.name}-{place}" for place in chosen.tolist()]
        none = np.full(len(chosen), np.nan)
        where = self.latitudes[chosen], self.longitudes[chosen]
        return Points(self.name, names, names, *where, none, [], np.zeros((len(chosen), 0)))

    def content(self) -> bytes:
        """What walks depend on."""
        return self.name.encode() + self.longitudes.tobytes() + self.latitudes.tobytes()


def moved(crs: Any, target: Any, east: Floats, north: Floats) -> tuple[Floats, Floats]:
    """Coordinates of one projection in another one."""
    from pyproj import Transformer

    projected = Transformer.from_crs(crs, target, always_xy=True).transform(east, north)
    return np.asarray(projected[0], np.float64), np.asarray(projected[1], np.float64)


def places_of(name: str, frame: Any) -> FramePlaces:
    """The places of a frame; a point inside of each polygon."""
    import geopandas

    if not isinstance(frame, geopandas.GeoDataFrame):
        raise InputError(name, f"is not a GeoDataFrame but {type(frame).__name__}")
    if "id" not in frame.columns:
        raise InputError(name, "has no column id")
    if not frame["id"].is_unique or frame["id"].isna().any():
        raise InputError(name, "is missing or occurs twice", column="id")
    if frame.crs is None:
        raise InputError(name, "names no coordinate reference system; set it with .set_crs(..)")
    shapes = frame.geometry
    there = ~(shapes.isna() | shapes.is_empty).to_numpy()
    inside = [shape if shape.geom_type == "Point" else shape.representative_point() for shape in shapes[there]]
    where = np.full((2, len(frame)), np.nan)
    if inside:
        where[:, there] = moved(frame.crs, DEGREES, *np.array([(point.x, point.y) for point in inside]).T)
    if (np.abs(where[1, there]) > 90).any() or (np.abs(where[0, there]) > 180).any():
        raise InputError(name, "a place lies off the globe: is its projection the right one?")
    return FramePlaces(name, frame["id"].tolist(), where[0], where[1])
