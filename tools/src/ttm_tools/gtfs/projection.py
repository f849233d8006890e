"""Lengths on the ellipsoid (WGS 84), and equal-area projections around a place."""

import math
from functools import cached_property
from typing import Any

import numpy as np

from ..core.arrays import Floats
from ..core.errors import needs

ELLIPSOID = "WGS84"


def metres_between(longitudes: Floats, latitudes: Floats, to_longitudes: Floats, to_latitudes: Floats) -> Floats:
    """Return the metres of the shortest lines between pairs of places; NaN where a place is NaN.

    The lines are geodesics of WGS 84 (Karney 2013).
    """
    needs("pyproj")
    from pyproj import Geod

    ends = [np.asarray(degrees, dtype=np.float64) for degrees in (longitudes, latitudes, to_longitudes, to_latitudes)]
    known = ~np.any(np.isnan(ends), axis=0)
    metres: Floats = np.full(len(ends[0]), math.nan)
    metres[known] = Geod(ellps=ELLIPSOID).inv(*(degrees[known] for degrees in ends))[2]
    return metres


def middle_of(latitudes: Floats, longitudes: Floats) -> tuple[float, float]:
    """Return the latitude and longitude of the middle of some places, at least one of which is not NaN.

    It is the median of their directions from the centre of the earth, so a few places far from all others don't move
    it, and the date line is no edge.
    """
    placed = ~np.isnan(latitudes)
    north, east = np.radians(latitudes[placed]), np.radians(longitudes[placed])
    directions = np.stack([np.cos(north) * np.cos(east), np.cos(north) * np.sin(east), np.sin(north)])
    x, y, z = np.median(directions, axis=1).tolist()
    if math.hypot(x, y, z) < 1e-6:  # the places lie all around the earth
        return float(latitudes[placed][0]), float(longitudes[placed][0])
    return math.degrees(math.atan2(z, math.hypot(x, y))), math.degrees(math.atan2(y, x))


class Projection:
    """Lambert's azimuthal equal-area projection, in kilometres around a place.

    Areas are those on the ellipsoid everywhere (Snyder 1987, chapter 24). Lengths are true at the centre; at 100 km
    from it they are off by a thirty thousandth.

    Parameters
    ----------
    latitudes, longitudes
        Places in degrees, at least one of which is not NaN. Their middle is the centre, see `middle_of`.
    """

    def __init__(self, latitudes: Floats, longitudes: Floats) -> None:
        self.latitude, self.longitude = middle_of(latitudes, longitudes)

    @cached_property
    def plane(self) -> Any:
        needs("pyproj")
        from pyproj import Proj

        return Proj(proj="laea", lat_0=self.latitude, lon_0=self.longitude, ellps=ELLIPSOID, units="km")

    @property
    def crs(self) -> Any:
        """The same projection, in metres, as a coordinate reference system for geopandas."""
        needs("pyproj")
        from pyproj import CRS

        centre = {"lat_0": self.latitude, "lon_0": self.longitude}
        return CRS.from_dict({"proj": "laea", **centre, "datum": ELLIPSOID, "units": "m"})

    def kilometres(self, longitudes: Any, latitudes: Any) -> tuple[Floats, Floats]:
        """Return how far east and north of the centre places lie; NaN for a place that is NaN."""
        return moved(self.plane, longitudes, latitudes, inverse=False)

    def degrees(self, east: Any, north: Any) -> tuple[Floats, Floats]:
        """Return the longitudes and latitudes of places this many kilometres east and north of the centre."""
        return moved(self.plane, east, north, inverse=True)


def moved(plane: Any, one: Any, other: Any, inverse: bool) -> tuple[Floats, Floats]:
    """Project pairs of numbers; what has no image, such as NaN, becomes NaN."""
    pairs = np.asarray(one, dtype=np.float64), np.asarray(other, dtype=np.float64)
    known = np.isfinite(pairs[0]) & np.isfinite(pairs[1])
    found: list[Floats] = [np.full(pairs[0].shape, math.nan) for _ in pairs]
    for image, numbers in zip(found, plane(pairs[0][known], pairs[1][known], inverse=inverse)):
        image[known] = np.where(np.isfinite(numbers), numbers, math.nan)
    return found[0], found[1]
