"""Cells on a map: squares, oblongs, or areas with the shape of their file, in kilometres."""

from typing import Any, Sequence

import numpy as np
import numpy.typing as npt
from matplotlib.collections import PathCollection, PolyCollection
from matplotlib.path import Path

from ..core.arrays import Floats
from ..gtfs.projection import Projection
from ..gtfs.stops import Area, Stops

CORNERS = np.array([[-0.5, -0.5], [0.5, -0.5], [0.5, 0.5], [-0.5, 0.5]])


class Cells:
    """The cells of some stops or points, each in the place of its mark."""

    def __init__(self, stops: Stops, projection: Projection) -> None:
        self.sides = stops.sides() / 1000
        self.areas = {
            stops.places[name]: path_of(area, projection) for name, area in stops.areas.items() if name in stops.places
        }
        self.are_there: npt.NDArray[np.bool_] = ~np.isnan(self.sides[:, 0])
        self.are_there[list(self.areas)] = True

    def draw(self, axes: Any, chosen: npt.NDArray[np.intp], points: Floats, colour: str, order: float) -> None:
        how: dict[str, Any] = {"facecolors": colour, "edgecolors": "face", "linewidths": 0.2, "zorder": order}
        areas = [self.areas[place] for place in chosen.tolist() if place in self.areas]
        oblong = np.array([place for place in chosen.tolist() if place not in self.areas], dtype=np.intp)
        if areas:
            axes.add_collection(PathCollection(areas, **how))
        if len(oblong):
            corners = points[oblong][:, None, :] + self.sides[oblong][:, None, :] * CORNERS
            axes.add_collection(PolyCollection(corners, **how))


def path_of(area: Area, projection: Projection) -> Path:
    return path_along([np.stack(projection.kilometres(*ring.T), axis=1) for polygon in area for ring in polygon])


def path_along(rings: Sequence[Floats]) -> Path:
    """Closed rings as a path; holes go round the other way, so they stay empty."""
    codes = [[Path.MOVETO, *[Path.LINETO] * (len(ring) - 2), Path.CLOSEPOLY] for ring in rings]
    return Path(np.concatenate(rings), np.concatenate(codes))
