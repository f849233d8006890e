"""A grid of squares along the streets: destinations from whose travel times areas come."""

from typing import Any

import numpy as np
import numpy.typing as npt

from ..core.arrays import Floats
from ..gtfs.projection import Projection
from ..streets.osm import Streets
from .frames import DEGREES, FramePlaces, GRID, moved

GridCells = npt.NDArray[np.int64]  # columns and rows of a grid


class StreetGrid:
    """Squares of an equal-area projection through which a street goes. In the middle of each is a destination.

    Parameters
    ----------
    streets
        The streets.
    projection
        The projection; its centre should be near the origins.
    side
        Metres of the side of a square.
    """

    def __init__(self, streets: Streets, projection: Projection, side: float) -> None:
        self.crs, self.side = projection.crs, side
        xy = np.stack(moved(DEGREES, self.crs, streets.longitudes, streets.latitudes), axis=1)
        self.cells = cells_along(xy[streets.begin], xy[streets.end], side)

    def middles(self) -> tuple[Floats, Floats]:
        """Return the longitudes and latitudes of the middles."""
        return moved(self.crs, DEGREES, *((self.cells + 0.5) * self.side).T)

    def places(self) -> FramePlaces:
        """Return the middles as destinations."""
        return FramePlaces(GRID, list(range(len(self.cells))), *self.middles())

    def within(self, seconds: npt.NDArray[np.floating[Any]], limit: float) -> Any:
        """Return the area of the squares whose middles are reached within some seconds, see `area`.

        Parameters
        ----------
        seconds
            Travel times from some origins to the middles, NaN for none, shape (origins, squares).
        limit
            Seconds within which a middle is reached from one of these origins.
        """
        with np.errstate(invalid="ignore"):
            return self.area((seconds <= limit).any(axis=0))

    def area(self, reached: npt.NDArray[np.bool_]) -> Any:
        """Return the area of some squares, in metres, with gaps among them up to two squares wide."""
        from shapely.geometry import box
        from shapely.ops import unary_union

        # Squares on top of one another are one strip: the cells are in order of their columns, then their rows.
        cells = self.cells[reached]
        is_first = np.ones(len(cells) + 1, np.bool_)
        is_first[1:-1] = (np.diff(cells, axis=0) != [0, 1]).any(axis=1)
        low, high = cells[is_first[:-1]] * self.side, (cells[is_first[1:]] + 1) * self.side
        strips = [box(*ends) for ends in np.concatenate([low, high], axis=1).tolist()]
        return unary_union(strips).buffer(self.side, join_style=2).buffer(-self.side, join_style=2)


def grid_around(streets: Streets, latitudes: Floats, longitudes: Floats, side: float) -> StreetGrid:
    """Return the squares of a projection around some places, whose coordinates are NaN where they have none."""
    if np.isnan(latitudes).all():
        latitudes, longitudes = streets.latitudes, streets.longitudes
    return StreetGrid(streets, Projection(latitudes, longitudes), side)


def cells_along(begin: Floats, end: Floats, side: float) -> GridCells:
    """Return the squares of a grid in which pieces of streets lie, sampled every quarter of a square."""
    counts = np.maximum(1, np.ceil(np.linalg.norm(end - begin, axis=1) / (side / 4))).astype(np.int64)
    piece = np.repeat(np.arange(len(counts)), counts)
    along = (np.arange(len(piece)) - np.repeat(np.cumsum(counts) - counts, counts)) / counts[piece]
    points = np.concatenate([begin[piece] + (end - begin)[piece] * along[:, None], end])
    cells: GridCells = np.unique(np.floor(points / side).astype(np.int64), axis=0)
    return cells
