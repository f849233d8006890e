"""The area that people reach on foot along streets, as squares."""

from dataclasses import dataclass
from functools import cached_property
from typing import Any

import numpy as np

from ..core.arrays import Floats
from ..core.walking import SLACK, Walking
from ..gtfs.projection import Projection
from ..streets.osm import Streets
from ..streets.router import Router
from ..streets.walks import points_of
from .street_grid import StreetGrid

SIDE = 100.0  # metres, as `Network.isochrones` has by default


@dataclass(frozen=True)
class WalkedSquares:
    """Squares along streets that people may reach on foot from some places.

    Attributes
    ----------
    positions
        Position of each place, shape (n, 3).
    projection
        The projection of the squares.
    near
        See `Snaps.connectors`.
    """

    streets: Streets
    positions: Floats
    projection: Projection
    walking: Walking
    near: float

    @cached_property
    def grid(self) -> StreetGrid:
        """The squares within the longest walk of a place."""
        from scipy.spatial import cKDTree

        grid = StreetGrid(self.streets, self.projection, SIDE)
        longitudes, latitudes = grid.middles()
        middles, tree = points_of(latitudes, longitudes), cKDTree(self.positions)
        nearest, _ = tree.query(middles, distance_upper_bound=self.walking.max_metres)
        grid.cells = grid.cells[np.isfinite(nearest)]
        return grid

    @cached_property
    def router(self) -> Router:
        """The streets with the places on them, and behind these the middles of the squares."""
        longitudes, latitudes = self.grid.middles()
        positions = np.concatenate([self.positions, points_of(latitudes, longitudes)])
        return Router(self.streets, positions, self.walking, self.near)

    def area(self, left: Floats) -> Any:
        """Return the area in kilometres of the squares whose middles are reached.

        Parameters
        ----------
        left
            Metres that may be walked from each place, shape (n,); below 0 from a place that is not reached.
        """
        from shapely.affinity import scale

        router, count = self.router, len(self.positions)
        after = router.within(np.append(left, np.full(len(self.grid.cells), -1.0)))[router.first + count :]
        reached = after + SLACK >= router.approaches[count:]
        return scale(self.grid.area(reached), 0.001, 0.001, origin=(0, 0))
