"""The lines on which vehicles run, by trips, and which of them differ between two sets of trips."""

import os
from dataclasses import dataclass
from functools import cached_property
from typing import Sequence

import numpy as np
import numpy.typing as npt

from ..gtfs.projection import Projection
from ..gtfs.shapes import Trips, lines_of, pieces, read_trips, removed_trips
from ..gtfs.stops import Stops, has_file

OnGrid = npt.NDArray[np.int32]  # x, y of both ends, on the grid
Pieces = npt.NDArray[np.int32]  # latitude, longitude of both ends, in millionths of a degree
NONE = np.zeros((0, 4), np.int32)
OF_PLANS = "scenarios"  # the folder in a feed's folder where ttm-tools scenarios writes scenario files


@dataclass(frozen=True)
class LineChange:
    """Pieces that differ in a scenario from the base; where trips go and others come, they are changed."""

    taken: Pieces
    changed: Pieces
    added: Pieces


class DrawnLines:
    """The lines of a feed, by the trips that run along them."""

    def __init__(self, folder: str, stops: Stops, projection: Projection) -> None:
        self.folder = folder
        self.points = lines_of(folder, stops, projection)
        self.shaped = has_file(folder, "shapes.txt")  # whether the lines are those of shapes

    @cached_property
    def trips(self) -> Trips:
        return read_trips(self.folder, self.shaped)

    def removed(self, edits: str) -> set[str]:
        return removed_trips(self.trips, edits)

    def pieces(self, trips: set[str]) -> OnGrid:
        """Where some trips run, on the grid."""
        return pieces(self.points.of_lines(self.trips.lines(trips, self.shaped))) if trips else NONE


def on_grid(before: OnGrid, after: OnGrid) -> LineChange:
    """What is another where trips ran along some pieces of the grid and others run along these."""
    both = among(after, before)
    return LineChange(before[~among(before, after)], after[both], after[~both])


def plan_files(folder: str, scenarios: Sequence[str]) -> dict[str, str]:
    """Where `ttm-tools scenarios` writes the scenario files of a plan in a feed's folder, by the scenarios."""
    return {name: os.path.join(folder, OF_PLANS, f"{name}.csv") for name in scenarios}


def among(some: OnGrid, others: OnGrid) -> npt.NDArray[np.bool_]:
    """Which of some rows are among others."""
    whole = np.dtype((np.void, 4 * some.dtype.itemsize))
    first, second = (np.ascontiguousarray(table).view(whole).ravel() for table in (some, others))
    found: npt.NDArray[np.bool_] = np.isin(first, second)
    return found
