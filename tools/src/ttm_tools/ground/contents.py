"""A ground: shapes by kind, as rows of points on a grid of degrees, and names."""

from dataclasses import dataclass, field
from typing import Sequence

import numpy as np
import numpy.typing as npt

from ..core.arrays import Floats

UNIT = 100_000  # steps of the grid in a degree, of 1.1 metres of latitude each
Points = npt.NDArray[np.int64]  # latitude and longitude of each, in steps of the grid
Counts = npt.NDArray[np.int64]
Box = tuple[float, float, float, float]  # west, south, east and north, degrees


@dataclass(frozen=True)
class Shapes:
    """Lines or rings of one kind, one after the other. The rings of an area turn to the left, and its holes, which come
    after the ring around them, to the right.
    """

    counts: Counts  # points of each
    points: Points

    @classmethod
    def of(cls, rows: Sequence[Floats]) -> "Shapes":
        """Returns shapes on the grid, of rows of latitudes and longitudes."""
        counts = np.array([len(row) for row in rows], dtype=np.int64)
        points = np.concatenate([np.zeros((0, 2)), *rows])
        return cls(counts, np.rint(points * UNIT).astype(np.int64))

    def __len__(self) -> int:
        return len(self.counts)

    @property
    def owners(self) -> Counts:
        """The number of the shape that each point belongs to."""
        return np.repeat(np.arange(len(self.counts)), self.counts)

    def chosen(self, which: npt.NDArray[np.bool_]) -> "Shapes":
        """Returns some of the shapes."""
        return Shapes(self.counts[which], self.points[which[self.owners]])

    def rows(self) -> list[Points]:
        """Returns the points of each shape."""
        return np.split(self.points, np.cumsum(self.counts)[:-1]) if len(self.counts) else []


@dataclass(frozen=True)
class Name:
    """A name on the ground, its place in degrees, and its weight among names of its kind."""

    kind: str  # one of `tags.NAMES`
    text: str
    latitude: float
    longitude: float
    weight: float = 0.0  # people of a place, hectares of a park or of water


@dataclass(frozen=True)
class Ground:
    """The ground of a map."""

    box: Box
    shapes: dict[str, Shapes]  # by kind, those of `tags.AREAS` and `tags.LINES`
    names: list[Name] = field(default_factory=list)
    attribution: str = "© OpenStreetMap contributors"

    def meets(self, box: Box) -> bool:
        """Whether the ground and a box overlap."""
        west, south, east, north = self.box
        return west <= box[2] and east >= box[0] and south <= box[3] and north >= box[1]
