"""The parts of shapes.txt between the stops of a trip."""

from dataclasses import dataclass

import numpy as np

from ..core.arrays import Floats, Whole
from ..core.tables import names_of, number_of
from .columns import one_of, texts_at
from .reading import columns
from .stops import has_file, in_folder

SHAPES, TRIPS, SHAPE = "shapes.txt", "trips.txt", "shape_id"
POINT = ("shape_pt_sequence", "shape_pt_lon", "shape_pt_lat")


@dataclass(frozen=True)
class Shapes:
    """The shapes of a feed, and which trip runs along which.

    Attributes
    ----------
    of_trips
        The shape of each trip that names one.
    points
        Longitude and latitude of each shape's points, shape (n, 2), in their order; n is at least 2.
    """

    of_trips: dict[str, str]
    points: dict[str, Floats]

    def along(self, trip: str, stops: Floats) -> Floats | None:
        """Return the part of a trip's shape from its first to its last stop, or None if it has no shape.

        Parameters
        ----------
        stops
            Longitude and latitude of stops at which the trip calls one after the other, shape (n, 2).
        """
        points = self.points.get(self.of_trips.get(trip, ""))
        return None if points is None else part_between(points, stops)


def read_shapes(folder: str, trips: set[str]) -> Shapes:
    """Read the shapes along which some trips of a feed run. Points without a place or a number are left out."""
    path = in_folder(folder, TRIPS)
    if not has_file(folder, SHAPES) or SHAPE not in names_of(path):
        return Shapes({}, {})
    table = columns(path, ("trip_id", SHAPE))
    chosen = np.flatnonzero(one_of(table["trip_id"], trips))
    names, shapes = (texts_at(table[name], table[name].codes[chosen]) for name in ("trip_id", SHAPE))
    of_trips = dict(zip(names, shapes))
    return Shapes(of_trips, points_of(in_folder(folder, SHAPES), set(of_trips.values())))


def points_of(path: str, shapes: set[str]) -> dict[str, Floats]:
    """Read the points of some shapes; those with fewer than two are left out."""
    table = columns(path, (SHAPE, *POINT))
    chosen = np.flatnonzero(one_of(table[SHAPE], shapes))
    columns_read = [texts_at(table[name], table[name].codes[chosen]) for name in POINT]
    numbers = np.array([[number_of(text) for text in texts] for texts in columns_read]).reshape(3, -1)
    codes = table[SHAPE].codes[chosen]
    order = np.lexsort((numbers[0], codes))
    order = order[~np.isnan(numbers[:, order]).any(axis=0)]
    cuts = np.flatnonzero(np.diff(codes[order])) + 1
    parts = [part for part in np.split(order, cuts) if len(part) > 1]
    return {str(table[SHAPE].categories[codes[part[0]]]): numbers[1:, part].T for part in parts}


def part_between(points: Floats, stops: Floats) -> Floats:
    """Return the part of a line from the first to the last of some stops that lie along it in this order.

    Each stop is placed on the line so that none comes before an earlier one, and the sum of the squared distances is
    the least. So a line that passes a stop twice, as a loop does, is cut where the trip calls.

    Parameters
    ----------
    points, stops
        Longitude and latitude, shapes (n, 2) and (m, 2).
    """
    scale = np.array([np.cos(np.radians(stops[:, 1].mean())), 1.0])
    begins, vectors = points[:-1] * scale, np.diff(points * scale, axis=0)
    lengths = np.maximum((vectors**2).sum(axis=1), 1e-18)
    sums, before, fractions = np.zeros(len(begins)), list[Whole](), list[Floats]()
    for stop in stops * scale:
        fraction = np.clip(((stop - begins) * vectors).sum(axis=1) / lengths, 0, 1)
        least = np.minimum.accumulate(sums)
        before.append(np.maximum.accumulate(np.where(sums == least, np.arange(len(sums)), 0)))
        fractions.append(fraction)
        sums = least + ((begins + vectors * fraction[:, None] - stop) ** 2).sum(axis=1)
    last = first = int(np.argmin(sums))
    for places in before[:0:-1]:
        first = int(places[first])
    placed = ((first, fractions[0][first]), (last, fractions[-1][last]))
    ends = [points[at] + (points[at + 1] - points[at]) * fraction for at, fraction in placed]
    line = np.concatenate([ends[:1], points[first + 1 : last + 1], ends[1:]])
    return np.asarray(line[np.append(True, (np.diff(line, axis=0) != 0).any(axis=1))])
