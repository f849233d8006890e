"""What is shown of a matrix: points alone where it has them, with their names and places."""

import os
from dataclasses import replace

import numpy as np

from ..core.errors import InputError
from ..gtfs.stops import Stops, read_stops
from ..matrices import Matrix
from ..matrices.selections import MatrixSubset
from .areas import areas_beside
from .folder import POINTS
from .read import Points, read_points


def points_in(feed: str | None) -> str | None:
    """The points of a feed that `ttm-tools points` wrote; None for another one."""
    path = os.path.join(feed, POINTS) if feed is not None else ""
    return path if os.path.isfile(path) else None


def select_points(matrix: Matrix, feed: str | None, points: str | None) -> tuple[Matrix, Stops | None]:
    """What is shown, and names and places for it: of points where a file of them is named, or lies in the feed's
    folder. Without a feed nothing but points has a place.
    """
    stops, path = read_stops(feed) if feed is not None else None, points or points_in(feed)
    if path is None:
        return matrix, stops
    found = read_points(path)
    if os.path.basename(path) == POINTS:
        found = replace(found, areas=areas_beside(path))
    chosen = MatrixSubset(matrix, found.identifiers)
    if points is not None and not chosen.is_any:
        raise InputError(matrix.path, f"it has no point of {points}")
    return chosen, with_points(stops, found) if stops is not None else found.as_stops()


def with_points(stops: Stops, points: Points) -> Stops:
    """The stops of a feed with the widths and areas of points, and behind them those points that it hasn't."""
    new = np.array([place for place, name in enumerate(points.identifiers) if name not in stops.places], dtype=np.intp)
    known = dict(zip(points.identifiers, points.as_stops().sides().tolist()))
    every = stops.append(points.only(new).as_stops())
    wide, high = np.array([known.get(name, [np.nan] * 2) for name in every.identifiers]).reshape(-1, 2).T
    return replace(every, widths=wide, heights=high, areas=points.areas)
