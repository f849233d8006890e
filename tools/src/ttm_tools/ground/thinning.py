"""Leaves out points of lines and rings that a map does not show."""

import numpy as np
import numpy.typing as npt

from ..core.arrays import Floats
from .contents import UNIT, Counts, Points, Shapes

TOLERANCE = 3.0  # metres that a line may move
METRES = 111_195 / UNIT  # of a step of latitude
PASSES = 40


def in_metres(points: Points) -> Floats:
    """Points as metres north and east, near the middle of all of them."""
    if not len(points):
        return np.zeros((0, 2))
    middle = (points.min(axis=0) + points.max(axis=0)) / 2
    shrink = np.cos(np.radians(middle[0] / UNIT))
    return np.asarray((points - middle) * np.array([METRES, METRES * shrink]), dtype=np.float64)


def offsets(before: Floats, points: Floats, after: Floats) -> Floats:
    """How far points lie from the pieces between their neighbours, in the unit of the points."""
    along, own = after - before, points - before
    squared = np.maximum((along**2).sum(axis=1), 1e-12)
    part = np.clip((along * own).sum(axis=1) / squared, 0, 1)
    found: Floats = np.hypot(*(own - along * part[:, None]).T)
    return found


def ends_of(counts: Counts) -> npt.NDArray[np.bool_]:
    """Which points are the first or the last of their shape."""
    last = np.cumsum(counts)
    ends = np.zeros(int(counts.sum()), dtype=np.bool_)
    ends[last - 1] = ends[last - counts] = True
    return ends


def thinned(shapes: Shapes, tolerance: float = TOLERANCE) -> Shapes:
    """Returns shapes without the points closer than `tolerance` metres to the piece between their neighbours.

    Each pass drops points of which no neighbour is dropped with them, the nearest first, as Visvalingam and Whyatt do;
    so a point's piece grows by steps, and a line moves by little more than the tolerance.
    """
    counts, points = shapes.counts, shapes.points
    for _ in range(PASSES):
        metres, inner = in_metres(points), np.flatnonzero(~ends_of(counts))
        far = np.full(len(points), np.inf)
        far[inner] = offsets(metres[inner - 1], metres[inner], metres[inner + 1])
        drop = far < tolerance
        drop[inner] &= (far[inner] <= far[inner - 1]) & (far[inner] < far[inner + 1])
        if not drop.any():
            break
        dropped = np.bincount(np.repeat(np.arange(len(counts)), counts)[drop], minlength=len(counts))
        points, counts = points[~drop], np.asarray(counts - dropped, dtype=np.int64)
    return Shapes(counts, points)


def lengths_of(shapes: Shapes) -> Floats:
    """The metres of each shape."""
    metres, owners = in_metres(shapes.points), shapes.owners
    steps = np.hypot(*np.diff(metres, axis=0).T) * (owners[1:] == owners[:-1])
    return np.asarray(np.bincount(owners[1:], steps, minlength=len(shapes)), dtype=np.float64)


def signed_hectares(row: Floats) -> float:
    """The area of a ring of latitudes and longitudes, in hectares; below 0 if it turns to the right."""
    north, east = in_metres(np.rint(row * UNIT).astype(np.int64)).T
    twice = np.dot(east, np.roll(north, -1)) - np.dot(north, np.roll(east, -1))
    return float(twice) / 20_000
