"""The stops or points that a page shows, in an order in which neighbours stand together."""

import numpy as np
import numpy.typing as npt

from ...core.arrays import Floats
from ...gtfs.stops import Stops

MICRO = 1_000_000  # of a degree
NOWHERE = np.iinfo(np.int32).max
CELLS = 1 << 15  # of the square of the order, along a side
Whole = npt.NDArray[np.int32]


def in_order(places: Stops) -> Stops:
    """Stops or points, neighbours together; those without a place last."""
    order = np.argsort(ranks(places.latitudes, places.longitudes), kind="stable")
    return places.of([places.identifiers[place] for place in order.tolist()])


def degrees_of(places: Stops) -> Whole:
    """Latitude and longitude of each place in millionths of a degree, NOWHERE for one without coordinates."""
    degrees = np.stack([places.latitudes, places.longitudes], axis=1) * MICRO
    return np.where(np.isnan(degrees), NOWHERE, np.rint(degrees)).astype(np.int32)


def rings_of(places: Stops) -> tuple[Whole, Whole]:
    """The rings of all areas: rows of a place's number and how many corners its ring has; and all corners in
    millionths of a degree, latitude and longitude, each less the corner before it.
    """
    rows, corners = list[tuple[int, int]](), [np.zeros((0, 2))]
    for number, name in enumerate(places.identifiers):
        for ring in (ring for polygon in places.areas.get(name, ()) for ring in polygon):
            rows.append((number, len(ring) - 1))  # the last corner is the first one again
            corners.append(ring[:-1, ::-1])
    whole = np.rint(np.concatenate(corners) * MICRO).astype(np.int32)
    return np.array(rows, np.int32).reshape(-1, 2), np.diff(whole, axis=0, prepend=np.zeros((1, 2), np.int32))


def ranks(latitudes: Floats, longitudes: Floats) -> Floats:
    """Where each place comes on a line that winds through all of them (that of Hilbert); infinite without a place."""
    placed = ~np.isnan(latitudes)
    ranks_found = np.full(len(latitudes), np.inf)
    if placed.any():
        low = np.array([latitudes[placed].min(), longitudes[placed].min()])
        side = max(float(np.ptp(latitudes[placed])), float(np.ptp(longitudes[placed]))) or 1.0
        scaled = (np.stack([latitudes[placed], longitudes[placed]], axis=1) - low) / side * (CELLS - 1)
        ranks_found[placed] = along_hilbert(*np.rint(scaled).astype(np.int64).T)
    return ranks_found


def along_hilbert(x: npt.NDArray[np.int64], y: npt.NDArray[np.int64]) -> npt.NDArray[np.int64]:
    """The numbers of cells of a square along Hilbert's curve, one halving of the square at a time."""
    distance = np.zeros(len(x), np.int64)
    half = CELLS // 2
    while half:
        right, up = (x & half) > 0, (y & half) > 0
        distance += half * half * np.where(right, np.where(up, 2, 3), np.where(up, 1, 0))
        flipped = right & ~up
        x, y = np.where(flipped, CELLS - 1 - x, x), np.where(flipped, CELLS - 1 - y, y)
        x, y = np.where(up, x, y), np.where(up, y, x)
        half //= 2
    return distance
