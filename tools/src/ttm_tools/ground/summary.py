"""The box of a ground around the stops of a feed, and sentences on what a ground has."""

import math

import numpy as np

from ..core.errors import InputError
from ..core.text import quantity
from ..gtfs.stops import Stops
from .contents import Box
from .fitting import MOST_IN_PAGE, Fitted, in_page
from .tags import STREETS

DEGREE = 111_195  # metres of latitude
SHOWN = {"street1": "main street", "street2": "middle street", "street3": "minor street"}


def box_around(stops: Stops, margin: float) -> Box:
    """Returns the box around all stops with a place, `margin` metres wider on each side.

    Raises
    ------
    InputError
        No stop has a place.
    """
    if not stops.placed.any():
        raise InputError(stops.path, "no stop has stop_lat and stop_lon, so the ground has no place")
    south, north = float(np.nanmin(stops.latitudes)), float(np.nanmax(stops.latitudes))
    west, east = float(np.nanmin(stops.longitudes)), float(np.nanmax(stops.longitudes))
    high = margin / DEGREE
    wide = high / max(0.01, math.cos(math.radians((south + north) / 2)))
    return west - wide, south - high, east + wide, north + high


def summary(found: Fitted) -> str:
    """Returns one sentence on what a ground has, and how much of a page it takes."""
    shapes, ground = found.ground.shapes, found.ground
    streets = sum(len(shapes[kind]) for kind in STREETS)
    parts = [quantity(streets, "street"), quantity(len(shapes["rail"]), "railway"), quantity(len(ground.names), "name")]
    west, south, east, north = ground.box
    where = f"{south:.3f} to {north:.3f} north, {west:.3f} to {east:.3f} east"
    return f"{', '.join(parts)}; {where}; {in_page(found.data) / 1e6:.2f} MB in a page"


def dropped_stated(found: Fitted) -> list[str]:
    """Returns a sentence for each kind of streets of which some were dropped for a page's size."""
    sentences = []
    for kind, count in found.dropped.items():
        total = count + len(found.ground.shapes[kind])
        sentences.append(
            f"dropped the shortest {count:,} of {quantity(total, SHOWN[kind])}: a page has room for 1.5 MB"
        )
    if in_page(found.data) > MOST_IN_PAGE:
        sentences.append(f"{in_page(found.data) / 1e6:.2f} MB are more than a page has room for: clip with --feed")
    return sentences
