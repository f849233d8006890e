"""The ground of a page, as the file of `ttm-tools ground` has it."""

import base64
from dataclasses import dataclass
from typing import Iterator

import numpy as np

from ...core.errors import InputError
from ...core.text import display_text
from ...gtfs.stops import Stops
from ...ground.packing import read_packed, unpacked
from .parts import Element


@dataclass(frozen=True)
class PageGround:
    """Packed bytes, and whom the page names for them."""

    data: bytes
    attribution: str

    def parts(self) -> Iterator[Element]:
        yield Element("ground", base64.b64encode(self.data).decode("ascii"))


def page_ground(path: str | None, places: Stops) -> PageGround | None:
    """Returns the ground of a file; None without one.

    Raises
    ------
    InputError
        The file is none of `ttm-tools ground`, or no place lies on it.
    """
    if path is None:
        return None
    data = read_packed(path)
    found, there = unpacked(path, data), places.placed
    west, south, east, north = found.box
    if there.any():
        lat, lon = places.latitudes[there], places.longitudes[there]
        if not np.any((lat >= south) & (lat <= north) & (lon >= west) & (lon <= east)):
            box = f"{south:.3f} to {north:.3f} north, {west:.3f} to {east:.3f} east"
            raise InputError(path, f"none of the places lies on this ground, which is that of {box}")
    return PageGround(data, display_text(found.attribution))
