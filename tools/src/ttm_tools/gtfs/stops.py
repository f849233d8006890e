"""The stops of an unpacked feed, with their names and places."""

import math
import os
from dataclasses import dataclass, field
from functools import cached_property
from typing import Mapping, Sequence

import numpy as np
import numpy.typing as npt

from ..core.arrays import Floats
from ..core.errors import InputError
from ..core.tables import number_of, rows
from ..core.text import display_text
from . import fields

Area = Sequence[Sequence[Floats]]  # polygons, each an outer ring and its holes: rows of longitude and latitude
EARTH = 6_371_008.8  # mean radius in metres


@dataclass(frozen=True)
class Stops:
    """The locations of a feed, in the order of stops.txt."""

    path: str
    identifiers: list[str]
    names: list[str]  # for people; the identifier if there is none
    latitudes: Floats  # degrees; NaN where the feed has no place, none on earth, or 0 and 0, as some feeds write that
    longitudes: Floats  # the same
    kinds: npt.NDArray[np.int8]  # location_type; -1 for a text that is none
    stations: list[str]  # parent_station, "" where none is named
    widths: Floats | None = None  # metres, of cells that are drawn instead of marks; NaN for a stop without a cell
    heights: Floats | None = None  # metres, of these cells; NaN for a square
    areas: Mapping[str, Area] = field(default_factory=dict)  # of cells that have another shape, by identifier

    @cached_property
    def places(self) -> dict[str, int]:
        """Where each identifier stands."""
        return {name: place for place, name in enumerate(self.identifiers)}

    def of(self, identifiers: Sequence[str]) -> "Stops":
        """These stops alone, in this order, which are all there."""
        lost = [name for name in identifiers if name not in self.places]
        if lost:
            raise InputError(
                self.path, f"no stop {display_text(lost[0])}, which the matrix has: is it from another feed?"
            )
        chosen = np.array([self.places[name] for name in identifiers], dtype=np.intp)
        names, stations = ([texts[place] for place in chosen] for texts in (self.names, self.stations))
        places = (self.latitudes[chosen], self.longitudes[chosen])
        wide, high = (None if sides is None else sides[chosen] for sides in (self.widths, self.heights))
        areas = {name: self.areas[name] for name in identifiers if name in self.areas} if self.areas else {}
        return Stops(self.path, list(identifiers), names, *places, self.kinds[chosen], stations, wide, high, areas)

    def append(self, more: "Stops") -> "Stops":
        """These with others behind them; without cells."""
        return Stops(
            self.path,
            self.identifiers + more.identifiers,
            self.names + more.names,
            np.concatenate([self.latitudes, more.latitudes]),
            np.concatenate([self.longitudes, more.longitudes]),
            np.concatenate([self.kinds, more.kinds]),
            self.stations + more.stations,
        )

    def sides(self) -> Floats:
        """How wide and how high the cell of each stop is, in metres; NaN for a stop that has none."""
        none = np.full(len(self.identifiers), np.nan)
        wide, high = (none if sides is None else sides for sides in (self.widths, self.heights))
        return np.stack([wide, np.where(np.isnan(high), wide, high)], axis=1)

    @property
    def placed(self) -> npt.NDArray[np.bool_]:
        return ~np.isnan(self.latitudes)

    def name_of(self, identifier: str) -> str:
        """A stop's name with its identifier."""
        name, plain = self.names[self.places[identifier]], display_text(identifier)
        return name if name == plain else f"{name} ({plain})"


def in_folder(folder: str, name: str) -> str:
    if not os.path.isdir(folder):
        raise InputError(folder, "not the folder of a feed (unzip it first)")
    return os.path.join(folder, name)


def has_file(folder: str, name: str) -> bool:
    return os.path.isfile(os.path.join(folder, name))


def place_of(latitude: str, longitude: str) -> tuple[float, float]:
    """A place in degrees; NaN for both where the texts state none."""
    place = (number_of(latitude), number_of(longitude))
    right = abs(place[0]) <= 90 and abs(place[1]) <= 180 and any(place)
    return place if right else (math.nan, math.nan)


def kind_of(text: str) -> int:
    """A location_type: 0 for an empty text, -1 for one that the reference doesn't name."""
    kind = fields.number(text)
    return 0 if kind == fields.EMPTY else kind if kind <= 4 else fields.NONE


def read_stops(folder: str) -> Stops:
    """The stops of a feed; identifiers are bytes, and names are text of whatever encoding."""
    path = in_folder(folder, "stops.txt")
    identifiers: dict[str, None] = {}
    names, places, kinds, stations = [], [], [], []
    wanted = ("stop_name", "stop_lat", "stop_lon", "location_type", "parent_station")
    for number, (stop, name, latitude, longitude, kind, station) in rows(path, ["stop_id"], wanted):
        if stop in identifiers:
            raise InputError(path, f"{display_text(stop)} occurs twice", record=number)
        identifiers[stop] = None
        names.append(display_text(name.strip() or stop))
        places.append(place_of(latitude, longitude))
        kinds.append(kind_of(kind))
        stations.append(station)
    found = np.array(places, dtype=np.float64).reshape(-1, 2)
    return Stops(path, list(identifiers), names, found[:, 0], found[:, 1], np.array(kinds, np.int8), stations)


def read_list(path: str, known: Sequence[str], kind: str) -> list[str]:
    """The stops that a file with the column stop_id names; each must be known as an origin, a stop .. of the matrix."""
    among, named = set(known), []
    for number, (stop,) in rows(path, ["stop_id"]):
        if stop not in among:
            raise InputError(path, f"the matrix has no {kind} {display_text(stop)}", record=number)
        named.append(stop)
    return named


def origins_of_feed(folder: str) -> list[str]:
    """The stops of a feed at which vehicles call, as `ttm` takes them where no file names origins."""
    found = rows(in_folder(folder, "stops.txt"), ["stop_id"], ["location_type"])
    return [stop for _, (stop, kind) in found if kind_of(kind) == 0]
