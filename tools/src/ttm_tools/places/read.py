"""Files of points: where each of them is, what it is called, how wide it is drawn, and numbers of what is there."""

import math
from array import array
from dataclasses import dataclass, field, replace
from pathlib import Path
from typing import Iterable, Mapping, Sequence

import numpy as np
import numpy.typing as npt

from ..core.arrays import Floats
from ..core.errors import InputError
from ..core.tables import column_positions, number_of, records, refuse_alike, rows
from ..core.text import display_text
from ..gtfs.stops import Area, Stops
from .areas import KINDS, area_of
from .features import AREAS, MOST_POINTS, NUMBER, Range, numeric_columns, read_frame, text_of, valid

NEEDED, WANTED = ("id", "lat", "lon"), ("name", "width", "height")
WIDEST = 1_000_000.0  # metres
LATITUDE, LONGITUDE = (-90, 90, "degrees from -90 to 90"), (-180, 180, "degrees from -180 to 180")
SIDE = (math.ulp(0), WIDEST, f"metres above 0, up to {WIDEST:,.0f}, or nothing")


@dataclass(frozen=True)
class Columns:
    """What the columns are called that say which point it is, and where."""

    identifier: str = "id"
    latitude: str = "lat"
    longitude: str = "lon"


@dataclass(frozen=True)
class Points:
    """The points of a file, in its order."""

    path: str
    identifiers: list[str]
    names: list[str]
    latitudes: Floats  # degrees
    longitudes: Floats
    widths: Floats  # metres; NaN where the file says none
    columns: list[str]  # what else it says in numbers
    numbers: Floats  # a row for each point, a column for each of these
    labels: dict[str, list[str]] = field(default_factory=dict)  # and in texts, by column
    heights: Floats | None = None  # metres; NaN where a cell is as high as it is wide
    areas: Mapping[str, Area] = field(default_factory=dict)  # of points that are areas, by identifier
    notes: tuple[str, ...] = ()  # on columns that may be meant as numbers

    def as_stops(self) -> Stops:
        """The points as stops at which vehicles might call."""
        kinds, stations = np.zeros(len(self.identifiers), np.int8), [""] * len(self.identifiers)
        places, sides = (self.latitudes, self.longitudes), (self.widths, self.heights)
        return Stops(self.path, self.identifiers, self.names, *places, kinds, stations, *sides, areas=self.areas)

    def only(self, kept: npt.NDArray[np.intp]) -> "Points":
        identifiers, names = ([texts[place] for place in kept.tolist()] for texts in (self.identifiers, self.names))
        places = (self.latitudes[kept], self.longitudes[kept], self.widths[kept])
        heights = None if self.heights is None else self.heights[kept]
        labels = {name: [texts[place] for place in kept.tolist()] for name, texts in self.labels.items()}
        areas = {name: self.areas[name] for name in identifiers if name in self.areas}
        return Points(self.path, identifiers, names, *places, self.columns, self.numbers[kept], labels, heights, areas)


class PointsBuilder:
    """Checks points as they are read, and collects them column by column."""

    def __init__(self, path: str, columns: list[str]) -> None:
        self.path, self.columns, self.seen = path, columns, set[str]()
        self.identifiers, self.names = list[str](), list[str]()
        self.places, self.numbers = array("d"), array("d")  # four, and one of each column, for each point

    def identifier(self, text: str, record: int) -> str:
        if not text:
            raise InputError(self.path, "is empty", record=record, column="id")
        if text in self.seen:
            raise InputError(self.path, f"{display_text(text)} occurs twice", record=record)
        self.seen.add(text)
        return text

    def place(self, latitude: str, longitude: str, record: int) -> tuple[float, float]:
        degrees = self.number(latitude, record, "lat", LATITUDE), self.number(longitude, record, "lon", LONGITUDE)
        if not any(degrees):
            raise InputError(self.path, "lat and lon are 0 and 0, which is not a place", record=record)
        return degrees

    def side(self, text: str, record: int, column: str) -> float:
        return self.number(text, record, column, SIDE) if text.strip() else math.nan

    def number(self, text: str, record: int, column: str, allowed: Range = NUMBER) -> float:
        number, (least, most, said) = number_of(text.strip()), allowed
        if not least <= number <= most:
            raise InputError(self.path, "is invalid", record=record, column=column, value=text, allowed=said)
        return number

    def add(self, identifier: str, name: str, place: Iterable[float], numbers: Iterable[float]) -> None:
        """Takes a point with its latitude, longitude, width and height."""
        if len(self.identifiers) >= MOST_POINTS:
            raise InputError(self.path, f"more than {MOST_POINTS:,} points: use parts of the region")
        self.identifiers.append(identifier)
        self.names.append(identifier if name == identifier else name)
        self.places.extend(place)
        self.numbers.extend(numbers)

    def points(self) -> Points:
        north, east, wide, high = np.array(self.places, dtype=np.float64).reshape(-1, 4).T.copy()
        table = np.array(self.numbers, dtype=np.float64).reshape(len(self.identifiers), len(self.columns))
        return Points(self.path, self.identifiers, self.names, north, east, wide, self.columns, table, heights=high)


def read_points(path: str, called: Columns = Columns()) -> Points:
    """The points of a table, or of a GeoPackage or a GeoJSON file."""
    found = read_areas(path, called) if Path(path).suffix.lower() in AREAS else read_table(path, called)
    if not found.identifiers:
        raise InputError(path, "no points")
    return found


def number_columns(path: str, columns: Sequence[str]) -> list[str]:
    """The columns that have a number in some record; and no more records than a file of points may have."""
    found = set[str]()
    for count, (_, fields) in enumerate(rows(path, columns)):
        if count >= MOST_POINTS:
            raise InputError(path, f"more than {MOST_POINTS:,} points: use parts of the region")
        for name, text in zip(columns, fields):
            if name not in found and not math.isnan(number_of(text.strip())):
                found.add(name)
    return [name for name in columns if name in found]


def read_table(path: str, called: Columns) -> Points:
    """The points of a CSV file; a column in which no field is a number has labels."""
    _, header = next(records(path), (1, list[str]()))
    needed = called.identifier, called.latitude, called.longitude
    others = [name for name in column_positions(header, path, needed) if name and name not in needed + WANTED]
    refuse_alike(path, header, [*needed, *others])
    columns = number_columns(path, others)
    labels = {name: list[str]() for name in others if name not in columns}
    builder = PointsBuilder(path, columns)
    for record, (own, latitude, longitude, name, *fields) in rows(path, needed, (*WANTED, *others), whole=True):
        identifier, numbers_stated = builder.identifier(own, record), dict(zip(others, fields[2:]))
        sides = [builder.side(text, record, column) for text, column in zip(fields, WANTED[1:])]
        place = (*builder.place(latitude, longitude, record), *sides)
        numbers = (builder.number(numbers_stated[column], record, column) for column in columns)
        builder.add(identifier, display_text(name.strip() or own), place, numbers)
        for column, texts in labels.items():
            texts.append(display_text(numbers_stated[column]))
    return replace(builder.points(), labels=labels)


def read_areas(path: str, called: Columns) -> Points:
    """A point inside each area of a file, with the area, or each of its points; columns of text have labels."""
    frame = read_frame(path)
    twice = next(iter(frame.columns[frame.columns.duplicated()]), None)
    if twice is not None:
        raise InputError(path, f"two columns {display_text(str(twice))}")
    if called.identifier not in frame.columns:
        raise InputError(path, f"no column {called.identifier}")
    frame = frame.rename(columns={called.identifier: "id"})
    if frame.crs is None:
        raise InputError(path, "it names no coordinate reference system")
    empty = np.flatnonzero((frame.geometry.isna() | frame.geometry.is_empty).to_numpy())
    if len(empty):
        raise InputError(path, "no area", record=int(empty[0]) + 1)
    frame = frame.set_geometry([valid(path, place + 1, shape) for place, shape in enumerate(frame.geometry)])
    inside = frame.geometry.representative_point().to_crs(4326)
    used = (*NEEDED, *WANTED, frame.geometry.name)
    others = [name for name in frame.columns if frame[name].dtype.kind in "iufbOM" and name not in used]
    counted, notes = numeric_columns(path, frame, others)
    kept = [name for name in others if frame[name].dtype.kind == "b" or name in counted]
    texts = [name for name in others if name not in kept]
    builder = PointsBuilder(path, kept)
    names = frame["name"] if "name" in frame.columns else frame["id"]
    sides = [frame[column] if column in frame.columns else [None] * len(frame) for column in WANTED[1:]]
    for place, (own, point, name, *wide) in enumerate(zip(frame["id"], inside, names, *sides)):
        identifier = builder.identifier(text_of(own), place + 1)
        where = builder.place(repr(point.y), repr(point.x), place + 1)
        numbers = [builder.number(text_of(frame[column].iat[place]), place + 1, column) for column in kept]
        given = [builder.side(text_of(side), place + 1, column) for side, column in zip(wide, WANTED[1:])]
        builder.add(identifier, text_of(name) or identifier, (*where, *given), numbers)
    labels = {str(name): [text_of(value) for value in frame[name]] for name in texts}
    shapes = zip(builder.identifiers, frame.geometry.to_crs(4326))
    areas = {name: area_of(shape) for name, shape in shapes if shape.geom_type in KINDS}
    return replace(builder.points(), labels=labels, areas=areas, notes=tuple(notes))
