"""The features of a file of areas, checked one by one: what cannot be used is refused, so that no number gets lost."""

import math
from pathlib import Path
from typing import Any, Iterator, Sequence

import numpy as np

from ..core.arrays import Floats
from ..core.errors import InputError, needs
from ..core.notices import Notice
from ..core.limits import MOST_JSON
from ..core.reading import as_one_line, read_json, sized
from ..core.tables import number_of
from ..core.text import display_text, first_few, quantity, short_number

AREAS = {".gpkg": b"SQLite format 3", ".geojson": b"{", ".json": b"{"}  # what geopandas reads, and how it begins
BYTE_ORDER = b"\xef\xbb\xbf"
MOST_AREAS = 1_000_000_000  # bytes
MOST_POINTS = 1_000_000  # of a file
Range = tuple[float, float, str]  # the least number that is allowed, the most, and what an error says of them
NUMBER = (0, math.inf, "a number from 0 on")
POLYGONS = ("Polygon", "MultiPolygon")
JSON = (".geojson", ".json")
NOT_SUMMED = "so its numbers are not summed"
RECORD = "record of the file"  # a column of the tables that `read_features` returns
MOSTLY = 0.9  # of a column of texts, from which on those that are no numbers are an error


def read_features(path: str) -> Any:
    """Read a GeoJSON file or a GeoPackage as a table of geopandas in degrees, with the numbers of its records.

    Raises
    ------
    InputError
        The file is of another kind, can't be read, or names no coordinate reference system.
    """
    if Path(path).suffix.lower() not in AREAS:
        raise InputError(path, f"areas are read from {', '.join(AREAS)}")
    frame = read_frame(path)
    if frame.crs is None:
        raise InputError(path, "it names no coordinate reference system")
    return frame.to_crs(4326).assign(**{RECORD: range(1, len(frame) + 1)})


def checked(path: str, frame: Any, columns: Sequence[str] | None = None) -> tuple[Any, list[str]]:
    """Return the records that have a shape, each with a valid one, and sentences on what was repaired.

    Raises
    ------
    InputError
        A record has no shape and a number above 0 in one of the columns, or no columns are given; or a polygon has no
        area.
    """
    missing = (frame.geometry.isna() | frame.geometry.is_empty).to_numpy()
    for place in np.flatnonzero(missing).tolist():
        stated = ((text_of(frame[name].iat[place]), name) for name in columns or ())
        found = [f"{text} {display_text(str(name))}" for text, name in stated if number_of(text or "0") != 0]
        if found or columns is None:
            raise InputError(path, f"no shape{f', and {found[0]}' if found else ''}", record=place + 1)
    frame = frame[~missing]
    pairs = list(zip(frame[RECORD].tolist(), frame.geometry))
    shapes = [valid(path, record, shape) for record, shape in pairs]
    repaired = [f"record {record} ({reason(old)})" for (record, old), new in zip(pairs, shapes) if new is not old]
    sentence = f"{path}: {quantity(len(repaired), 'invalid shape')} repaired: {first_few(repaired)}"
    return frame.set_geometry(shapes, crs=4326), [Notice(sentence, "repaired", len(repaired))] * bool(repaired)


def reason(shape: Any) -> str:
    """Why a shape is invalid."""
    from shapely.validation import explain_validity

    return str(explain_validity(shape)).partition("[")[0].lower()


def valid(path: str, record: int, shape: Any) -> Any:
    """Return a shape that is valid: itself, or for a polygon the ground that its rings enclose."""
    from shapely.ops import unary_union
    from shapely.validation import make_valid

    if shape.geom_type not in POLYGONS:
        return shape
    if not shape.is_valid:
        parts = [make_valid(part) for part in getattr(shape, "geoms", [shape])]
        pieces = [piece for part in parts for piece in getattr(part, "geoms", [part]) if piece.geom_type in POLYGONS]
        shape = unary_union(pieces)
    if not shape.area:
        raise InputError(path, "a polygon without area", record=record)
    return shape


def numeric_columns(path: str, frame: Any, others: Sequence[str]) -> tuple[list[str], list[str]]:
    """Return which of some columns have numbers, and sentences on those that might.

    A column of texts counts if the file states a number in it, as only GeoJSON can; each of its texts must then be a
    number. Other columns of texts are labels, but refused if nearly all of their texts are numbers and some are not.

    Raises
    ------
    InputError
        A text of a column of numbers is no number.
    """
    columns, sentences = list[str](), list[str]()
    mixed = frozenset[str]()
    texts = [name for name in others if frame[name].dtype.kind == "O" and any(map(is_number, frame[name]))]
    if texts and path.lower().endswith(JSON) and Path(path).stat().st_size <= MOST_JSON:
        mixed = frozenset(name for name in texts if states_numbers(path, name))
    for name in others:
        if frame[name].dtype.kind in "iuf":
            columns.append(name)
        elif name in texts:
            stated = [
                (place, text_of(value).strip()) for place, value in enumerate(frame[name]) if text_of(value).strip()
            ]
            wrong = [(place, text) for place, text in stated if not is_number(text)]
            share = 1 - len(wrong) / len(stated)
            if wrong and (name in mixed or share >= MOSTLY):
                place, text = wrong[0]
                allowed = f"{NUMBER[2]}, or nothing"
                raise InputError(path, "is invalid", record=place + 1, column=name, value=text, allowed=allowed)
            if name in mixed:
                columns.append(name)
            elif share >= MOSTLY:
                text = f"{path}: the column {display_text(name)} is text, {NOT_SUMMED}"
                sentences.append(Notice(text, "left out"))
    return columns, sentences


def is_number(value: Any) -> bool:
    """Whether a field, or its text, is a number."""
    return not np.isnan(number_of(text_of(value).strip()))


def states_numbers(path: str, column: str) -> bool:
    """Whether some feature of a GeoJSON file has a number, not a text, as a property."""
    properties: Iterator[Any] = (
        item.get("properties") or {} for item in read_json(path, "GeoJSON").get("features", [])
    )
    return any(isinstance(own.get(column), (int, float)) for own in properties if isinstance(own, dict))


def numbers_of(path: str, frame: Any, names: Sequence[str]) -> Floats:
    """Return the columns of a frame as numbers, in which a missing one counts as 0.

    Raises
    ------
    InputError
        A number is negative or infinite.
    """
    numbers: Floats = np.zeros((len(frame), len(names)))
    for column, name in enumerate(names):
        texts = (text_of(value).strip() for value in frame[name])
        numbers[:, column] = [number_of(text) if text else 0.0 for text in texts]
    bad = np.argwhere(~((numbers >= 0) & np.isfinite(numbers)))
    if len(bad):
        row, column = bad[0].tolist()
        record, name = int(frame[RECORD].iat[row]), names[column]
        value = text_of(frame[name].iat[row])
        raise InputError(path, "is invalid", record=record, column=name, value=value, allowed=NUMBER[2])
    return numbers


def read_frame(path: str) -> Any:
    """The table of geopandas of a file."""
    needs("geopandas")
    import geopandas  # each of the libraries by which it reads has faults of its own kinds

    kind = AREAS[Path(path).suffix.lower()]
    sized(path, MOST_AREAS, "a file of areas")
    with as_one_line(path, "not read"):
        with open(path, "rb") as file:
            begins_right = file.read(len(BYTE_ORDER) + 64).removeprefix(BYTE_ORDER).lstrip().startswith(kind)
        if not begins_right:  # no other kind of file is opened, since some lead to further ones
            raise InputError(path, "not read: it isn't what its name says")
        return geopandas.read_file(path, rows=MOST_POINTS + 1)


def text_of(value: Any) -> str:
    """A field of a frame as a table would have it; an empty text if it is missing."""
    if value is None or value != value:
        return ""
    if isinstance(value, (bool, np.bool_)):
        return str(int(value))
    if isinstance(value, (float, np.floating)):
        return short_number(float(value))
    return str(value)
