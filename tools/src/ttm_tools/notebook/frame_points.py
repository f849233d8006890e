"""Frames of places as the points that pages draw: marks, or the areas of polygons."""

from typing import Any

import geopandas
import numpy as np
import numpy.typing as npt
import pandas

from ..api.frames import DEGREES
from ..core.arrays import Floats
from ..core.errors import InputError
from ..core.text import display_text
from ..places.areas import KINDS, area_of
from ..places.read import Points


def points_of(argument: str, frame: geopandas.GeoDataFrame, columns: list[str], numbers: Floats) -> Points:
    """Return the places of a frame as points.

    Parameters
    ----------
    argument
        The argument that the frame is, for errors.
    frame
        Places with the column `id`. One without a geometry has no place on the map.
    columns, numbers
        Names of columns, and their numbers, of shape (places, columns).

    Raises
    ------
    InputError
        The frame has no projection, or two identifiers, such as 1 and "1", are the same as texts.
    """
    if frame.crs is None:
        raise InputError(argument, "names no coordinate reference system; set it with .set_crs(..)")
    identifiers = [str(name) for name in frame["id"]]
    alike = np.flatnonzero(pandas.Series(identifiers, dtype=object).duplicated())
    if len(alike):
        what = f"two identifiers read {display_text(identifiers[alike[0]])} as texts"
        raise InputError(argument, what, record=int(alike[0]), column="id")
    shown = [display_text(text) for text in texts_of(frame, identifiers)]
    shapes, is_placed = frame.geometry.to_crs(DEGREES), (frame.geometry.notna() & ~frame.geometry.is_empty).to_numpy()
    north, east, none = np.full((3, len(frame)), np.nan)
    inside = shapes[is_placed].representative_point()
    north[is_placed], east[is_placed] = inside.y, inside.x
    areas = {name: area_of(shape) for name, shape in zip(identifiers, shapes) if shape and shape.geom_type in KINDS}
    return Points(argument, identifiers, shown, north, east, none, columns, numbers, areas=areas)


def texts_of(frame: geopandas.GeoDataFrame, identifiers: list[str]) -> list[str]:
    """Return what people call the places: the column `name` or `stop_name`, else their identifiers."""
    column = next((name for name in ("name", "stop_name") if name in frame.columns), None)
    if column is None:
        return identifiers
    texts = frame[column].astype(object).where(frame[column].notna(), "").astype(str).str.strip()
    return [text or identifier for text, identifier in zip(texts, identifiers)]


def renamed(points: Points, names: list[str]) -> Points:
    """Return the same points under other identifiers."""
    areas = {new: points.areas[old] for old, new in zip(points.identifiers, names) if old in points.areas}
    found: dict[str, Any] = {**vars(points), "identifiers": names, "areas": areas}
    return Points(**found)


def joined(first: Points, second: Points, is_new: npt.NDArray[np.bool_]) -> Points:
    """Return some points with those of others that are new."""
    new = second.only(np.flatnonzero(is_new))
    names, numbers = first.names + new.names, np.zeros((len(first.names) + len(new.names), 0))
    north, east, wide = (
        np.concatenate([getattr(points, name) for points in (first, new)])
        for name in ("latitudes", "longitudes", "widths")
    )
    areas = {**first.areas, **new.areas}
    return Points(first.path, first.identifiers + new.identifiers, names, north, east, wide, [], numbers, areas=areas)
