"""Places, question and notes of a matrix in an Open Matrix file, next to what other programs read."""

import json
from typing import Any

import geopandas
import numpy as np
import shapely.wkb
from shapely.geometry import Point

from ..core.notes import Note
from ..core.question import Question
from ..core.reading import as_one_line
from ..matrices.base import Matrix as Store
from ..matrices.omx import is_open_matrix
from .chosen import Context
from .frames import DEGREES


GROUP = "ttm"  # of the file, in which all of this is stored


def write_places_of(path: str, context: Context) -> None:
    """Add what a matrix was made of to its file."""
    import h5py

    with h5py.File(path, "a") as file:
        group = file.create_group(GROUP)
        about = {
            "question": context.question.to_dict() if context.question else None,
            "notes": [list(note) for note in context.notes],
            "unreachable": [[int(place) for place in places] for places in context.unreachable],
        }
        group.attrs["about"] = json.dumps(about)
        for name in ("origins", "destinations"):
            write_frame(group, name, getattr(context, name))


def write_frame(group: Any, name: str, frame: geopandas.GeoDataFrame) -> None:
    """Store a frame: its geometry as WKB, all else as JSON."""
    import h5py

    geometry = frame.geometry.name
    columns = {str(column): [plain(value) for value in frame[column]] for column in frame.columns if column != geometry}
    about = {
        "crs": frame.crs.to_wkt() if frame.crs else None,
        "geometry": geometry,
        "index": [plain(value) for value in frame.index],
        "index_name": frame.index.name,
        "columns": columns,
    }
    shapes = [np.frombuffer(b"" if shape is None else shape.wkb, np.uint8) for shape in frame.geometry]
    data = group.create_dataset(name, (len(shapes),), h5py.vlen_dtype(np.uint8))
    for place, shape in enumerate(shapes):
        data[place] = shape
    group.create_dataset(
        f"{name}_columns", data=np.frombuffer(json.dumps(about).encode(), np.uint8), compression="gzip"
    )


def plain(value: Any) -> Any:
    """Return a value as JSON has it: numbers and texts stay, all else becomes text."""
    if isinstance(value, np.generic):
        value = value.item()
    if value is None or isinstance(value, (bool, int, str)):
        return value
    if isinstance(value, float):
        return None if np.isnan(value) else value
    return str(value)


def read_places_of(path: str, store: Store) -> Context:
    """Return what a matrix was made of; if its file doesn't say, frames of its identifiers without places."""

    if is_open_matrix(path):
        import h5py

        with as_one_line(path, "places of the matrix can't be read"), h5py.File(path, "r") as file:
            if GROUP in file:
                about = json.loads(file[GROUP].attrs["about"])
                origins, destinations = (read_frame(file[GROUP], name) for name in ("origins", "destinations"))
                question = Question(**about["question"]) if about["question"] else None
                notes = tuple(Note(*note) for note in about["notes"])
                first, second = (tuple(places) for places in about["unreachable"])
                return Context(origins, destinations, question, notes, (first, second))
    origins = store.origins(store.scenarios[0], store.shares[0])
    return Context(without_places(origins), without_places(store.stops))


def read_frame(group: Any, name: str) -> geopandas.GeoDataFrame:
    """Return a frame that `write_frame` stored."""
    about = json.loads(bytes(group[f"{name}_columns"][:]))
    shapes = [shapely.wkb.loads(bytes(shape)) if len(shape) else None for shape in group[name][:]]
    frame = geopandas.GeoDataFrame(about["columns"], geometry=shapes, crs=about["crs"])
    frame.index = about["index"]
    frame.index.name = about["index_name"]
    return frame.rename_geometry(about["geometry"]) if about["geometry"] != "geometry" else frame


def without_places(names: list[str]) -> geopandas.GeoDataFrame:
    """Return a frame of identifiers whose places are unknown."""
    return geopandas.GeoDataFrame({"id": names}, geometry=[Point()] * len(names), crs=DEGREES)
