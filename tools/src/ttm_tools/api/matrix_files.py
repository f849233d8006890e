"""Matrices of replies, and of files."""

from dataclasses import replace
from os import PathLike

import geopandas
import numpy as np
import pandas

from ..core.errors import InputError
from ..core.notes import Note
from ..matrices import open_matrix as open_file
from ..matrices.array_matrix import ArrayMatrix
from .asking import Reply, Request
from .chosen import Context
from .matrix import Matrix
from .omx_places import read_places_of

PathLikeStr = str | PathLike[str]


def matrix_of(request: Request, reply: Reply, notes: tuple[Note, ...]) -> Matrix:
    """Return the matrix of a reply."""
    begins, ends = ([str(name) for name in side.identifiers] for side in (request.origins, request.destinations))
    unreachable = tuple(reply.unreachable[0]), tuple(reply.unreachable[1])
    context = Context(request.origins.frame, request.destinations.frame, request.question, notes, unreachable)
    return Matrix(ArrayMatrix(begins, ends, reply.arrays), context)


def open_matrix(
    path: PathLikeStr,
    *,
    origins: geopandas.GeoDataFrame | None = None,
    destinations: geopandas.GeoDataFrame | None = None,
) -> Matrix:
    """Open an .omx file, or a CSV file as `ttm` prints it, without reading its cells.

    `origins` and `destinations` say where places lie if the file doesn't; they must have the same identifiers.
    """
    store = open_file(str(path))
    context = read_places_of(str(path), store)
    for name, given in (("origins", origins), ("destinations", destinations)):
        if given is not None:
            known = getattr(context, name)
            frame = given if "id" in given.columns else given.assign(id=given.index)
            order = pandas.Index(frame["id"].map(str)).get_indexer(known["id"].map(str))
            if (order < 0).any():
                lost = known["id"].iloc[int(np.argmax(order < 0))]
                raise InputError(name, "lacks a place of the matrix", value=str(lost))
            context = replace(context, **{name: frame.iloc[order]})
    return Matrix(store, context)
