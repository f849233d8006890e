"""Matrices of travel times: `open_matrix` reads one as `ttm` prints it, or as an Open Matrix file; `write_open_matrix`
makes the latter.

The room is called `matrices`, since `ttm_tools.matrix` is the function that runs `ttm`.
"""

from ..core.arrays import Seconds, Sums
from ..core.reading import as_one_line, regular
from ..core.scenarios import BASE, TODAY
from .base import Matrix, Pair, Share, has_all, lacking, pair_of
from .csv_matrix import CsvMatrix
from .joined import JoinedMatrix
from .layout import layout_of
from .omx import OpenMatrix, is_open_matrix, write_open_matrix
from .selections import capped

__all__ = [
    "BASE",
    "TODAY",
    "JoinedMatrix",
    "Matrix",
    "Pair",
    "Seconds",
    "Share",
    "Sums",
    "capped",
    "has_all",
    "lacking",
    "layout_of",
    "open_matrix",
    "pair_of",
    "write_open_matrix",
]


def open_matrix(path: str) -> Matrix:
    """A matrix on the disk, whichever way it is written."""
    regular(path)
    with as_one_line(path, "can't be read"):
        return OpenMatrix(path) if is_open_matrix(path) else CsvMatrix(path)
