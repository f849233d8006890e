"""The matrix of a whole study from those of its parts, block by block: never whole in memory."""

import itertools
from bisect import bisect_right
from dataclasses import dataclass
from typing import Mapping, Sequence

import numpy as np

from ..core.errors import InputError
from ..core.files import output, remove
from ..core.text import quantity
from ..core.threads import map_in_order
from ..matrices import Matrix, Seconds, Share, Sums, write_open_matrix
from ..matrices.selections import MatrixSubset
from ..matrices.csv_matrix import CsvMatrix
from ..core.scaling import unscaled
from ..matrices.parts import PartMatrix, write_whole
from .parts import Part

MATRIX, CSV = "matrix.omx", "matrix.csv"


@dataclass(frozen=True)
class ShownMatrix:
    """What a study shows of the matrix of its run."""

    shown_as: Mapping[str, str]  # the scenarios by the names that the study gives them
    columns: Sequence[str]  # the only columns, if there are any
    scale: int = 1  # by what sums of access are divided


class Joined(Matrix):
    """The matrices of parts, one behind the other, as one matrix, whose sums of access are divided by a scale."""

    def __init__(self, parts: Sequence[Part], shown_as: Mapping[str, str] | None = None, scale: int = 1) -> None:
        self.scale = scale
        self.parts = [CsvMatrix(str(part.matrix)) for part in parts]
        first = self.parts[0]
        self.path, self.layout = first.path, first.layout
        self.called = dict(shown_as or {name: name for name in first.scenarios})
        self.scenarios, self.shares = list(self.called), first.shares
        self.names: dict[tuple[str, Share], list[str]] = {}
        self.begins = [0]
        for part, matrix in zip(parts, self.parts):
            if (matrix.layout, matrix.scenarios, matrix.shares) != (self.layout, first.scenarios, self.shares):
                raise InputError(matrix.path, f"has other columns, scenarios or percentiles than {self.path}")
            for scenario, share in itertools.product(self.scenarios, self.shares):
                if matrix.origins(self.called[scenario], share) != list(part.origins):
                    raise InputError(matrix.path, "has other origins than its part")
                self.names.setdefault((scenario, share), []).extend(part.origins)
            self.begins.append(self.begins[-1] + len(part.origins))

    def origins(self, scenario: str, share: Share) -> list[str]:
        return self.names.get((scenario, share), [])

    def access(self, scenario: str, share: Share) -> Sums:
        sums = np.concatenate([part.access(self.called[scenario], share) for part in self.parts])
        return unscaled(sums, self.scale)

    def rows(self, scenario: str, share: Share, begin: int, end: int) -> Seconds:
        found = [np.zeros((0, len(self.stops)), np.float32)]
        for place in range(bisect_right(self.begins, begin) - 1, len(self.parts)):
            first, last = max(begin, self.begins[place]), min(end, self.begins[place + 1])
            if first >= last:
                break
            ends = (first - self.begins[place], last - self.begins[place])
            found.append(self.parts[place].rows(self.called[scenario], share, *ends))
        return np.concatenate(found)


def refuse_changed(parts: Sequence[Part], threads: int) -> None:
    """Refuses the first part whose bytes aren't those that were made, and has it be computed again."""
    for part, is_whole in zip(parts, map_in_order(Part.is_whole, parts, threads)):
        if not is_whole:
            remove(part.folder / "key")
            raise InputError(part.matrix, "changed since it was written; the same command computes it again")


def join_parts(parts: Sequence[Part], with_csv: bool, shown: ShownMatrix, threads: int, path: str) -> list[str]:
    """Checks all parts again, and writes their matrix with the scenarios and columns that the study shows.

    Without such columns it writes all.
    """
    refuse_changed(parts, threads)
    joined = Joined(parts, shown.shown_as, shown.scale)
    matrix = MatrixSubset(joined, shown.columns) if shown.columns else joined
    write_open_matrix(matrix, path, threads)
    columns = quantity(len(matrix.stops), "point" if shown.columns else "stop")
    sentences = [f"{path}: {quantity(joined.begins[-1], 'origin')}, {columns}"]
    if with_csv:
        with output(str(parts[0].study / CSV)) as file:
            write_whole([PartMatrix(str(part.matrix)) for part in parts], file)
        scaled = f", whose access is {shown.scale:,} times what the study shows" if shown.scale > 1 else ""
        sentences.append(f"{CSV}: the bytes of one run{scaled}")
    return sentences
