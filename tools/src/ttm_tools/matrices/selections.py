"""Matrices made from another one: up to a greatest travel time, or of some of its stops, such as points."""

from collections.abc import Collection
from dataclasses import replace

import numpy as np

from ..core.arrays import Places, Seconds, Sums
from ..core.errors import InputError
from .base import Matrix, Share


class DerivedMatrix(Matrix):
    """A matrix that is made from another one, `whole`, and equals it in all that a subclass doesn't change."""

    def __init__(self, whole: Matrix) -> None:
        self.whole, self.path, self.layout = whole, whole.path, whole.layout
        self.scenarios, self.shares, self.greatest = whole.scenarios, whole.shares, whole.greatest
        self.heading, self.files, self.named_base = whole.heading, whole.files, whole.named_base

    def origins(self, scenario: str, share: Share) -> list[str]:
        return self.whole.origins(scenario, share)

    def access(self, scenario: str, share: Share) -> Sums:
        return self.whole.access(scenario, share)

    def rows(self, scenario: str, share: Share, begin: int, end: int) -> Seconds:
        return self.whole.rows(scenario, share, begin, end)

    def limit(self, seconds: int | None) -> tuple[int, int | None]:
        return self.whole.limit(seconds)

    @property
    def left_out(self) -> str:
        return self.whole.left_out

    def scenario(self, name: str) -> str:
        return self.whole.scenario(name)

    def other(self, base: str, name: str | None) -> str:
        return self.whole.other(base, name)

    def rows_at_once(self) -> int:
        return self.whole.rows_at_once()


class LimitedMatrix(DerivedMatrix):
    """The same matrix up to a travel time: a pair that takes longer counts as not reached.

    Access within longer limits is left out, since it counts such pairs.
    """

    def __init__(self, whole: Matrix, seconds: float) -> None:
        super().__init__(whole)
        self.greatest = self.end = seconds
        kept = [place for place, limit in enumerate(whole.layout.limits) if limit is None or limit <= seconds]
        self.limits_kept: Places = np.array(kept, dtype=np.intp)
        self.layout = replace(whole.layout, limits=tuple(whole.layout.limits[place] for place in kept))

    def access(self, scenario: str, share: Share) -> Sums:
        counts: Sums = self.whole.access(scenario, share)[:, self.limits_kept]
        return counts

    def rows(self, scenario: str, share: Share, begin: int, end: int) -> Seconds:
        found = self.whole.rows(scenario, share, begin, end)
        seconds: Seconds = np.where(found > self.end, np.float32(np.nan), found)
        return seconds

    def limit(self, seconds: int | None) -> tuple[int, int | None]:
        if not self.layout.limits or seconds is not None and seconds > self.end:
            message = "access of the matrix counts pairs that take longer than the greatest travel time"
            raise InputError(self.path, f"{message}, {self.end:g} seconds: use ttm-tools access")
        return Matrix.limit(self, seconds)


class MatrixSubset(DerivedMatrix):
    """The named origins as rows, and the named stops as columns.

    If none of the rows is named, the subset has all rows; likewise the columns.
    """

    def __init__(self, whole: Matrix, names: Collection[str]) -> None:
        super().__init__(whole)
        self.names = frozenset(names)
        self.columns = self.places_among(whole.stops)
        self.layout = replace(whole.layout, stops=[whole.stops[place] for place in self.columns.tolist()])
        self.kept: dict[tuple[str, Share], Places] = {}

    def places_among(self, names: list[str]) -> Places:
        """Return where the named ones stand, or where all do."""
        found = [place for place, name in enumerate(names) if name in self.names]
        return np.array(found or range(len(names)), dtype=np.intp)

    @property
    def is_any(self) -> bool:
        """Whether anything of the matrix is named."""
        return not self.names.isdisjoint(self.whole.stops_and_origins())

    def rows_of(self, scenario: str, share: Share) -> Places:
        """Return the places of the chosen origins among all."""
        key = (scenario, share)
        if key not in self.kept:
            self.kept[key] = self.places_among(self.whole.origins(scenario, share))
        return self.kept[key]

    def origins(self, scenario: str, share: Share) -> list[str]:
        names = self.whole.origins(scenario, share)
        return [names[place] for place in self.rows_of(scenario, share).tolist()]

    def access(self, scenario: str, share: Share) -> Sums:
        counts: Sums = self.whole.access(scenario, share)[self.rows_of(scenario, share)]
        return counts

    def rows(self, scenario: str, share: Share, begin: int, end: int) -> Seconds:
        found = self.whole.rows_at(scenario, share, self.rows_of(scenario, share)[begin:end])
        return found if len(self.columns) == len(self.whole.stops) else found[:, self.columns]


def capped(matrix: Matrix, minutes: float | None) -> Matrix:
    """Return a matrix without travel times above a number of minutes, if this is given."""
    return matrix if minutes is None else LimitedMatrix(matrix, round(60 * minutes))
