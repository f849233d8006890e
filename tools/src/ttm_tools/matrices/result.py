"""A whole matrix in memory."""

from dataclasses import dataclass
from typing import Any, Mapping

import numpy as np

from ..core.arrays import Seconds, Sums
from ..core.errors import ArgumentError
from ..core.scaling import unscaled
from ..core.scenarios import base_of
from .base import Matrix


@dataclass(frozen=True)
class Result:
    """A matrix in memory, four bytes for each cell.

    Attributes
    ----------
    scenarios
        Names, the base first.
    shares
        Percentiles.
    limits
        Cutoffs of access, in seconds.
    origins, stops
        Identifiers of the rows and the columns.
    seconds
        Travel times by scenario and percentile, shape (origins, stops); NaN if not reached.
    sums
        Access by scenario and percentile, shape (origins, limits): int64, or float64 if opportunities have decimals.
    rounded
        How many numbers with decimals were rounded for `ttm`.
    """

    scenarios: list[str]
    shares: list[int]
    limits: list[int]
    origins: list[str]
    stops: list[str]
    seconds: Mapping[tuple[str, int], Seconds]
    sums: Mapping[tuple[str, int], Sums]
    rounded: int

    def array(self, scenario: str | None = None, share: int | None = None) -> Seconds:
        """Return the travel times as an array. The default scenario is `base`."""
        return self.seconds[self.key(scenario, share)]

    def times(self, scenario: str | None = None, share: int | None = None) -> Any:
        """Return the travel times as a pandas frame with origins as its index and stops as its columns."""
        import pandas

        return pandas.DataFrame(self.array(scenario, share), index=self.origins, columns=self.stops)

    def access(self) -> Any:
        """Return access as a pandas frame with the columns scenario, share, origin, within and access."""
        import pandas

        frames = []
        for (scenario, share), sums in self.sums.items():
            columns = {"within": np.tile(self.limits, len(self.origins)), "access": sums.ravel()}
            origins = np.repeat(np.array(self.origins, dtype=object), len(self.limits))
            frames.append(pandas.DataFrame({"scenario": scenario, "share": share, "origin": origins, **columns}))
        return pandas.concat(frames, ignore_index=True)

    @property
    def base(self) -> str:
        """The scenario that others are compared with: today for the scenarios of a plan."""
        return base_of(self.scenarios)

    def key(self, named: str | None, share: int | None) -> tuple[str, int]:
        """Return a scenario and a percentile of the matrix; the percentile may be None if there is only one."""
        scenario = self.base if named is None else named
        if share is None and len(self.shares) > 1:
            raise ArgumentError(f"the matrix has the percentiles {', '.join(map(str, self.shares))}: name one")
        key = (scenario, self.shares[0] if share is None else share)
        if key not in self.seconds:
            names, shares = ", ".join(self.scenarios), ", ".join(map(str, self.shares))
            raise ArgumentError(f"no scenario {scenario} with the percentile {key[1]}: it has {names} with {shares}")
        return key


def result_of(matrix: Matrix, rounded: int, scale: int) -> Result:
    """Read all of a matrix that names its percentiles, and divide its sums of access by a scale."""
    keys = [(scenario, share) for scenario in matrix.scenarios for share in matrix.shares if share is not None]
    origins = matrix.origins(*keys[0])
    seconds = {key: matrix.rows(*key, 0, len(origins)) for key in keys}
    shares = [share for share in matrix.shares if share is not None]
    limits = [limit or 0 for limit in matrix.layout.limits]
    sums = {key: unscaled(matrix.access(*key), scale) for key in keys}
    return Result(matrix.scenarios, shares, limits, origins, matrix.stops, seconds, sums, rounded)
