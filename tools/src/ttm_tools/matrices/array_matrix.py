"""A matrix in memory."""

from collections.abc import Mapping, Sequence

import numpy as np

from ..core.arrays import Seconds, Sums
from .base import Matrix, Share
from .layout import MatrixLayout


LIMIT = 1_800  # seconds: the default of `ttm`, which counts each stop as 1 unless told otherwise


class ArrayMatrix(Matrix):
    """A matrix whose cells are arrays. Its access is the number of destinations within the default limit of `ttm`.

    Parameters
    ----------
    origins, destinations
        Identifiers of the rows and of the columns.
    seconds
        Arrays of shape (origins, destinations) by scenario and percentile, in order; NaN if not reached.
    """

    def __init__(
        self, origins: Sequence[str], destinations: Sequence[str], seconds: Mapping[tuple[str, int], Seconds]
    ) -> None:
        self.path = "matrix"
        self.layout = MatrixLayout(True, (LIMIT,), list(destinations))
        self.scenarios = list(dict.fromkeys(scenario for scenario, _ in seconds))
        self.shares = list(dict.fromkeys(share for _, share in seconds))
        self.origin_names = list(origins)
        self.arrays = dict(seconds)
        for array in self.arrays.values():
            array.flags.writeable = False

    def origins(self, scenario: str, share: Share) -> list[str]:
        return self.origin_names

    def access(self, scenario: str, share: Share) -> Sums:
        assert share is not None
        counts: Sums = np.count_nonzero(self.arrays[scenario, share] <= LIMIT, axis=1).astype(np.int64)[:, None]
        return counts

    def rows(self, scenario: str, share: Share, begin: int, end: int) -> Seconds:
        assert share is not None
        return self.arrays[scenario, share][begin:end]
