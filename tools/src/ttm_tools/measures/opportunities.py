"""Numbers of what there is at each stop: opportunities, or people."""

from dataclasses import dataclass

import numpy as np

from ..core.arrays import Floats


@dataclass(frozen=True)
class Counts:
    """Numbers of several kinds for each of some stops."""

    names: list[str]
    numbers: Floats  # a row for each stop, a column for each name; 0 for a stop that no record names

    def of_places(self) -> "Counts":
        """The same where each place with anything of a kind counts once."""
        return Counts(self.names, (self.numbers > 0).astype(np.float64))

    def named(self, name: str) -> Floats:
        column: Floats = self.numbers[:, self.names.index(name)]
        return column
