"""How the access of each person changes, in percent, and how many people lose or gain how much."""

from dataclasses import dataclass

import numpy as np
import numpy.typing as npt

from ..core.arrays import Floats


@dataclass(frozen=True)
class PersonChanges:
    """Changes of access of some people, by the place where they live."""

    before: Floats
    after: Floats
    people: Floats

    @property
    def percent(self) -> Floats:
        """The change at each place; infinite where there was no access before and is some after."""
        with np.errstate(divide="ignore", invalid="ignore"):
            change = 100 * (self.after - self.before) / self.before
        return np.where(self.after == self.before, 0.0, change)

    @property
    def total(self) -> float:
        return float(self.people.sum())

    def lose(self, percent: float) -> float:
        """How many people lose at least so many percent."""
        return float(self.people[self.percent <= -percent].sum())

    def gain(self, percent: float) -> float:
        """How many people gain at least so many percent."""
        return float(self.people[self.percent >= percent].sum())

    def means(self) -> tuple[float, float]:
        """The mean access of a person before and after; NaN without people."""
        total = self.total or np.nan
        return float(self.before @ self.people) / total, float(self.after @ self.people) / total

    def classes(self, breaks: tuple[float, ...]) -> npt.NDArray[np.intp]:
        """The class of the change at each place: 0 below the first break, with the sign of the change above it."""
        percent = self.percent
        grade = np.searchsorted(np.array(breaks), np.abs(percent), side="right")
        found: npt.NDArray[np.intp] = np.where(percent < 0, -grade, grade)
        return found

    def ordered(self) -> tuple[Floats, Floats]:
        """Changes from the greatest loss to the greatest gain, and how many people there are up to each."""
        lived = self.people > 0
        order = np.argsort(self.percent[lived], kind="stable")
        return self.percent[lived][order], np.cumsum(self.people[lived][order])
