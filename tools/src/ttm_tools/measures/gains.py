"""How many people gain and how many lose a percentage of their access, and how much the mean of a person changes."""

from dataclasses import dataclass
from typing import Mapping

import numpy as np

from ..core.arrays import Floats, Mask
from .columns import column, row_of
from .equity import NEARLY

ALL = "all"  # the group of everyone
SUM = "sum"  # how everyone is counted where no group is


@dataclass(frozen=True)
class GainCase:
    """The access at each place before and after, and the people there."""

    before: Floats
    after: Floats
    people: Floats
    percent: float  # of the access before; from this on a change counts
    least: float = 0  # from this number of opportunities on a change counts

    def counted(self, change: Floats) -> float:
        """How many people have such a change, or a greater one."""
        enough: Mask = (change > 0) & (100 * change >= self.percent * self.before * NEARLY) & (change >= self.least)
        return float(self.people[enough].sum())

    @property
    def total(self) -> float:
        return float(self.people.sum())

    @property
    def gain(self) -> float:
        return self.counted(self.after - self.before)

    @property
    def lose(self) -> float:
        return self.counted(self.before - self.after)

    def mean(self, numbers: Floats) -> float:
        """The mean of a person; NaN without people."""
        return divided(float(numbers @ self.people), self.total)


def divided(number: float, by: float) -> float:
    return number / by if by else float("nan")


@dataclass(frozen=True)
class Gains:
    """Who gains and who loses in a group; NaN if undefined."""

    people: float = column(lambda case: case.total)
    people_gain: float = column(
        lambda case: case.gain,
        "people whose access rises by at least `threshold` percent of that before, and by `--gain-least`; from 0 each"
        " rise counts",
    )
    people_lose: float = column(lambda case: case.lose, "people whose access falls by at least as much")
    people_unchanged: float = column(lambda case: case.total - case.gain - case.lose, "all others of the group")
    gain_percent: float = column(
        lambda case: 100 * divided(case.gain, case.total), "`people_gain` in percent of the group"
    )
    lose_percent: float = column(
        lambda case: 100 * divided(case.lose, case.total), "`people_lose` in percent of the group"
    )
    mean_before: float = column(lambda case: case.mean(case.before), "access of the mean person in the base")
    mean_after: float = column(lambda case: case.mean(case.after), "access of the mean person in the scenario")
    mean_change: float = column(lambda case: case.mean(case.after - case.before), "`mean_after` − `mean_before`")
    mean_percent: float = column(
        lambda case: 100 * divided(case.mean(case.after - case.before), case.mean(case.before)),
        "`mean_change` in percent of `mean_before`; empty if that is 0",
    )


def gains(case: GainCase) -> Gains:
    """Who gains and who loses."""
    return row_of(Gains, case)


def group_of_all(groups: Mapping[str, Floats]) -> str | None:
    """The first of several groups, if it may count everyone: no other is larger at any place."""
    if len(groups) < 2:
        return None
    first, *others = groups
    is_total = all(bool((groups[first] >= groups[name]).all()) for name in others)
    return first if is_total else None


def with_everyone(groups: Mapping[str, Floats], named: str | None) -> dict[str, Floats]:
    """The groups, and last the group of everyone, unless one is called so.

    Parameters
    ----------
    named
        The group that counts everyone, or `SUM`; None adds the groups up, unless one of them may count everyone.

    Raises
    ------
    ValueError
        None is named, and a group may count everyone: the error's text is its name.
    """
    if ALL in groups:
        return dict(groups)
    known = group_of_all(groups) if named is None else None
    if known is not None:
        raise ValueError(known)
    summed: Floats = np.sum(list(groups.values()), axis=0)
    return {**groups, ALL: summed if named in (None, SUM) else groups[str(named)]}
