"""How near people are to the nearest opportunities: who reaches them, and within what time."""

from dataclasses import dataclass

import numpy as np

from ..core.arrays import Floats, Mask
from .columns import column, row_of
from .equity import NEARLY, weighted_quantile

MINUTE = 60.0
OF_PARTS = "the least time within which at least half, or nine tenths, of all people are there; none if fewer ever are"


@dataclass(frozen=True)
class NearnessCase:
    """The time from each point to the nearest in a scenario and in the base, NaN where fewer are reached, and the
    people there.
    """

    base: Floats  # seconds
    seconds: Floats
    people: Floats
    percent: float  # a traveller who needs this much longer counts as a loser

    @property
    def there(self) -> Mask:
        return ~np.isnan(self.seconds)

    @property
    def inside(self) -> float:
        """The people who reach this number."""
        return float(self.people[self.there].sum())


def mean_minutes(case: NearnessCase) -> float:
    times = case.seconds[case.there] @ case.people[case.there]
    return float(times / case.inside / MINUTE) if case.inside else float("nan")


def losers_percent(case: NearnessCase) -> float:
    """The people who need this percentage longer or more, or doesn't reach them any more."""
    longer = case.seconds - case.base
    loses = (case.seconds > case.base) & (longer >= case.base * (case.percent / 100 * NEARLY))
    lost = loses | (~case.there & ~np.isnan(case.base))
    return 100 * float(case.people[lost].sum() / case.people.sum())


@dataclass(frozen=True)
class Nearness:
    """The measures of one scenario; NaN if undefined."""

    people: float = column(lambda case: float(case.people.sum()))
    reached_percent: float = column(
        lambda case: 100 * float(case.inside / case.people.sum()), "percentage of people with an *s*"
    )
    mean_minutes: float = column(mean_minutes, "Σ *p s*, divided by the number of these people")
    median_minutes: float = column(lambda case: weighted_quantile(case.seconds, case.people, 0.5) / MINUTE, OF_PARTS)
    nine_tenths_minutes: float = column(
        lambda case: weighted_quantile(case.seconds, case.people, 0.9) / MINUTE, OF_PARTS
    )
    losers_percent: float = column(
        losers_percent,
        "percentage of people with *s* − *s* (base) ≥ `--lose` percent of *s* (base), and above 0, or with an *s* in"
        " the base alone",
    )


def nearness(base: Floats, seconds: Floats, people: Floats, percent: float) -> Nearness:
    return row_of(Nearness, NearnessCase(base, seconds, people, percent))
