"""How access is spread over people: weighted means and medians, who loses, Gini, Palma, and tenths of the people.

People who have the same access stand side by side: where a tenth ends among them, it takes the same part of the people
of each of their points. docs/reference/measures.md has the formulas, and says which of them can mislead.
"""

from dataclasses import dataclass

import numpy as np

from ..core.arrays import Floats
from .columns import column, row_of

TENTHS = 10
TOP, BOTTOM = 0.1, 0.4  # of the people, in the Palma ratio
NEARLY = 1 - 1e-12  # of what is meant to be just a half, or just a percentage


@dataclass(frozen=True)
class EquityCase:
    """The access at each point of a scenario and of the base, and the people there, some in all."""

    base: Floats
    access: Floats
    people: Floats
    percent: float  # of the base's access; people who lose this much count as losers


def mean(numbers: Floats, people: Floats) -> float:
    return float(numbers @ people / people.sum())


def weighted_quantile(numbers: Floats, people: Floats, part: float) -> float:
    """The least number such that this part of the people, or more, have no more; NaN stands last."""
    order = np.argsort(numbers, kind="stable")
    sums = np.cumsum(people[order])
    return float(numbers[order][np.argmax(sums >= sums[-1] * part * NEARLY)])


def people_in_slice(access: Floats, people: Floats, begin: float, end: float) -> Floats:
    """How many of the people at each point stand between two shares (0 to 1) of all, by ascending access."""
    values, group = np.unique(access, return_inverse=True)
    counts = np.bincount(group, people, len(values))
    after = np.cumsum(counts)
    before, total = after - counts, after[-1]
    inside = np.clip(np.minimum(after, end * total) - np.maximum(before, begin * total), 0, None)
    people_inside: Floats = people * (inside / np.where(counts > 0, counts, 1))[group]
    return people_inside


def lorenz(access: Floats, people: Floats) -> tuple[Floats, Floats]:
    """The Lorenz curve: shares of the people by ascending access, and of all access that they have."""
    order = np.argsort(access, kind="stable")
    ends = [np.concatenate([[0], np.cumsum(weights[order])]) for weights in (people, people * access)]
    shares = [end / end[-1] if end[-1] > 0 else np.full(len(end), np.nan) for end in ends]
    return shares[0], shares[1]


def gini(access: Floats, people: Floats) -> float:
    """Twice the area between the Lorenz curve and that of equal access; NaN if all have none."""
    across, up = lorenz(access, people)
    return float(1 - np.diff(across) @ (up[1:] + up[:-1]))


def losers_percent(case: EquityCase) -> float:
    base, lost = case.base, case.base - case.access
    loses = (base > 0) & (lost >= base * (case.percent / 100 * NEARLY)) & (base > case.access)
    return 100 * float(case.people[loses].sum() / case.people.sum())


def palma(case: EquityCase) -> float:
    most, least = people_in_slice(case.access, case.people, 1 - TOP, 1), people_in_slice(
        case.access, case.people, 0, BOTTOM
    )
    of_least = mean(case.access, least)
    return mean(case.access, most) / of_least if of_least > 0 else float("nan")


def mean_lowest_decile(case: EquityCase) -> float:
    return mean(case.access, people_in_slice(case.access, case.people, 0, 1 / TENTHS))


def least_tenth_change(case: EquityCase) -> float:
    return mean(case.access - case.base, people_in_slice(case.base, case.people, 0, 1 / TENTHS))


@dataclass(frozen=True)
class Equity:
    """The measures of one scenario; NaN if undefined."""

    people: float = column(lambda case: float(case.people.sum()))
    mean: float = column(lambda case: mean(case.access, case.people), "Σ *p a* / *P*")
    median: float = column(
        lambda case: weighted_quantile(case.access, case.people, 0.5),
        "the least access that at least half of the people don't exceed",
    )
    losers_percent: float = column(
        losers_percent,
        "percentage of people with *a* (base) − *a* ≥ `--lose` percent of *a* (base), and above 0 (default 10)",
    )
    gini: float = column(
        lambda case: gini(case.access, case.people),
        "Σ Σ *pᵢ pⱼ* \\|*aᵢ* − *aⱼ*\\| / (2 *P*² mean), over all ordered pairs of origins, so each two count twice:"
        " 0 if all have the same, near 1 if one has all",
        'C. Gini, 1912; weighted as in A. Sen, "On Economic Inequality", 1973',
    )
    palma: float = column(
        palma,
        "mean access of the tenth with the most, divided by that of the two fifths with the least: 1 if all have the"
        " same",
        "G. Palma, Development and Change 42, 2011; of means, as in the package `accessibility`, but ordered by access,"
        " since no incomes are known",
    )
    least_tenth: float = column(
        mean_lowest_decile,
        "mean access of the tenth with the least access in this scenario",
        'after J. Rawls, "A Theory of Justice", 1971',
    )
    least_tenth_change: float = column(least_tenth_change, "mean change of those who are that tenth in the base")


def equity(base: Floats, access: Floats, people: Floats, percent: float) -> Equity:
    return row_of(Equity, EquityCase(base, access, people, percent))


def changes_by_tenth(base: Floats, access: Floats, people: Floats) -> Floats:
    """The mean change of each tenth of the people, from that with the least access in the base on."""
    tenths = [people_in_slice(base, people, place / TENTHS, (place + 1) / TENTHS) for place in range(TENTHS)]
    return np.array([mean(access - base, tenth) for tenth in tenths])
