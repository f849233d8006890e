"""Further measures of how access is spread: Theil's T, the concentration index, and poverty of access.

docs/reference/measures.md has the formulas and their sources.
"""

from dataclasses import dataclass

import numpy as np

from ..core.arrays import Floats


@dataclass(frozen=True)
class Theil:
    """Theil's T of some people, and its parts within and between groups; NaN if undefined."""

    people: float
    theil: float
    within: float
    between: float


@dataclass(frozen=True)
class Concentration:
    people: float
    concentration: float  # below 0 where those of the lowest rank have most, above 0 where those of the highest


@dataclass(frozen=True)
class Poverty:
    """Foster, Greer and Thorbecke's measures: how many are poor, how poor, and how unequally so; 0 to 1."""

    people: float
    fgt0: float
    fgt1: float
    fgt2: float


def theil(access: Floats, people: Floats) -> float:
    """Theil's T: 0 if all have the same; NaN if all have none."""
    mean = float(access @ people / people.sum())
    if not mean > 0:
        return float("nan")
    part = access / mean
    logs = np.log(np.where(part > 0, part, 1.0))
    return float((people * part) @ logs / people.sum())


def theil_of_group(access: Floats, people: Floats) -> Theil:
    return Theil(float(people.sum()), theil(access, people), float("nan"), float("nan"))


def theil_of_all(access: Floats, groups: Floats) -> Theil:
    """Of people in several groups, a column for each, whose points are the same: the T of all of them, its part within
    groups, and that between these.
    """
    people = groups.sum(axis=1)
    mean = float(access @ people / people.sum())
    if not mean > 0:
        return Theil(float(people.sum()), float("nan"), float("nan"), float("nan"))
    within = between = 0.0
    for group in groups.T:
        own = float(access @ group / group.sum()) if group.any() else 0.0
        if own > 0:
            part = float(group.sum() / people.sum()) * own / mean
            within += part * theil(access, group)
            between += part * float(np.log(own / mean))
    return Theil(float(people.sum()), theil(access, people), within, between)


def concentration(access: Floats, people: Floats, rank: Floats) -> Concentration:
    """The concentration index of access by a rank such as income; people of the same rank share its middle."""
    total, mean = float(people.sum()), float(access @ people / people.sum())
    values, group = np.unique(rank, return_inverse=True)
    counts = np.bincount(group, people, len(values))
    middle = (np.cumsum(counts) - counts / 2) / total
    index = 2 * float((people * access) @ middle[group]) / (total * mean) - 1 if mean > 0 else float("nan")
    return Concentration(total, index)


def poverty(access: Floats, people: Floats, line: float) -> Poverty:
    """The measures of those whose access is below a line."""
    gaps = np.where(access < line, (line - access) / line, 0.0)
    parts = [float((people * (access < line)) @ gaps**power / people.sum()) for power in (0, 1, 2)]
    return Poverty(float(people.sum()), *parts)
