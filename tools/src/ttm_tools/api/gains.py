"""Who gains and who loses access, by group of people: a function of frames, also for access of another program."""

from collections.abc import Mapping, Sequence
from dataclasses import asdict

import numpy as np
import pandas

from ..core.arrays import Floats
from ..core.errors import ArgumentError, InputError
from ..core.question import not_allowed
from ..core.ranges import Range
from ..core.text import quantity
from ..measures.gains import GainCase, SUM, gains, with_everyone
from .measures import base_of, checked_access, compared, population_of

THRESHOLDS = Range("percent", 0.1, 100, False)
MOST_THRESHOLDS = 3


def who_gains(
    access: pandas.DataFrame,
    origins: pandas.DataFrame,
    *,
    people: str | Sequence[str],
    by: str | None = None,
    all: str | None = None,
    thresholds: Sequence[float] = (10, 25),
    least: float = 0,
    base: str | None = None,
) -> pandas.DataFrame:
    """How many people gain and how many lose access, by group.

    Parameters
    ----------
    access
        scenario, from_id, access, and any of percentile, opportunity, minutes; as `Matrix.access` returns it. An origin
        without any row is off the network: its people have 0.
    origins
        Identifiers, and the columns that these name: `people`, numbers of people, each a group; `by`, labels that
        divide them further.
    people
        One column of `origins` or several.
    by
        A column of `origins`.
    all
        The group that counts everyone, or "sum"; without it groups are added up.
    thresholds
        One to three ascending numbers, 0.1 to 100 percent of the base's access: a smaller change counts as none.
    least
        A change below this number of opportunities counts as none.
    base
        The scenario with which others are compared: today, else base, else the first.

    Returns
    -------
    DataFrame
        keys of `access`, base, group (the last is all), threshold, people, people_gain, people_lose, people_unchanged,
        gain_percent, lose_percent, mean_before, mean_after, mean_change, mean_percent.

    Raises
    ------
    ArgumentError
        `all` is missing, and the first group may count everyone: no other is larger at any origin.

    Examples
    --------
    >>> numbers = {"scenario": ["today"] * 2 + ["tram"] * 2, "from_id": [1, 2] * 2, "access": [10.0, 30, 12, 30]}
    >>> homes = pandas.DataFrame({"id": [1, 2], "people": [3, 1]})
    >>> found = who_gains(pandas.DataFrame(numbers), homes, people="people", thresholds=[10])
    >>> found[["group", "people_gain", "people_lose", "mean_change"]].values.tolist()
    [['people', 3.0, 0.0, 1.5], ['all', 3.0, 0.0, 1.5]]
    """
    limits = checked_thresholds(thresholds)
    if not least >= 0:
        raise not_allowed("least", least, "a number from 0")
    checked_access(access)
    if "scenario" not in access.columns or access["scenario"].nunique() < 2:
        raise InputError("access", "has one scenario; who gains is measured between two or more")
    base = base_of(access, base)
    population = population_of(origins, people, by)
    groups = everyone_of(population.groups, all)
    rows = list[dict[str, object]]()
    for keys, first, second in compared(access, population, base):
        if keys["scenario"] == base:
            continue
        before, after = without_missing(first, second, str(keys["scenario"]))
        for group, weights in groups.items():
            for percent in limits:
                case = GainCase(before, after, weights, percent, least)
                rows.append({**keys, "base": base, "group": group, "threshold": percent, **asdict(gains(case))})
    return pandas.DataFrame(rows)


def checked_thresholds(given: Sequence[float]) -> list[float]:
    """Return one to three ascending percentages."""
    found = list(given)
    ascends = sorted(set(found)) == found
    if not 1 <= len(found) <= MOST_THRESHOLDS or not ascends or any(one not in THRESHOLDS for one in found):
        raise not_allowed("thresholds", found, f"1 to {MOST_THRESHOLDS} numbers, {THRESHOLDS}, ascending")
    return found


def everyone_of(groups: Mapping[str, Floats], named: str | None) -> dict[str, Floats]:
    """Return the groups, and the group of everyone."""
    if named not in (None, SUM, *groups):
        raise not_allowed("all", named, ", ".join([*groups, SUM]))
    try:
        return with_everyone(groups, named)
    except ValueError as known:
        others = ", ".join(name for name in groups if name != str(known))
        raise ArgumentError(
            f"{known} is nowhere smaller than {others}, and may count everyone: set all={str(known)!r}, or all={SUM!r}"
        ) from None


def without_missing(before: Floats, after: Floats, scenario: str) -> tuple[Floats, Floats]:
    """Return access with 0 for origins that neither side has; one that a single side has is an error."""
    lost = int((np.isnan(before) != np.isnan(after)).sum())
    if lost:
        raise InputError("access", f"{quantity(lost, 'origin')} in one of base and scenario alone", value=scenario)
    return np.nan_to_num(before), np.nan_to_num(after)
