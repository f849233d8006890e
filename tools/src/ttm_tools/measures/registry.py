"""The measures that an option chooses by name, each one entry: its formula, its source, and the function that computes
it, by its module, so that `--help` needs no package. The options and the tables of docs/reference/measures.md come from
them.
"""

import functools
from dataclasses import dataclass
from pkgutil import resolve_name
from typing import Any, Callable, Iterable

from ..core.columns import table


@dataclass(frozen=True)
class Measure:
    name: str
    formula: str
    source: str
    function: str
    value: str = ""  # what --decay-value is of it; empty where it takes none
    columns: tuple[str, ...] = ()  # of a table of its own

    @functools.lru_cache
    def compute(self) -> Callable[..., Any]:
        function: Callable[..., Any] = resolve_name(f"{__package__}.{self.function}")
        return function


def by_name(*measures: Measure) -> dict[str, Measure]:
    return {measure.name: measure for measure in measures}


OPPORTUNITIES, PLACES = "opportunities", "places"  # what a number of the nearest counts

DECAYS = by_name(
    Measure(
        "step",
        "1 where *t* ≤ *c*, else 0: cumulative opportunities",
        "M. Wachs, T. G. Kumagai, Socio-Economic Planning Sciences 7, 1973",
        "access.step",
    ),
    Measure(
        "linear",
        "1 up to *c* − *d*/2, 0 from *c* + *d*/2 on, between them (*c* + *d*/2 − *t*) / *d*",
        "r5r",
        "access.linear",
        "*d*, the width of the fall, minutes",
    ),
    Measure("exponential", "2^(−*t*/*c*): *c* is the half-life", "r5r", "access.exponential"),
    Measure(
        "logistic",
        "(1 + e^(−*c*/*s*)) / (1 + e^((*t* − *c*)/*s*)) with *s* = *d* √3 / π",
        "J. Bauer, D. A. Groneberg, PLOS ONE 11(7), 2016",
        "access.logistic",
        "*d*, the standard deviation, minutes",
    ),
)
COMPETITIONS = by_name(
    Measure(
        "floating",
        "Σⱼ *Rⱼ wᵢⱼ* with *Rⱼ* = *Sⱼ* / Σᵢ *Pᵢ wᵢⱼ*: the two-step floating catchment, for each person",
        "W. Luo, F. Wang, Environment and Planning B 30, 2003; with weights W. Luo, Y. Qi, Health & Place 15, 2009",
        "competition.floating",
    ),
    Measure(
        "balanced",
        "Σⱼ *Rⱼ wᵢⱼ* / Σₖ *wₖⱼ* with *Rⱼ* = *Sⱼ* / Σᵢ (*Pᵢ wᵢⱼ* / Σₘ *wᵢₘ*): people and supply are each "
        "shared out once",
        "A. Paez, C. D. Higgins, S. F. Vivona, PLOS ONE 14(6), 2019",
        "competition.balanced",
    ),
    Measure(
        "availability",
        "Σⱼ *Sⱼ Pᵢ wᵢⱼ* / Σₖ *Pₖ wₖⱼ*: what all people of the origin have; all origins together have "
        "all that is reached",
        "A. Soukhov, A. Paez, C. D. Higgins, M. Mohamed, PLOS ONE 18(1), 2023",
        "competition.availability",
    ),
)
FAIRNESS = by_name(
    Measure(
        "theil",
        "*T* = Σ *p* (*a*/*µ*) ln(*a*/*µ*) / *P*: 0 if all have the same. For all groups together also "
        "its parts over the groups: within, Σ *s* *T*, and between, Σ *s* ln(*µ* of the group / *µ*), "
        "with *s* the group's part of all access",
        'H. Theil, "Economics and Information Theory", 1967',
        "inequality.theil_of_group",
        columns=("people", "theil", "within", "between"),
    ),
    Measure(
        "concentration",
        "2 Σ *p a r* / (*P µ*) − 1, with *r* the part of the people of lower rank (`--rank`, such as "
        "income), plus half of those of the same: below 0 if people of low rank have more",
        "N. Kakwani, A. Wagstaff, E. van Doorslaer, Journal of Econometrics 77, 1997",
        "inequality.concentration",
        columns=("people", "concentration"),
    ),
    Measure(
        "poverty",
        "fgt0, fgt1, fgt2: Σ *p* ((*z* − *a*)/*z*)^0, ^1, ^2 / *P* over those with *a* < *z* "
        "(`--line`): how many are poor, how poor, and with weight on the poorest",
        "J. Foster, J. Greer, E. Thorbecke, Econometrica 52, 1984",
        "inequality.poverty",
        columns=("people", "fgt0", "fgt1", "fgt2"),
    ),
)


def markdown_table(option: str, what: str, measures: Iterable[Measure]) -> str:
    """Measures as docs/reference/measures.md lists them."""
    listed = list(measures)
    has_value = any(measure.value for measure in listed)
    heads = [f"`{option}`", what, *["`--decay-value`"] * has_value, "Source"]
    values = ([measure.value or "none"] if has_value else [] for measure in listed)
    return table(heads, ([f"`{own.name}`", own.formula, *value, own.source] for own, value in zip(listed, values)))
