"""Reads tables of access in the long form, as `ttm-tools access` or r5r writes it, and of the time to the nearest, as
`ttm-tools access --nearest` writes it.
"""

import math
from collections.abc import Iterator, Sequence

import numpy as np

from ..core.columns import ACCESS, NEAREST, names_of
from ..core.errors import InputError
from ..core.scenarios import BASE
from ..core.tables import from_zero, records, rows
from ..core.text import display_text, first_few, quantity
from ..measures.access_table import AccessKind, AccessTable

COLUMNS, OF_TIMES = names_of(ACCESS), names_of(NEAREST)


def read_access(path: str) -> AccessTable:
    """A table in which each scenario and kind has each origin once; without a column scenario all is `base`."""
    scenarios, kinds, origins = dict[str, int](), dict[AccessKind, int](), dict[str, int]()
    found: dict[tuple[int, int, int], float] = {}
    of_times = is_of_times(path)
    for number, scenario, kind, origin, value in lines_of(path, OF_TIMES if of_times else COLUMNS):
        places = (scenarios.setdefault(scenario, len(scenarios)), kinds.setdefault(kind, len(kinds)))
        key = (*places, origins.setdefault(origin, len(origins)))
        if key in found:
            raise InputError(
                path, f"{display_text(origin)} occurs twice for {kind.label}, {display_text(scenario)}", record=number
            )
        found[key] = value
    numbers = np.full((len(scenarios), len(kinds), len(origins)), np.nan)
    if not found:
        raise InputError(path, "no lines")
    numbers[tuple(np.array(list(found)).T)] = list(found.values())
    table = AccessTable(path, list(scenarios), list(kinds), list(origins), numbers, of_times)
    refuse_gaps(table)
    table.numbers[np.isinf(table.numbers)] = np.nan
    return table


def is_of_times(path: str) -> bool:
    """Whether a table says times to the nearest."""
    _, header = next(records(path), (1, list[str]()))
    return {*OF_TIMES[3:]} <= {*header} and not {*COLUMNS[3:]} <= {*header}


def lines_of(path: str, named: Sequence[str]) -> Iterator[tuple[int, str, AccessKind, str, float]]:
    """Each line: its record, scenario, kind, origin and access, or time: infinite where fewer are reached."""
    for number, (origin, opportunity, percentile, cutoff, text, scenario) in rows(path, named, ["scenario"]):
        is_never = named is OF_TIMES and not text.strip()
        value = math.inf if is_never else from_zero(path, number, named[-1], text)
        yield number, scenario or BASE, AccessKind(opportunity, percentile, cutoff), origin, value


def refuse_gaps(table: AccessTable) -> None:
    """Refuses the first scenario and kind that lacks origins."""
    gaps = np.isnan(table.numbers)
    for scenario, kind in np.argwhere(gaps.any(axis=2))[:1].tolist():
        lost = [display_text(table.origins[place]) for place in np.flatnonzero(gaps[scenario, kind]).tolist()]
        what = f"{table.label_of(table.kinds[kind])}, {display_text(table.scenarios[scenario])}"
        of = f"{len(lost):,} of {quantity(len(table.origins), 'origin')}"
        raise InputError(table.path, f"{what} lacks {of}: {first_few(lost)}")
