"""Who gains and who loses access, as a table by scenario, what is counted, group and threshold."""

from dataclasses import astuple, dataclass
from typing import BinaryIO, Mapping, Sequence

import numpy as np

from ..core.arrays import Floats
from ..core.columns import WHO_GAINS, names_of
from ..core.errors import ArgumentError, InputError
from ..core.text import decimal, display_text, precise
from ..measures.access_table import AccessKind, AccessTable
from ..measures.columns import header
from ..measures.gains import GainCase, Gains, SUM, gains, with_everyone
from ..measures.opportunities import Counts
from .tables import write_table


@dataclass(frozen=True)
class GainOptions:
    base: str
    thresholds: Sequence[float]  # percent of the base's access; a smaller change counts as none
    least: float = 0  # opportunities; a smaller change counts as none
    base_date: str = ""  # the day compared with, where days are compared


def header_of_gains() -> list[str]:
    return [*names_of(WHO_GAINS), *header(Gains)]


def groups_of(path: str, people: Counts, everyone: str | None) -> dict[str, Floats]:
    """The groups of people, and that of everyone; the path is of the file with which an error begins."""
    groups = {name: people.named(name) for name in people.names}
    if everyone not in (None, SUM, *groups):
        raise ArgumentError(f"--all is {everyone!r}; allowed: {', '.join([*map(display_text, groups), SUM])}")
    try:
        return with_everyone(groups, everyone)
    except ValueError as known:
        name, others = display_text(str(known)), [display_text(own) for own in groups if own != str(known)]
        what = f"{name} is nowhere smaller than {', '.join(others)}, and may count everyone"
        raise InputError(path, f"{what}: set --all {name}, or --all {SUM}") from None


def gain_rows(
    table: AccessTable, kinds: Sequence[AccessKind], groups: Mapping[str, Floats], options: GainOptions
) -> list[list[str]]:
    """A row for each scenario but the base, kind, group and threshold."""
    base, rows = table.scenario(options.base), list[list[str]]()
    percentiles = list(dict.fromkeys(kind.percentile for kind in kinds))
    ordered = sorted(kinds, key=lambda kind: percentiles.index(kind.percentile))
    for place in (place for place in range(len(table.scenarios)) if place != base):
        for kind in ordered:
            numbers = table.numbers[:, table.kinds.index(kind)]
            known = ~np.isnan(numbers[[base, place]]).any(axis=0)
            before, after = (np.where(known, numbers[side], 0.0) for side in (base, place))
            keys = [table.scenarios[place], options.base, options.base_date, kind.percentile, kind.opportunity]
            for group, people in groups.items():
                for percent in options.thresholds:
                    found = gains(GainCase(before, after, people, percent, options.least))
                    rows.append([*keys, kind.cutoff, group, decimal(percent), *map(precise, astuple(found))])
    return rows


def write_gains(out: BinaryIO, rows: Sequence[Sequence[str]], form: str) -> None:
    write_table(out, header_of_gains(), rows, form)
