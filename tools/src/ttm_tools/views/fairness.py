"""Tables of further measures of how access is spread over people: Theil's T, concentration, and poverty of access."""

from dataclasses import astuple, dataclass
from typing import BinaryIO, Iterator, Sequence

from ..core.arrays import Floats
from ..core.columns import OF_PEOPLE, names_of
from ..core.errors import InputError
from ..core.text import significant
from ..measures.access_table import AccessKind, AccessTable, by_group
from ..measures.inequality import Concentration, Poverty, Theil, theil_of_all
from ..measures.opportunities import Counts
from ..measures.registry import FAIRNESS
from .tables import write_table

THEIL, ALL_GROUPS = "theil", "all groups"
Found = Theil | Concentration | Poverty


@dataclass(frozen=True)
class FairnessOptions:
    measure: str
    kinds: Sequence[AccessKind]
    rank: Floats | None = None  # of concentration, by origin
    line: float | None = None  # of poverty


def lines_of(table: AccessTable, people: Counts, options: FairnessOptions) -> Iterator[list[str]]:
    """A line for each kind, group and scenario; of Theil's T one more for all groups together."""
    if table.of_times:
        raise InputError(table.path, f"{options.measure} is measured of access, not of times to the nearest")
    measure = FAIRNESS[options.measure].compute()
    more = [value for value in (options.rank, options.line) if value is not None]
    for kind in options.kinds:
        for _, group, numbers, weights in by_group(table, [kind], people):
            for place, scenario in enumerate(table.scenarios):
                yield line_of(kind, group, scenario, measure(numbers[place], weights, *more))
        if options.measure == THEIL and len(people.names) > 1:
            for scenario, own in zip(table.scenarios, table.numbers[:, table.kinds.index(kind)]):
                yield line_of(kind, ALL_GROUPS, scenario, theil_of_all(own, people.numbers))


def line_of(kind: AccessKind, group: str, scenario: str, found: Found) -> list[str]:
    return [*astuple(kind), group, scenario, *map(significant, astuple(found))]


def write_fairness(out: BinaryIO, lines: Iterator[list[str]], measure: str, form: str) -> None:
    write_table(out, [*names_of(OF_PEOPLE), *FAIRNESS[measure].columns], list(lines), form)
