"""Who loses and who gains access in each window of a study, and how much access changes for its people."""

from dataclasses import dataclass
from typing import BinaryIO, Iterator, Mapping, Sequence

import numpy as np

from ...core.arrays import Floats
from ...core.columns import WINDOWS as WINDOW_COLUMNS, WINDOW_CHANGES, names_of
from ...core.tables import write_rows
from ...core.text import significant
from ...measures.access_table import AccessKind, AccessTable
from ...measures.comparison import Sides, sides_of
from ...measures.equity import mean
from ...measures.opportunities import Counts
from ..settings import DayWindow


@dataclass(frozen=True)
class WindowChange:
    """How a scenario changes access in a window, compared with the base."""

    question: DayWindow
    scenario: str
    kind: AccessKind
    sides: Sides  # of the origins
    means: Floats  # change of access, by group of people

    @property
    def counts(self) -> list[int]:
        """How many origins lose, are cut off, gain and are newly reached."""
        sides = self.sides
        return [int(side.sum()) for side in (sides.lose, sides.cut_off, sides.gain, sides.newly_reached)]


def changes_of(tables: Mapping[DayWindow, AccessTable], base: str, people: Counts) -> Iterator[WindowChange]:
    """The changes of all scenarios but the base, by window, scenario and what is counted."""
    for question, table in tables.items():
        before = table.numbers[table.scenario(base)]
        for scenario in table.scenarios:
            for number, kind in enumerate(table.kinds if scenario != base else ()):
                first, second = before[number], table.numbers[table.scenario(scenario), number]
                means = np.array([mean(second - first, group) for group in people.numbers.T])
                yield WindowChange(question, scenario, kind, sides_of(first, second), means)


def write_changes(out: BinaryIO, changes: Sequence[WindowChange], groups: Sequence[str]) -> None:
    """A line for each window, scenario, kind of access and group of people."""
    lines = (
        [*change.question.head, change.scenario, *fields_of(change.kind), *change.counts, group, significant(number)]
        for change in changes
        for group, number in zip(groups, change.means.tolist())
    )
    write_rows(out, [*names_of(WINDOW_COLUMNS), *names_of(WINDOW_CHANGES)], lines)


def fields_of(kind: AccessKind) -> list[str]:
    return [kind.opportunity, kind.percentile, kind.cutoff]
