"""Access by scenario, kind and origin, or the time to the nearest: what equity and bands are measured of."""

from dataclasses import dataclass
from typing import Iterator, Sequence

import numpy as np

from ..core.arrays import Floats
from ..core.errors import InputError
from ..core.scenarios import base_of
from ..core.text import LEFT_OUT, display_text, sentences_on_lacking
from .opportunities import Counts


@dataclass(frozen=True)
class AccessKind:
    """What was measured."""

    opportunity: str
    percentile: str
    cutoff: str  # minutes; of a table of times the number to reach

    @property
    def label(self) -> str:
        return f"{display_text(self.opportunity)} within {self.cutoff} minutes{self.share}"

    @property
    def label_of_nearest(self) -> str:
        count = "" if self.cutoff == "1" else f"{self.cutoff} "
        return f"time to the {count}nearest {display_text(self.opportunity)}{self.share}"

    @property
    def share(self) -> str:
        return f", share {self.percentile} %" if self.percentile else ""


@dataclass(frozen=True)
class AccessTable:
    """Access by scenario, kind and origin."""

    path: str
    scenarios: list[str]
    kinds: list[AccessKind]
    origins: list[str]
    numbers: Floats  # by scenario, kind and origin; of times seconds, NaN where fewer are reached
    of_times: bool = False
    named_base: str | None = None  # if it is of another table

    @property
    def base(self) -> str:
        """The scenario that others are compared with where none is named."""
        return self.named_base or base_of(self.scenarios)

    def label_of(self, kind: AccessKind) -> str:
        return kind.label_of_nearest if self.of_times else kind.label

    def scenario(self, name: str) -> int:
        """The place of a scenario."""
        if name not in self.scenarios:
            there = ", ".join(map(display_text, self.scenarios))
            raise InputError(
                self.path, f"no scenario {display_text(name)}; it has {there}: choose the base with --base"
            )
        return self.scenarios.index(name)


def beside(own: AccessTable, other: AccessTable, labels: tuple[str, str], scenario: str | None) -> AccessTable:
    """The scenarios of a table, and as their base one of another: the kinds and origins that both have. Labels are what
    the bases of both are called.
    """
    if own.of_times != other.of_times:
        raise InputError(other.path, f"one table has access and the other times to the nearest, as {own.path}")
    kinds = [kind for kind in own.kinds if kind in other.kinds]
    origins = [name for name in own.origins if name in set(other.origins)]
    if not kinds or not origins:
        what = "origin" if kinds else "opportunity, percentile and cutoff"
        raise InputError(other.path, f"has no {what} in common with {own.path}")
    renamed = [labels[0] if name == own.base else name for name in own.scenarios]
    parts = [
        table.numbers[
            np.ix_(rows, [table.kinds.index(kind) for kind in kinds], [table.origins.index(name) for name in origins])
        ]
        for table, rows in ((other, [other.scenario(scenario or other.base)]), (own, range(len(own.scenarios))))
    ]
    names = [labels[1], *(name for name in renamed if name != labels[1])]
    kept = [row for row, name in enumerate(renamed) if name != labels[1]]
    numbers = np.concatenate([parts[0], parts[1][kept]])
    return AccessTable(own.path, names, kinds, origins, numbers, own.of_times, labels[1])


def sentences_on_lost(own: AccessTable, other: AccessTable) -> list[str]:
    """The origins that only one of two tables has."""
    kept = {*own.origins} & {*other.origins}
    return sentences_on_lacking((own.path, own.origins), (other.path, other.origins), kept, more=LEFT_OUT)


def by_group(
    table: AccessTable, kinds: Sequence[AccessKind], people: Counts
) -> Iterator[tuple[AccessKind, str, Floats, Floats]]:
    """Each kind and group, with the numbers by scenario and origin, and the people at each origin, who are some."""
    for kind in kinds:
        numbers = table.numbers[:, table.kinds.index(kind)]
        for group in people.names:
            weights = people.named(group)
            if not weights.any():
                raise InputError(table.path, f"nobody of the group {display_text(group)} lives at its origins")
            yield kind, group, numbers, weights
