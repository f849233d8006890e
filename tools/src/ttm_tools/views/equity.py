"""Equity as a table, in CSV or Markdown, and as a picture of Lorenz curves and of changes by tenths."""

from dataclasses import astuple, dataclass
from typing import Any, BinaryIO, Callable, Iterable, Iterator, Sequence

import numpy as np

from ..core.arrays import Floats
from ..core.columns import OF_PEOPLE, OF_PEOPLE_NEAREST, names_of
from ..core.errors import InputError
from ..core.text import display_text, first_few, significant
from ..measures.access_table import AccessKind, AccessTable, by_group
from ..measures.columns import header
from ..measures.equity import Equity, TENTHS, changes_by_tenth, equity, lorenz
from ..measures.nearness import Nearness, nearness
from ..measures.opportunities import Counts
from .tables import write_table
from .texts import figure_with, without_mathtext

COLOURS = ("#000000", "#0072b2", "#d55e00", "#009e73", "#cc79a7", "#e69f00", "#56b4e9")  # after Okabe and Ito
HIGH = 0.72  # of the picture
Line = tuple[AccessKind, str, str, Equity | Nearness]  # group and scenario are the texts


@dataclass(frozen=True)
class EquityOptions:
    base: str
    percent: float  # of the base's access; people who lose this much count as losers
    kinds: list[AccessKind]


def chosen_kinds(
    table: AccessTable, opportunity: str | None, percentile: float | None, cutoff: float | None
) -> list[AccessKind]:
    """The chosen kinds; if there is none, an error says which there are."""
    numbers = {"percentile": percentile, "cutoff": cutoff}
    kinds = [
        kind
        for kind in table.kinds
        if opportunity in (None, kind.opportunity)
        and all(number is None or is_number(getattr(kind, name), number) for name, number in numbers.items())
    ]
    if not kinds:
        there = first_few([table.label_of(kind) for kind in table.kinds])
        raise InputError(table.path, f"nothing of the kind; it has {there}")
    return kinds


def is_number(text: str, number: float) -> bool:
    try:
        return float(text) == number
    except ValueError:
        return False


def measured(table: AccessTable, people: Counts, options: EquityOptions) -> Iterator[Line]:
    base = table.scenario(options.base)
    measure: Callable[[Floats, Floats, Floats, float], Equity | Nearness] = equity
    if table.of_times:
        measure = nearness
    for kind, group, numbers, weights in by_group(table, options.kinds, people):
        for place, scenario in enumerate(table.scenarios):
            yield kind, group, scenario, measure(numbers[base], numbers[place], weights, options.percent)


def rows_of(lines: Iterable[Line]) -> list[list[str]]:
    """The header, and a row for each kind, group and scenario."""
    found = list(lines)
    names = [*names_of(OF_PEOPLE), *header(Equity)]
    if any(isinstance(of, Nearness) for *_, of in found):
        names = [*names_of(OF_PEOPLE_NEAREST), *header(Nearness)]
    rows = [[*astuple(kind), group, scenario, *map(significant, astuple(of))] for kind, group, scenario, of in found]
    return [names, *rows]


def write_equity(out: BinaryIO, lines: Iterator[Line], form: str) -> None:
    names, *rows = rows_of(lines)
    write_table(out, names, rows, form)


@without_mathtext
def figure_of(table: AccessTable, people: Counts, options: EquityOptions) -> Any:
    """The picture of one kind and one group."""
    if table.of_times:
        raise InputError(table.path, "of times to the nearest ttm-tools bands draws a picture")
    if len(options.kinds) > 1:
        there = first_few([kind.label for kind in options.kinds])
        names = "--opportunity, --percentile and --cutoff"
        raise InputError(table.path, f"a picture shows one of {there}: choose it with {names}")
    if len(people.names) > 1:
        raise InputError(table.path, f"a picture shows one group of {', '.join(people.names)}: choose it with --column")
    kind, weights = options.kinds[0], people.numbers[:, 0]
    numbers, base = table.numbers[:, table.kinds.index(kind)], table.scenario(options.base)
    figure = figure_with(f"Distribution of access: {kind.label}; people: {display_text(people.names[0])}", 4.8, 0.192)
    draw_lorenz(figure.add_axes((0.07, 0.13, 0.4, HIGH)), table.scenarios, numbers, weights)
    draw_tenths(figure.add_axes((0.58, 0.13, 0.4, HIGH)), table.scenarios, numbers, weights, base)
    return figure


def draw_lorenz(axes: Any, names: Sequence[str], numbers: Floats, weights: Floats) -> None:
    axes.plot([0, 100], [0, 100], color="#999999", linestyle="dotted", label="equal access")
    for place, name in enumerate(names):
        across, up = lorenz(numbers[place], weights)
        colour, style = COLOURS[place % len(COLOURS)], "solid" if place == 0 else "dashed"
        axes.plot(100 * across, 100 * up, color=colour, linestyle=style, label=display_text(name))
    axes.set(xlim=(0, 100), ylim=(0, 100), xlabel="people by ascending access, %", ylabel="their part of all access, %")
    axes.legend(frameon=False, loc="upper left", fontsize=9)


def draw_tenths(axes: Any, names: Sequence[str], numbers: Floats, weights: Floats, base: int) -> None:
    """Bars of the mean change of each tenth of the people, a row of them for each scenario other than the base."""
    others = [place for place in range(len(names)) if place != base]
    wide = 0.8 / max(1, len(others))
    for row, place in enumerate(others):
        changes = changes_by_tenth(numbers[base], numbers[place], weights)
        across = np.arange(1, TENTHS + 1) + (row - (len(others) - 1) / 2) * wide
        axes.bar(across, changes, wide, color=COLOURS[place % len(COLOURS)], label=display_text(names[place]))
    axes.axhline(0, color="#333333", linewidth=0.8)
    axes.set(
        xticks=range(1, TENTHS + 1),
        xlabel=f"tenth of the people, 1 has the least access in {display_text(names[base])}",
    )
    axes.set_ylabel("mean change of access")
    if others:
        axes.legend(frameon=False, fontsize=9)
