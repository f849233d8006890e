"""People by band as a table, in CSV or Markdown, and as stacked bars."""

from dataclasses import astuple, dataclass
from typing import Any, BinaryIO, Iterator, Sequence

from ..core.arrays import Floats
from ..core.columns import BANDS, BANDS_OF_NEAREST, names_of
from ..core.errors import InputError
from ..core.text import decimal, display_text, first_few, significant
from ..measures.access_table import AccessKind, AccessTable, by_group
from ..measures.bands import with_at_least, within_minutes
from ..measures.opportunities import Counts
from .classes import TOKENS, from_near
from .tables import write_table
from .texts import figure_with, without_mathtext

BAR = 0.34  # inches of a bar with its room
AROUND = 1.7  # inches of title and key


@dataclass(frozen=True)
class Band:
    """How many people of a group are within a band in a scenario."""

    kind: AccessKind
    group: str
    scenario: str
    limit: float  # opportunities at least, or minutes at most
    people: float
    percent: float  # of the group


def bands_of(
    table: AccessTable, kinds: Sequence[AccessKind], people: Counts, limits: Sequence[float]
) -> Iterator[Band]:
    """Each kind, group, scenario and limit, in this order."""
    count = within_minutes if table.of_times else with_at_least
    for kind, group, numbers, weights in by_group(table, kinds, people):
        for place, scenario in enumerate(table.scenarios):
            found: Floats = count(numbers[place], weights, limits)
            for limit, inside in zip(limits, found.tolist()):
                yield Band(kind, group, scenario, limit, inside, 100 * inside / float(weights.sum()))


def write_bands(out: BinaryIO, table: AccessTable, bands: Iterator[Band], form: str) -> None:
    rows = []
    for band in bands:
        named = [*astuple(band.kind), band.group, band.scenario, decimal(band.limit)]
        rows.append([*named, significant(band.people), significant(band.percent)])
    write_table(out, names_of(BANDS_OF_NEAREST if table.of_times else BANDS), rows, form)


def labels_of(table: AccessTable, limits: Sequence[float], unit: str) -> list[str]:
    """What the parts of a bar are called, the least access, or the longest way, last."""
    texts = [f"{limit:,.10g}" for limit in limits]
    between = [f"{low} to {high}{' min' * table.of_times}" for low, high in zip(texts, texts[1:])]
    if table.of_times:
        return [f"up to {texts[0]} min", *between, f"more than {texts[-1]} min, or not reached"]
    return [f"{texts[-1]} {unit} or more", *reversed(between), f"less than {texts[0]}"]


def parts_of(table: AccessTable, inside: Sequence[float]) -> list[float]:
    """The parts of a bar in percent, in the order of their labels, from how many percent are within each limit."""
    ends = list(inside) if table.of_times else list(reversed(inside))
    return [high - low for low, high in zip([0.0, *ends], [*ends, 100.0])]


@without_mathtext
def figure_of(table: AccessTable, kinds: Sequence[AccessKind], people: Counts, limits: Sequence[float]) -> Any:
    """A bar for each group and scenario, of one kind."""
    if len(kinds) > 1:
        there = first_few([kind.label for kind in kinds])
        how = "choose it with --opportunity, --percentile, --cutoff"
        raise InputError(table.path, f"a picture shows one of {there}: {how}")
    found = list(bands_of(table, kinds, people, limits))
    rows = list(dict.fromkeys((band.group, band.scenario) for band in found))
    labels = labels_of(table, limits, display_text(kinds[0].opportunity))
    colours = from_near(len(labels))
    high = AROUND + BAR * (len(rows) + len(people.names))
    figure = figure_with(f"People by band: {table.label_of(kinds[0])}", high)
    axes = figure.add_axes((0.24, 0.55 / high, 0.72, 1 - (AROUND - 0.2) / high))
    for row, (group, scenario) in enumerate(rows):
        inside = [band.percent for band in found if (band.group, band.scenario) == (group, scenario)]
        begin, at = 0.0, row + people.names.index(group)
        for place, part in enumerate(parts_of(table, inside)):
            label = labels[place] if row == 0 else None
            look: dict[str, Any] = {"color": colours[place], "label": label}
            axes.barh(at, part, 0.8, begin, edgecolor=TOKENS["mark-edge"], linewidth=0.5, **look)
            begin += part
    ticks = [row + people.names.index(group) for row, (group, _) in enumerate(rows)]
    axes.set(xlim=(0, 100), xlabel="% of the people", yticks=ticks)
    axes.set_yticklabels(
        [f"{display_text(group)}, {display_text(scenario)}" for group, scenario in rows], parse_math=False
    )
    axes.invert_yaxis()
    axes.legend(frameon=False, loc="lower left", bbox_to_anchor=(0, 1), ncols=min(4, len(labels)), fontsize=8)
    return figure
