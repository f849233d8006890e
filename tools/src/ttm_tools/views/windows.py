"""Pictures of access by time of day: its mean over people, and over the tenth that has the least; a heat map of the
places by window; and a map for each window.
"""

import itertools
import math
from dataclasses import dataclass
from typing import Any, Sequence

import numpy as np

from ..core.arrays import Floats
from ..core.text import display_text
from ..core.times import minutes_of
from ..gtfs.projection import Projection
from ..gtfs.stops import Stops
from ..measures.equity import TENTHS, mean, people_in_slice
from ..measures.opportunities import Counts
from .classes import shading
from .equity import COLOURS
from .texts import figure_with, without_mathtext

ACROSS = 4  # panels in a row
MOST_ACROSS = 6  # maps in a row where each row is a day
HEAD, FOOT = 0.7, 0.55  # inches above and below the panels
MOST_MAPS = 48


@dataclass(frozen=True)
class WindowColumn:
    """A window of a day, and what each place has in it."""

    day: str  # YYYY-MM-DD
    name: str
    first: str  # HH:MM
    last: str
    numbers: Floats  # by scenario and place

    @property
    def span(self) -> tuple[float, float]:
        """Where it begins and ends, in hours."""
        begin, end = (minutes_of(clock) / 60 for clock in (self.first, self.last))
        return begin, end + 1 / 60  # the last minute counts


@dataclass(frozen=True)
class FigureLabels:
    kind: str  # what is measured, such as "jobs within 30 minutes"
    unit: str
    places: str  # stops or points
    scenario: str = ""  # of the heat map and the maps, where the matrix has several

    @property
    def kind_of_scenario(self) -> str:
        return self.kind + (f", scenario {self.scenario}" if self.scenario else "")


def levels(numbers: Floats, people: Floats) -> tuple[float, float]:
    """The mean of all people, and that of the tenth that has the least."""
    return mean(numbers, people), mean(numbers, people_in_slice(numbers, people, 0, 1 / TENTHS))


def days_of(columns: Sequence[WindowColumn]) -> list[tuple[str, list[WindowColumn]]]:
    return [(day, list(own)) for day, own in itertools.groupby(columns, lambda column: column.day)]


@without_mathtext
def figure_by_time(
    columns: Sequence[WindowColumn], scenarios: Sequence[str], groups: Counts, labels: FigureLabels
) -> Any:
    """A panel for each group of people and each day: the mean over the group, and that of the tenth of it that has the
    least, along the hours. The panels of a group begin a row.
    """
    days, names = days_of(columns), list(map(display_text, groups.names))
    across = min(ACROSS, len(days))
    of_a_group = math.ceil(len(days) / across)
    rows = of_a_group * len(names)
    whom = f"mean of {names[0]}" if len(names) == 1 else "mean of each group"
    figure = figure_with(f"{labels.kind} by time of day: {whom}", HEAD + 3.2 * rows + FOOT)
    panels = figure.subplots(rows, across, sharex=True, sharey=True, squeeze=False)
    high = figure.get_figheight()
    figure.subplots_adjust(0.09, FOOT / high, 0.98, 1 - HEAD / high, 0.06, 0.22)
    for axes in panels.flat:
        axes.set_visible(False)
    for group, name in enumerate(names):
        for axes, (day, own) in zip(panels[group * of_a_group :].flat, days):
            axes.set_visible(True)
            axes.set_title(day + (f": {name}" if len(names) > 1 else ""), fontsize=10, parse_math=False)
            axes.grid(axis="y", color="#dddddd", linewidth=0.6)
            axes.tick_params(labelsize=8)
            draw_levels(axes, own, scenarios, groups.numbers[:, group])
    ends = [end for column in columns for end in column.span]
    hours = range(math.floor(min(ends)), math.ceil(max(ends)) + 1)
    panels[0, 0].set(ylim=(0, None), xlim=(hours[0], hours[-1]), xticks=hours[:: 1 + len(hours) // 9])
    for axes in panels[:, 0]:
        axes.set_ylabel(labels.unit, parse_math=False)
        axes.yaxis.set_major_formatter("{x:,.10g}")
    panels[0, 0].legend(frameon=False, fontsize=8)
    figure.text(0.5, 0.12 / high, "departure, hour of the day", ha="center", fontsize=9)
    return figure


def draw_levels(axes: Any, columns: Sequence[WindowColumn], scenarios: Sequence[str], people: Floats) -> None:
    """Two lines for each scenario: a bar over each window's time, and thin lines between their middles."""
    spans = np.array([column.span for column in columns])
    for (place, name), (row, style) in itertools.product(enumerate(scenarios), enumerate(("solid", "dashed"))):
        found = np.array([levels(column.numbers[place], people)[row] for column in columns])
        label = display_text(name) + (", tenth with the least" if row else "")
        how: dict[str, Any] = {"color": COLOURS[place % len(COLOURS)], "linestyle": style}
        axes.plot(spans.mean(axis=1), found, linewidth=0.8, label=label, **how)
        axes.hlines(found, spans[:, 0], spans[:, 1], colors=how["color"], linewidth=3.0, alpha=0.5 if row else 1.0)


@without_mathtext
def figure_of_heat(columns: Sequence[WindowColumn], scenario: int, labels: FigureLabels) -> Any:
    """A row for each place, ordered by its mean, and a column for each window."""
    numbers = np.stack([column.numbers[scenario] for column in columns], axis=1)
    order = np.argsort(-numbers.mean(axis=1), kind="stable")
    figure = figure_with(f"{labels.kind_of_scenario}: each of {len(order):,} {labels.places} by window", 7.0)
    axes = figure.add_axes((0.09, 0.17, 0.76, 0.72))
    image = axes.imshow(numbers[order], aspect="auto", interpolation="nearest", cmap=shading(), vmin=0)
    names = [column.name for column in columns]
    axes.set(xticks=range(len(columns)), ylabel=f"{labels.places}, the most on top")
    turned = {"rotation": 45, "ha": "right"} if sum(map(len, names)) > 60 else {}
    axes.set_xticklabels(names, fontsize=8, parse_math=False, **turned)
    begin = 0
    for day, own in days_of(columns):
        axes.text(begin - 0.45, -0.01 * len(order) - 0.5, day, fontsize=9, va="bottom", parse_math=False)
        begin += len(own)
        axes.axvline(begin - 0.5, color="white", linewidth=2.0)
    bar = figure.colorbar(image, cax=figure.add_axes((0.87, 0.17, 0.025, 0.72)))
    bar.set_label(labels.unit, parse_math=False)
    bar.ax.yaxis.set_major_formatter("{x:,.10g}")
    return figure


@without_mathtext
def figure_of_maps(columns: Sequence[WindowColumn], scenario: int, stops: Stops, labels: FigureLabels) -> Any:
    """A small map for each window, with one scale of colours."""
    drawn, counts = columns[:MOST_MAPS], {len(own) for _, own in days_of(columns)}
    projection = Projection(stops.latitudes, stops.longitudes)
    east, north = projection.kilometres(stops.longitudes, stops.latitudes)
    across = max(counts) if len(counts) == 1 and max(counts) in range(2, MOST_ACROSS + 1) else min(ACROSS, len(drawn))
    rows = math.ceil(len(drawn) / across)
    left_out = f": the first {len(drawn)} of {len(columns)} windows" if len(drawn) < len(columns) else ""
    figure = figure_with(f"{labels.kind_of_scenario}, by window{left_out}", HEAD + 10.4 / across * rows + 0.3)
    panels = figure.subplots(rows, across, squeeze=False)
    high = figure.get_figheight()
    figure.subplots_adjust(0.02, 0.2 / high, 0.87, 1 - HEAD / high, 0.05, 0.16)
    most = max(float(column.numbers[scenario].max()) for column in drawn) or 1.0
    size = min(30.0, max(1.5, 9000 / max(1, len(east)) / math.sqrt(len(drawn))))
    for axes in panels.flat[len(drawn) :]:
        axes.set_visible(False)
    for axes, column in zip(panels.flat, drawn):
        marks = axes.scatter(
            east, north, s=size, c=column.numbers[scenario], cmap=shading(), vmin=0, vmax=most, marker="s"
        )
        axes.set(xticks=[], yticks=[], aspect="equal")
        axes.set_title(f"{column.day} {column.name}", fontsize=9, parse_math=False)
    bar = figure.colorbar(marks, cax=figure.add_axes((0.89, 0.2 / high, 0.022, 1 - (HEAD + 0.2) / high)))
    bar.set_label(labels.unit, parse_math=False)
    bar.ax.yaxis.set_major_formatter("{x:,.10g}")
    return figure
