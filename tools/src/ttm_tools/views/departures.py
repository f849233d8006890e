"""The durations of all departures as a picture: a line for each scenario, minute by minute."""

from typing import Any, Sequence

import numpy as np

from ..core.text import display_text
from ..journeys.found import ExplainOptions, Found
from .texts import figure_with, without_mathtext

COLOURS = ("#332288", "#cc6677", "#117733", "#88ccee", "#aa4499", "#ddcc77")
MARKS = ("o", "s", "^", "D", "v", "P")
MOST_TICKS = 9


@without_mathtext
def figure_of(options: ExplainOptions, found: Sequence[Found]) -> Any:
    """The picture of some scenarios: a mark for each departure, a dashed line at the cell, a ring at the departure
    whose journey is reported, and crosses above for departures that never arrive.
    """
    ends = f"from {options.stop(options.origin)} to {options.stop(options.destination)}"
    figure = figure_with(f"Duration by departure: {ends}", 5.0)
    axes = figure.add_axes((0.07, 0.12, 0.9, 0.76))
    most = max((time for of in found for time in of.durations if time is not None), default=60) / 60
    for place, of in enumerate(found):
        draw_scenario(axes, options, of, place, most * (1.06 + 0.04 * place))
    step = -(-len(options.departures) // MOST_TICKS)
    ticks = range(0, len(options.departures), step)
    axes.set_xticks(list(ticks), [options.clock(options.departures[tick])[:-3] for tick in ticks])
    axes.set(ylim=(0, most * (1.12 + 0.04 * len(found))), xlabel="departure", ylabel="duration in minutes")
    axes.grid(axis="y", color="#dddddd", linewidth=0.6)
    axes.legend(frameon=False, fontsize=9, loc="lower left")
    return figure


def draw_scenario(axes: Any, options: ExplainOptions, found: Found, place: int, above: float) -> None:
    """One scenario, with the departures that lead nowhere at a height above all others."""
    colour, mark = COLOURS[place % len(COLOURS)], MARKS[place % len(MARKS)]
    minutes = np.array([np.nan if time is None else time / 60 for time in found.durations])
    cell = "not reached" if found.cell is None else f"{options.share} % achieve {found.cell / 60:.1f} minutes"
    label = f"{display_text(found.name)}: {cell}"
    axes.plot(minutes, color=colour, marker=mark, markersize=3.5, linewidth=0.9, label=label)
    if found.cell is not None:
        axes.axhline(found.cell / 60, color=colour, linestyle="dashed", linewidth=0.8)
    if found.chosen is not None:
        ring = {"facecolors": "none", "edgecolors": colour, "linewidths": 1.4, "zorder": 4}
        axes.scatter([found.chosen], [minutes[found.chosen]], s=90, **ring)
    gone = np.flatnonzero(np.isnan(minutes))
    if len(gone):
        axes.scatter(gone, np.full(len(gone), above), marker="x", s=22, color=colour, linewidths=1.0)
