"""A map of how often vehicles run: the wider a line from stop to stop, the more of them an hour, both ways together."""

from typing import Any

import numpy as np

from ..api.service import Day
from ..core.errors import InputError
from ..core.text import display_text
from ..gtfs.projection import Projection
from ..measures.service import Period, departures_by_piece
from .service import period_shown
from .texts import without_mathtext

CLASSES = (1.0, 2.0, 4.0, 8.0, 16.0, 32.0)  # vehicles an hour, where wider lines begin
WIDTHS = (0.4, 0.8, 1.4, 2.2, 3.2, 4.4, 6.0)  # points
COLOUR, INCHES, MARGIN = "#27408b", 9.0, 0.04


@without_mathtext
def figure_of(day: Day, scenario: str, period: Period) -> Any:
    from matplotlib.collections import LineCollection
    from matplotlib.figure import Figure
    from matplotlib.lines import Line2D

    stops = day.timetable.all_stops.of(day.timetable.stops)
    if not stops.placed.any():
        raise InputError(stops.path, "no stop has stop_lat and stop_lon, so there is nothing to draw")
    projection = Projection(stops.latitudes, stops.longitudes)
    ends = np.stack(projection.kilometres(stops.longitudes, stops.latitudes), axis=1)
    one, other, counts = departures_by_piece(day.running[scenario], period)
    kept = stops.placed[one] & stops.placed[other]
    segments = np.stack([ends[one[kept]], ends[other[kept]]], axis=1)
    rates = counts[kept] / period.hours
    classes = np.searchsorted(np.array(CLASSES), rates, side="right")
    order = np.argsort(classes, kind="stable")
    figure = Figure(figsize=(INCHES, INCHES), dpi=135, facecolor="white")
    axes = figure.add_axes((MARGIN, MARGIN, 1 - 2 * MARGIN, 0.88))
    widths = np.array(WIDTHS)[classes[order]]
    axes.add_collection(LineCollection(segments[order], linewidths=widths, colors=COLOUR, capstyle="round"))
    axes.autoscale()
    axes.set_aspect("equal")
    axes.set_axis_off()
    title = f"Vehicles an hour, both ways together: {display_text(scenario)}, {period_shown(period)}"
    figure.text(MARGIN, 0.97, title, fontsize=13, fontweight="bold", va="top")
    labels = [f"less than {CLASSES[0]:g}", *(f"{low:g} to {high:g}" for low, high in zip(CLASSES, CLASSES[1:]))]
    labels.append(f"{CLASSES[-1]:g} and more")
    shown_classes = sorted(set(classes.tolist()))
    marks = [Line2D([], [], color=COLOUR, linewidth=WIDTHS[place]) for place in shown_classes]
    figure.legend(marks, [labels[place] for place in shown_classes], loc="lower left", frameon=True, fontsize=9)
    return figure
