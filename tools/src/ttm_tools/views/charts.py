"""Charts in one style: a title that states the answer, a line on what is drawn, labels next to the marks, few lines."""

import math
from typing import Any, Sequence

from ..core.text import grouped
from .classes import GAIN, LOSS, PERCENT_OF_CHANGE, TOKENS
from .texts import WIDE

MINUS, NARROW = "\u2212", "\u202f"  # signs of numbers: minus, and the space before %
HEAD, EDGE = 0.85, 0.25  # inches above a chart, and around it
INK, SOFT = TOKENS["ink"], TOKENS["soft"]
SHADES = {-3: LOSS[2], -2: LOSS[1], -1: LOSS[0], 1: GAIN[0], 2: GAIN[1], 3: GAIN[2]}  # by class of change
THOUSAND = 1000


def figure_of_chart(title: str, drawn: str, high: float, wide: float = WIDE) -> Any:
    """Returns an empty figure of a size in inches, below its title and the line on what is drawn."""
    from matplotlib.figure import Figure

    figure = Figure(figsize=(wide, high), dpi=135, facecolor="white")
    figure.text(EDGE / wide, 1 - 0.2 / high, title, fontsize=13, fontweight="bold", color=INK, va="top")
    figure.text(EDGE / wide, 1 - 0.5 / high, drawn, fontsize=10, color=SOFT, va="top")
    return figure


def plain_axes(axes: Any) -> Any:
    """Axes without a frame or ticks, with thin lines across."""
    for spine in axes.spines.values():
        spine.set_visible(False)
    axes.tick_params(length=0, labelsize=9, labelcolor=SOFT)
    axes.set_axisbelow(True)
    return axes


def signed_percent(percent: float, decimals: int = 0) -> str:
    """A change in percent as texts show it: −27 %, +4 %, 0 %."""
    text = f"{abs(percent):.{decimals}f}"
    sign = "" if float(text) == 0 else MINUS if percent < 0 else "+"
    return f"{sign}{text}{NARROW}%"


def percent_of(part: float, whole: float) -> str:
    """A share in whole percent; what is more than nothing is never 0, and what is less than all never 100."""
    if whole <= 0:
        return f"0{NARROW}%"
    percent = 100 * part / whole
    if 0 < percent < 1:
        return f"less than 1{NARROW}%"
    if 99 < percent < 100:
        return f"more than 99{NARROW}%"
    return f"{percent:.0f}{NARROW}%"


def people_shown(count: float) -> str:
    """A number of people as reports have it: hundreds, below a thousand tens, below a hundred whole."""
    step = 100 if count >= THOUSAND else 10 if count >= 100 else 1
    return grouped(step * round(count / step))


def grouped_short(number: float) -> str:
    """A mean as reports have it: hundreds from a thousand on, else three significant digits."""
    if math.isnan(number):
        return "none"
    return people_shown(number) if number >= THOUSAND else f"{number:.3g}"


def on_axis(number: float) -> str:
    """A number on an axis: thousands as k."""
    return f"{number / THOUSAND:g}k" if number >= 10 * THOUSAND else f"{number:,g}"


def class_labels() -> Sequence[str]:
    """Labels of the classes of a change in percent from the greatest loss to the greatest gain."""
    small, middle, large = PERCENT_OF_CHANGE
    ranges = [f"{small} to {middle - 1}", f"{middle} to {large - 1}", f"{large}{NARROW}% or more"]
    return [*reversed(ranges), f"less than {small}", *ranges]
