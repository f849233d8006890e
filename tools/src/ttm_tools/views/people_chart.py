"""Charts of who loses and who gains: each person in order of the change, and groups of people side by side."""

from dataclasses import dataclass
from typing import Any, Mapping, Sequence

import numpy as np

from ..core.text import display_text
from ..measures.person_changes import PersonChanges
from .charts import EDGE, HEAD, INK, MINUS, NARROW, SHADES, SOFT
from .charts import class_labels, figure_of_chart, on_axis, people_shown, percent_of, plain_axes, signed_percent
from .classes import PERCENT_OF_CHANGE, TOKENS
from .texts import WIDE, without_mathtext

MOST_PANELS = 3
WORDS = {25.0: "a quarter", 10.0: "a tenth"}
MOST_SHOWN = 100.0  # percent of a gain that the chart shows
BAR = 0.42  # inches of a bar with its room


@dataclass(frozen=True)
class ChartWords:
    """What a chart counts: `jobs within 30 min`, and who is counted: people, or stops where no people are known."""

    access: str
    who: str = "people"


def who_changes(changes: PersonChanges, percent: float) -> str:
    """Returns how many lose and how many gain at least so many percent, the greater number first; empty for none."""
    counts = [(changes.lose(percent), "lose"), (changes.gain(percent), "gain")]
    return ", ".join(f"{people_shown(count)} {word}" for count, word in sorted(counts, reverse=True) if count)


def title_in_order(found: Mapping[str, PersonChanges], who: str) -> str:
    """Returns a title true of all that is drawn: how many lose or gain, by the largest break that anybody reaches."""
    for percent in reversed(PERCENT_OF_CHANGE):
        texts = {name: who_changes(changes, percent) for name, changes in found.items()}
        if not any(texts.values()):
            continue
        many = f"{WORDS.get(float(percent), f'{percent}{NARROW}%')} or more"
        if len(texts) == 1:
            first, *rest = next(iter(texts.values())).split(", ")
            count, verb = first.split(" ")
            return ", ".join([f"{count} {who} {verb} {many}", *rest])
        first, *rest = [f"{display_text(name)}: {text or 'nobody'}" for name, text in texts.items()]
        return "; ".join([f"{first} {many}", *rest])
    return f"No change reaches {PERCENT_OF_CHANGE[0]}{NARROW}%"


@without_mathtext
def figure_in_order(found: Mapping[str, PersonChanges], words: ChartWords, wide: float = WIDE) -> Any:
    """A panel for each scenario: its people from the greatest loss to the greatest gain, with their change."""
    panels = list(found.items())[:MOST_PANELS]
    title = title_in_order(dict(panels), words.who)
    high = 4.0
    figure = figure_of_chart(title, f"Change of {words.access}, {words.who} with the greatest loss first", high, wide)
    room = (wide - 0.75 - EDGE) / len(panels)
    low, top = range_of([changes for _, changes in panels])
    for number, (name, changes) in enumerate(panels):
        place = (0.75 + number * room) / wide, 0.6 / high, (room - 0.55) / wide, 1 - (HEAD + 0.85) / high
        axes = plain_axes(figure.add_axes(place))
        draw_in_order(axes, changes, words, (low, top))
        if len(panels) > 1:
            axes.set_title(display_text(name), loc="left", fontsize=10, fontweight="bold", pad=10)
    return figure


def range_of(found: Sequence[PersonChanges]) -> tuple[float, float]:
    """The least and the greatest change that axes show, in steps of 25 percent."""
    low = min(float(changes.percent.min(initial=0)) for changes in found)
    high = max(float(np.minimum(changes.percent, MOST_SHOWN).max(initial=0)) for changes in found)
    return 25 * np.floor(low / 25), 25 * np.ceil(high / 25) or (0 if low else 25)


def draw_in_order(axes: Any, changes: PersonChanges, words: ChartWords, limits: tuple[float, float]) -> None:
    percent, ends = changes.ordered()
    begins = np.concatenate([[0.0], ends[:-1]])
    grades = np.searchsorted(np.array(PERCENT_OF_CHANGE), np.abs(percent), side="right") * np.sign(percent)
    shown = np.minimum(percent, limits[1])
    for grade, colour in SHADES.items():
        own = grades == grade
        axes.bar(begins[own], shown[own], (ends - begins)[own], align="edge", color=colour, linewidth=0)
    axes.step(np.concatenate([[0], ends]), np.concatenate([shown[:1], shown]), where="pre", color=INK, linewidth=0.8)
    axes.axhline(0, color=SOFT, linewidth=0.8)
    ticks = np.arange(limits[0], limits[1] + 1, 25)
    axes.set(xlim=(0, changes.total), ylim=limits, yticks=ticks)
    texts = [tick_label(tick, tick == ticks[0]) for tick in ticks]
    if (percent > limits[1]).any():
        texts[-1] += " or more"
    axes.set_yticklabels(texts)
    axes.grid(axis="y", color=TOKENS["edge"], linewidth=0.8)
    axes.xaxis.set_major_locator(few_ticks())
    axes.xaxis.set_major_formatter(lambda number, _: on_axis(number))
    axes.set_xlabel(f"{words.who}, greatest loss first", fontsize=9, color=SOFT, loc="right")
    label_losses(axes, changes, words.who)


def few_ticks() -> Any:
    from matplotlib.ticker import MaxNLocator

    return MaxNLocator(4, steps=[1, 2, 5, 10], integer=True)


def tick_label(percent: float, with_unit: bool) -> str:
    sign = MINUS if percent < 0 else "+" if percent > 0 else ""
    return f"{sign}{abs(percent):.0f}" + (f"{NARROW}%" if with_unit else "")


def label_losses(axes: Any, changes: PersonChanges, who: str) -> None:
    """Writes next to the greatest losses and gains how many people have them."""
    least, most = axes.get_ylim()
    for percent in reversed(PERCENT_OF_CHANGE[1:]):
        count = changes.lose(percent)
        if count and least < -percent:
            text = f"{people_shown(count)} {who} lose {percent:g}{NARROW}% or more"
            at = count + 0.02 * changes.total
            if at < 0.6 * changes.total:
                axes.text(at, (least - percent) / 2, text, fontsize=9, va="center", color=SHADES[-3])
            break
    for percent in reversed(PERCENT_OF_CHANGE[1:]):
        count = changes.gain(percent)
        if count and most > percent:
            text = f"{people_shown(count)} {who} gain {percent:g}{NARROW}% or more"
            at = changes.total - count - 0.02 * changes.total
            if at > 0.4 * changes.total:
                axes.text(at, (most + percent) / 2, text, fontsize=9, va="center", ha="right", color=SHADES[3])
            break


@without_mathtext
def figure_by_group(groups: Mapping[str, PersonChanges], words: ChartWords) -> Any:
    """A bar for each group: the percentage that loses to the left and that gains to the right, by size of the change,
    and the mean change at the right.
    """
    high = HEAD + 1.3 + BAR * len(groups)
    drawn = f"% of each group that loses or gains {words.access}; mean change at the right"
    figure = figure_of_chart(title_of_groups(groups), drawn, high)
    axes = plain_axes(figure.add_axes((0.2, 0.95 / high, 0.66, 1 - (HEAD + 1.05) / high)))
    most = 5.0
    for row, changes in enumerate(groups.values()):
        grades = changes.classes(PERCENT_OF_CHANGE)
        for side in (-1, 1):
            begin = 0.0
            for grade in (1, 2, 3):
                part = 100 * float(changes.people[grades == side * grade].sum()) / (changes.total or 1)
                axes.barh(row, side * part, 0.62, begin, color=SHADES[side * grade], linewidth=0)
                begin += side * part
            most = max(most, abs(begin))
        before, after = changes.means()
        mean = signed_percent(100 * (after - before) / before) if before else "–"
        colour = SHADES[-3] if after < before else SHADES[3] if after > before else SOFT
        axes.text(1.02, row, mean, transform=axes.get_yaxis_transform(), va="center", color=colour, fontweight="bold")
    axes.axvline(0, color=INK, linewidth=1)
    axes.set(xlim=(-1.05 * most, 1.05 * most), yticks=range(len(groups)))
    axes.set_yticklabels(list(map(display_text, groups)), color=INK)
    axes.xaxis.set_major_formatter(lambda number, _: f"{abs(number):g}")
    axes.grid(axis="x", color=TOKENS["edge"], linewidth=0.8)
    axes.invert_yaxis()
    for side, text, where in ((-1, "← lose", "right"), (1, "gain →", "left")):
        at = axes.get_xaxis_transform()
        axes.text(
            side * 0.02 * most, 1.02, text, transform=at, ha=where, va="bottom", color=SHADES[3 * side], fontsize=9
        )
    draw_classes(figure.add_axes((0.2, 0.32 / high, 0.66, 0.16 / high)))
    return figure


def draw_classes(axes: Any) -> None:
    """The classes of a change as one scale from loss to gain, with the word at each end."""
    plain_axes(axes).set(xlim=(0, 7), ylim=(0, 1), xticks=np.arange(7) + 0.5, yticks=[])
    axes.set_xticklabels(class_labels(), fontsize=8)
    for place, grade in enumerate((-3, -2, -1, 0, 1, 2, 3)):
        look = {"facecolor": SHADES.get(grade, "none"), "edgecolor": TOKENS["mark-edge"], "linewidth": 0.6}
        axes.bar(place + 0.5, 1, 0.98, linestyle="solid" if grade else "dotted", clip_on=False, **look)
    for at, text, where in ((-0.1, "Lose", "right"), (7.1, "Gain", "left")):
        colour = SHADES[-3 if at < 0 else 3]
        axes.text(at, 0.5, text, ha=where, va="center", fontsize=9, fontweight="bold", color=colour)


def title_of_groups(groups: Mapping[str, PersonChanges]) -> str:
    """Returns who loses most by a tenth, if one group's share is the greatest by 5 points; else a neutral title."""
    shares = {name: 100 * changes.lose(10) / (changes.total or 1) for name, changes in groups.items()}
    first, *rest = sorted(shares, key=lambda name: -shares[name])
    if rest and shares[first] - shares[rest[0]] >= 5:
        part = percent_of(groups[first].lose(10), groups[first].total)
        return f"{part} of {display_text(first)} lose a tenth or more, of others at most {shares[rest[0]]:.0f}{NARROW}%"
    return "Who loses and who gains, by group"
