"""The classes of the outputs: which features they have, by an expression, and how these look.

Breaks, labels and colours come from `styles/classes.json`. Dark always means near or much.
"""

from __future__ import annotations

import json
import math
from dataclasses import dataclass, replace
from functools import lru_cache
from pathlib import Path
from typing import Any, Iterator, Sequence

SIZE = 2.6  # of a mark, millimetres
HOLLOW_SIZE = 1.8
MOST_CLASSES = 7


@dataclass(frozen=True)
class Class:
    """The features for which an expression holds, and how they look."""

    expression: str
    label: str
    colour: str  # "": hollow
    edge: str = ""
    opacity: float = 1.0
    shape: str = "circle"
    angle: float = 0.0
    size: float = SIZE  # of a mark, or the width of a line, millimetres
    edge_width: float = 0.2
    dash: str = ""


@lru_cache(maxsize=1)
def table() -> Any:
    """Return the content of `classes.json`."""
    return json.loads(Path(__file__).with_name("styles").joinpath("classes.json").read_text(encoding="utf-8"))


def exact(value: float) -> str:
    """Return a number as an expression of QGIS reads it, without rounding."""
    return f"{value:.17g}"


def shown(value: float) -> str:
    """Return a number for people: whole numbers as they are, others with four digits."""
    return f"{value:,.0f}" if value == round(value) else f"{value:,.4g}"


def ranges(breaks: Sequence[float], unit: str) -> Iterator[tuple[float | None, float | None, str]]:
    """Yield lower end, upper end and label of the classes between breaks; an upper end is part of its class."""
    yield None, breaks[0], f"up to {shown(breaks[0])} {unit}"
    for low, high in zip(breaks, breaks[1:]):
        yield low, high, f"{shown(low)} to {shown(high)} {unit}"
    yield breaks[-1], None, f"more than {shown(breaks[-1])} {unit}"


def between(value: str, low: float | None, high: float | None) -> str:
    """Return the expression that a value is above one end, and not above the other."""
    parts = [f"{value} > {exact(low)}"] if low is not None else [f"{value} IS NOT NULL"]
    return " AND ".join([*parts, *([f"{value} <= {exact(high)}"] if high is not None else [])])


def hollow(expression: str) -> Class:
    """Return the class of what has no value."""
    look = table()
    return Class(expression, look["none"], "", look["hollow_edge"], size=HOLLOW_SIZE)


def of_times(name: str) -> list[Class]:
    """Return the classes of a field of seconds."""
    look = table()
    times = look["times"]
    value = f'"{name}" / 60.0'
    found = [
        Class(between(value, low, high), label, colour, look["edge"])
        for (low, high, label), colour in zip(ranges(times["breaks"], times["unit"]), times["colours"])
    ]
    return [*found, hollow(f'"{name}" IS NULL')]


def shades(count: int) -> list[str]:
    """Return some colours of the scale from dark to light, evenly spread."""
    colours = table()["times"]["colours"]
    steps = max(count - 1, 1)
    return [colours[round(place * (len(colours) - 1) / steps)] for place in range(count)]


def of_access(name: str, values: Sequence[float]) -> list[Class]:
    """Return seven classes with about as many features each; dark is much.

    Parameters
    ----------
    values
        All values of the field.
    """
    ordered = sorted(values)
    if not ordered:
        return [hollow(f'"{name}" IS NULL')]
    places = [math.ceil(len(ordered) * part / MOST_CLASSES) - 1 for part in range(1, MOST_CLASSES)]
    breaks = sorted({ordered[max(place, 0)] for place in places} - {ordered[-1]})
    edge, label = table()["edge"], shown(ordered[0])
    classes = [Class(f'"{name}" IS NOT NULL', label, "", edge)]  # if all values are the same
    if breaks:
        found = ranges(breaks, "")
        classes = [Class(between(f'"{name}"', low, high), label.strip(), "", edge) for low, high, label in found]
    coloured = [
        Class(item.expression, item.label, colour, edge) for item, colour in zip(classes, shades(len(classes))[::-1])
    ]
    return [*coloured, hollow(f'"{name}" IS NULL')]


def of_cutoffs(name: str, cutoffs: Sequence[float], unit: str = "min", opacity: float = 1.0) -> list[Class]:
    """Return a class for each limit; dark is near."""
    edge = table()["edge"]
    found = [
        Class(f'"{name}" = {cutoff:g}', f"within {cutoff:g} {unit}", colour, edge, opacity)
        for cutoff, colour in zip(cutoffs, shades(len(cutoffs)))
    ]
    return found


def of_limits(name: str, cutoffs: Sequence[float]) -> list[Class]:
    """Return a class for each limit, and one for what is beyond all of them."""
    return [*of_cutoffs(name, cutoffs), replace(hollow(f'"{name}" IS NULL'), label=table()["beyond"])]


def of_changes(what: str, percent: str) -> list[Class]:
    """Return the classes of a comparison: cut off, losses, unchanged, gains, newly reached.

    Parameters
    ----------
    what, percent
        The fields with the kind of the change, and with the change in percent. It is NULL where nothing was reached
        before; a gain then counts as 100 %.
    """
    look = table()
    seen, labels = look["differences"], look["differences"]["labels"]
    value = f'coalesce("{percent}", CASE WHEN "change" > 0 THEN 100 ELSE 0 END)'
    inside = f"\"{what}\" NOT IN ('cut off', 'newly reached')"
    cut = Class(f"\"{what}\" = 'cut off'", labels["cut_off"], seen["cut_off"], shape="cross2", edge_width=0.8)
    new = Class(f"\"{what}\" = 'newly reached'", labels["new"], seen["new"], shape="cross", edge_width=0.8)
    losses = side_of_changes("loss", inside, f"-{value}", 180.0)
    gains = side_of_changes("gain", inside, value, 0.0)
    small = f"{inside} AND abs({value}) < {seen['breaks'][0]:g}"
    same = Class(small, labels["same"], seen["same"], look["edge"], size=HOLLOW_SIZE)
    return [cut, *reversed(losses), same, *gains, new, hollow(f'"{what}" IS NULL')]


def side_of_changes(side: str, inside: str, value: str, angle: float) -> list[Class]:
    """Return the classes of losses or of gains, from small to large."""
    look = table()
    seen = look["differences"]
    unit, label, ends = seen["unit"], seen["labels"][side], [*seen["breaks"], None]
    found = []
    for low, high, colour, size in zip(ends, ends[1:], seen[side], seen["sizes"]):
        upper = "" if high is None else f" AND {value} < {high:g}"
        text = f"at least {low:g} {unit}" if high is None else f"{shown(low)} to {shown(high)} {unit}"
        found.append(
            Class(
                f"{inside} AND {value} >= {low:g}{upper}",
                f"{text} {label}",
                colour,
                look["edge"],
                1,
                "triangle",
                angle,
                size,
            )
        )
    return found


def of_stops(name: str) -> list[Class]:
    """Return the classes of departures an hour at stops."""
    look = table()
    seen = look["departures"]
    found = ranges(seen["breaks"], seen["unit"])
    return [
        Class(between(f'"{name}"', low, high), label, seen["colour"], look["edge"], size=size)
        for (low, high, label), size in zip(found, seen["sizes"])
    ]


def of_lines(mode: str, name: str, modes: Sequence[str]) -> list[Class]:
    """Return the classes of lines of some modes, by mode (colour and dash) and departures an hour (width)."""
    look = table()
    seen = look["departures"]
    return [
        Class(
            f"\"{mode}\" = '{kind}' AND " + between(f'"{name}"', low, high),
            f"{kind}, {label}",
            form["colour"],
            size=width,
            dash=form["dash"],
        )
        for kind, form in look["modes"].items()
        if kind in modes
        for (low, high, label), width in zip(ranges(seen["breaks"], seen["unit"]), seen["widths"])
    ]


def mode_of(route_type: str) -> str:
    """Return the mode of a route's type in the GTFS reference, with the extended types by their hundreds."""
    number = int(route_type) if route_type.strip().isdigit() else -1
    extended = {1: 2, 2: 3, 4: 1, 7: 3, 8: 3, 9: 0, 10: 4, 12: 4, 13: 6, 14: 7}
    basic = number if number < 100 else extended.get(number // 100, -1)
    return next((mode for mode, form in table()["modes"].items() if basic in form["types"]), "bus")


def of_changed_lines(name: str) -> list[Class]:
    """Return the classes of a plan's routes: removed, changed, new."""
    look = table()["changed_lines"]
    return [
        Class(f"\"{name}\" = '{what}'", what, form["colour"], size=1.0, dash=form["dash"])
        for what, form in look.items()
    ]
