"""The classes of maps, pages and charts: breaks, labels, colours, shapes and line styles.

`assets/classes.json` is the only place that holds them. Python reads it here, and pages embed it for their scripts, so
all of them draw and name the same classes. A dark colour always means near or much.
"""

import json
import math
from dataclasses import dataclass
from itertools import pairwise
from pathlib import Path
from typing import Any, Sequence

FILE = Path(__file__).resolve().parent / "assets" / "classes.json"
TABLE: dict[str, Any] = json.loads(FILE.read_text(encoding="utf-8"))
TOKENS: dict[str, str] = TABLE["tokens"]
NEAR, LOSS, GAIN = (TABLE["scales"][name] for name in ("near", "loss", "gain"))
MINUTES, BANDS, MINUTES_OF_CHANGE, PERCENT_OF_CHANGE = (
    tuple(TABLE["breaks"][name]) for name in ("minutes", "bands", "change", "percent")
)
Breaks = Sequence[float]


@dataclass(frozen=True)
class Mark:
    """How a class is drawn, and what the key calls it."""

    label: str
    colour: str
    shape: str = "circle"
    size: float = 1.0  # radius, relative to that of an ordinary mark
    edge: str = TOKENS["mark-edge"]


def mark(name: str) -> Mark:
    """Returns a mark that does not depend on breaks, such as `not-reached`."""
    return Mark(**TABLE["marks"][name])


def blended(first: str, second: str, part: float) -> str:
    """Returns the colour at a part of the way from one colour to another."""
    ends = ([int(colour[at : at + 2], 16) for at in (1, 3, 5)] for colour in (first, second))
    return "#" + "".join(f"{math.floor(low + (high - low) * part + 0.5):02x}" for low, high in zip(*ends))


def colours(scale: Sequence[str], count: int) -> list[str]:
    """Returns `count` colours at equal steps along a scale; for a count of 1, its last colour."""
    found = []
    for place in range(count):
        at = (place / (count - 1) if count > 1 else 1.0) * (len(scale) - 1)
        low = min(math.floor(at), len(scale) - 2)
        found.append(blended(scale[low], scale[low + 1], at - low))
    return found


def from_near(count: int) -> list[str]:
    """Returns the colours of `count` classes from near to far, or from much to little."""
    return colours(NEAR, count) if count > 1 else [NEAR[0]]


def as_text(number: float) -> str:
    return f"{int(number):,}" if float(number).is_integer() else f"{number:,.10g}"


def spans(breaks: Breaks, after_first: int, before_last: int, are_whole: bool = True) -> list[tuple[float, float]]:
    """Returns the first and last number of each class between breaks; of whole numbers, a neighbour has one end."""
    found = []
    for low, high in pairwise(breaks):
        step = int(are_whole and float(low).is_integer() and float(high).is_integer())
        found.append((low + step * after_first, high - step * before_last))
    return found


def labels(kind: str, breaks: Breaks, between: Sequence[tuple[float, float]], unit: str = "") -> list[str]:
    """Returns the labels of the classes below, between and above breaks."""
    texts = TABLE["labels"][kind]

    def filled(name: str, **numbers: float) -> str:
        return str(texts[name].format(unit=unit, **{key: as_text(number) for key, number in numbers.items()}))

    ranges = [filled("one" if low == high else "range", first=low, last=high) for low, high in between]
    return [filled("first", end=breaks[0]), *ranges, filled("last", first=breaks[-1])]


def time_labels(breaks: Breaks) -> list[str]:
    """Returns the labels of travel times in minutes, rounded up; a class ends at its break."""
    return labels("times", breaks, spans(breaks, 1, 0))


def count_labels(breaks: Breaks, are_whole: bool = True) -> list[str]:
    """Returns the labels of numbers; a class begins at its break, and ends before the next one if all are whole."""
    return labels("counts", breaks, spans(breaks, 0, 1, are_whole))


def time_marks(breaks: Breaks) -> list[Mark]:
    """Returns the marks of travel times from near to far, and that of places that are not reached."""
    named = time_labels(breaks)
    return [*map(Mark, named, from_near(len(named))), mark("not-reached")]


def count_marks(breaks: Breaks, are_whole: bool = True) -> list[Mark]:
    """Returns the marks of access, from little to much."""
    named = count_labels(breaks, are_whole)
    return [*map(Mark, named, reversed(from_near(len(named))))]


def change_marks(kind: str, breaks: Breaks) -> list[Mark]:
    """Returns the marks of a difference in `minutes` or `percent`.

    The order is that of the key: cut off, lost from much to little, hardly any change, gained from little to much, new.
    """
    words, marks = TABLE["labels"][kind], TABLE["marks"]
    same, *ranges = labels("change", breaks, spans(breaks, 0, 1), words["unit"])
    lost, gained = (
        sided(marks[name], words[name], scale, ranges) for name, scale in (("lost", LOSS), ("gained", GAIN))
    )
    texts = {"same": same, "cut": words["cut"], "new": words["new"]}
    middle, cut, new = (Mark(text, **marks[name]) for name, text in texts.items())
    return [cut, *reversed(lost), middle, *gained, new]


def sided(how: dict[str, Any], word: str, scale: Sequence[str], ranges: Sequence[str]) -> list[Mark]:
    """Returns the marks of losses or gains, from little to much: larger and darker."""
    least, most = how["sizes"]
    last = max(1, len(ranges) - 1)
    sizes = [least + (most - least) * (place / last if len(ranges) > 1 else 1.0) for place in range(len(ranges))]
    named = zip(ranges, colours(scale, len(ranges)), sizes)
    return [Mark(f"{text} {word}", colour, how["shape"], round(size, 3), how["edge"]) for text, colour, size in named]


def shading() -> Any:
    """Returns the scale of access as a colour map of matplotlib: the more, the darker."""
    from matplotlib.colors import LinearSegmentedColormap

    return LinearSegmentedColormap.from_list("near", [*reversed(NEAR)])
