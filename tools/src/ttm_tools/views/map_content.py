"""The content of a map: its title, its classes, and the class of each stop. This module draws nothing, and needs only
numpy.

`classes` has the breaks, labels, colours and shapes. Classes differ in lightness and shape, so they work in print.
"""

import math
from dataclasses import dataclass, replace
from typing import Any, Sequence

import numpy as np
import numpy.typing as npt

from ..core.arrays import Floats
from ..core.text import counted, display_text, grouped, rounded
from ..gtfs.stops import Stops
from ..matrices import Matrix, Pair, Share, Sums, pair_of
from ..measures.comparison import sides_of
from . import classes as table
from .classes import MINUTES, MINUTES_OF_CHANGE, PERCENT_OF_CHANGE, Mark

KEY_OF_TIMES, KEY_OF_CHANGES = "Travel time,\nwaiting included", "Change of travel time"
DECIMALS = 6  # of sums
MOST_WORST = 40  # stops that lose most, from which names are taken
Classes = npt.NDArray[np.intp]
Times = npt.NDArray[Any]  # seconds, NaN if not reached


@dataclass(frozen=True)
class Picture:
    """What a picture draws: the classes in the key's order, which of them each stop is in, and the texts."""

    title: str
    subtitle: str
    key: str
    marks: list[Mark]
    classes: Classes
    source: str
    origin: int | None = None  # the place of the stop from which one starts
    named: tuple[int, ...] = ()  # the places of stops to be named, the foremost first
    drawn: list[str] | None = None  # the stops, where they aren't those of the matrix alone
    what: str = "stops"  # or points
    is_titled: bool = False  # whether the title is the user's, and stands above the answer


@dataclass(frozen=True)
class PictureOptions:
    """What of a matrix a picture is to show; None where the matrix has one alone."""

    scenario: str | None = None
    base: str = "base"
    share: int | None = None
    within: int | None = None  # seconds
    breaks: tuple[float, ...] | None = None  # where classes begin: minutes, opportunities or percent
    unit: str = "opportunities"
    what: str = "stops"  # or points


NO_ORIGIN = table.mark("no-origin")


def source_of(scenario: str, share: Share, matrix: Matrix) -> str:
    travel_times = "" if share is None else f"travel times that {share} % of departures achieve"
    return "; ".join(filter(None, [f"Scenario {scenario}", travel_times, matrix.greatest_stated, matrix.heading])) + "."


def within_stated(limit: int | None) -> str:
    if limit is None:
        return ""
    return f" within {limit // 60} minutes" if limit % 60 == 0 else f" within {limit:,} seconds"


def picture_of_times(matrix: Matrix, stops: Stops, origin: str, options: PictureOptions) -> Picture:
    """Travel times from an origin, in classes of minutes."""
    scenario, share = matrix.scenario(options.scenario or options.base), matrix.share(options.share)
    seconds = matrix.seconds(scenario, share, origin)
    marks, classes = classes_of_minutes(seconds, options.breaks or MINUTES)
    there = ~np.isnan(seconds)
    there[matrix.places.get(origin, [])] = False
    half = f", half of them within {math.ceil(float(np.median(seconds[there])) / 60)} minutes" if there.any() else ""
    others = len(seconds) - (origin in matrix.places)
    subtitle = f"{there.sum():,} of {others:,} other {options.what} are reached{half}"
    title, source = f"Travel time from {stops.name_of(origin)}", source_of(display_text(scenario), share, matrix)
    return Picture(title, subtitle, KEY_OF_TIMES, marks, classes, source, matrix.places.get(origin))


def classes_of_minutes(seconds: Times, breaks: tuple[float, ...]) -> tuple[list[Mark], Classes]:
    """The classes of travel times, and which of them each is in."""
    marks = table.time_marks(breaks)
    grades = np.searchsorted(60 * np.array(breaks), seconds, side="left")
    return marks, np.where(np.isnan(seconds), len(marks) - 1, grades)


def round_step(most: float, count: int) -> int:
    """A round number that steps to `most` in about this many steps: 1, 2 or 5 times a power of ten."""
    least = max(most / count, 1)
    power = 10 ** math.floor(math.log10(least))
    return next(int(step * power) for step in (1, 2, 5, 10) if step * power >= least)


def round_breaks(least: int, most: int) -> tuple[float, ...]:
    """Round numbers that part the numbers from the least to the most in some classes."""
    step = round_step(most - least, 8)
    return tuple(range((least // step + 1) * step, max(most, least + step), step)) or (most + 1,)


def breaks_of(sums: Sums) -> tuple[float, ...]:
    """Round numbers that part sums in some classes; with decimals if the sums have some and are small."""
    least, most = sums.min().item(), sums.max().item()
    parts = 1 if is_whole(sums) or not most else 10 ** max(0, 2 - math.floor(math.log10(most)))
    breaks = round_breaks(math.floor(least * parts), math.ceil(most * parts))
    return tuple(number / parts if number % parts else number // parts for number in breaks)


def is_whole(sums: Sums) -> bool:
    """Whether sums are of whole numbers."""
    return sums.dtype.kind != "f"


def of_all(picture: Picture, matrix: Matrix, origins: Sequence[str], options: PictureOptions) -> Picture:
    """A picture of origins with all stops that are drawn, which have a mark of their own where they are no origins."""
    drawn = matrix.stops_and_origins()
    among = {name: place for place, name in enumerate(drawn)}
    classes = np.full(len(drawn), len(picture.marks), np.intp)
    classes[[among[name] for name in origins]] = picture.classes
    other = table.mark("destination") if options.what == "points" else NO_ORIGIN  # stops may be anything
    return replace(picture, marks=[*picture.marks, other], classes=classes, drawn=drawn)


def with_names(picture: Picture, ordered: Sequence[str], stops: Stops) -> Picture:
    """The picture with the first of these stops of each name named."""
    named, among = dict[str, int](), {name: place for place, name in enumerate(picture.drawn or ())}
    for stop in ordered:
        named.setdefault(stops.names[stops.places[stop]], among[stop])
    return replace(picture, named=tuple(named.values()))


def picture_of_access(matrix: Matrix, stops: Stops, options: PictureOptions) -> Picture:
    """Access of each origin, in classes of round numbers."""
    place, limit = matrix.limit(options.within)
    scenario, share = matrix.scenario(options.scenario or options.base), matrix.share(options.share)
    access = matrix.access(scenario, share)[:, place]
    breaks = options.breaks or breaks_of(access)
    marks = table.count_marks(breaks, is_whole(access))
    classes = np.searchsorted(np.array(breaks), access, side="right")
    middle, most = float(np.median(access)), access.max().item()
    half = math.floor(middle) if is_whole(access) else round(middle, DECIMALS)
    origins, within_reach = counted(len(access), options.what), counted(half, options.unit)
    subtitle = f"Half of {origins} reach at least {within_reach}; the most is {grouped(most)}"
    title = f"Access from each {options.what[:-1]}: {options.unit}{within_stated(limit)}"
    key = f"{options.unit.capitalize()} reached{within_stated(limit)}".replace(" within", "\nwithin")
    source = source_of(display_text(scenario), share, matrix)
    picture = Picture(title, subtitle, key, marks, classes, source)
    return of_all(picture, matrix, matrix.origins(scenario, share), options)


def classes_of_difference(change: Floats, breaks: Sequence[float]) -> Classes:
    """The places of changes among the marks: below 0 is lost."""
    grades = np.searchsorted(np.array(breaks), np.abs(change), side="right")
    classes: Classes = 1 + len(breaks) + np.where(change > 0, grades, -grades)
    return classes


def counts_stated(classes: Classes, breaks: Sequence[float], labels: Sequence[str]) -> str:
    """How many stops are cut off, lose, gain, and are new."""
    middle = 1 + len(breaks)
    spans = ((0, 1), (1, middle), (middle + 1, 2 * middle), (2 * middle, 2 * middle + 1))
    counts = [int(((classes >= begin) & (classes < end)).sum()) for begin, end in spans]
    return ", ".join(f"{count:,} {word}" for count, word in zip(counts, labels) if count or word in labels[1:3])


def beside(pair: Pair) -> str:
    return f"{display_text(pair.other)} compared with {display_text(pair.base)}"


def picture_of_time_difference(matrix: Matrix, stops: Stops, origin: str, options: PictureOptions) -> Picture:
    """Travel times from an origin in a scenario, compared with the base."""
    pair = pair_of(matrix, options.base, options.scenario, options.share)
    before, after = (matrix.seconds(name, pair.share, origin) for name in (pair.base, pair.other))
    marks, classes, subtitle = changes_of_times(before, after, options)
    title = f"Travel time from {stops.name_of(origin)}: {beside(pair)}"
    source = source_of(beside(pair), pair.share, matrix)
    return Picture(title, subtitle, KEY_OF_CHANGES, marks, classes, source, matrix.places.get(origin))


def changes_of_times(before: Times, after: Times, options: PictureOptions) -> tuple[list[Mark], Classes, str]:
    """The classes of changes of travel times (seconds, NaN for none), that of each, and how many are in them."""
    breaks = options.breaks or MINUTES_OF_CHANGE
    marks = [*table.change_marks("minutes", breaks), table.mark("in-neither")]
    classes = classes_of_difference(minutes_gained(before, after), breaks)
    gone, new = np.isnan(after), np.isnan(before)
    classes[gone & ~new], classes[new & ~gone], classes[new & gone] = 0, len(marks) - 2, len(marks) - 1
    counts = counts_stated(classes, breaks, ("cut off", "slower", "faster", "newly reached"))
    return marks, classes, f"Of {len(before):,} {options.what} {counts}"


def minutes_gained(before: Times, after: Times) -> Floats:
    """By how many minutes travel times fall; 0 if one of the two is missing."""
    minutes: Floats = np.nan_to_num((before - after).astype(np.float64) / 60)
    return minutes


def picture_of_access_difference(matrix: Matrix, stops: Stops, options: PictureOptions) -> Picture:
    """Access at each origin in a scenario, compared with the base, in classes of percent."""
    place, limit = matrix.limit(options.within)
    pair = pair_of(matrix, options.base, options.scenario, options.share)
    breaks = options.breaks or PERCENT_OF_CHANGE
    marks = table.change_marks("percent", breaks)
    first, second = pair.access(place)
    percent = 100 * (second - first) / np.where(first == 0, 1, first)
    sides = sides_of(first, second)
    classes = classes_of_difference(percent, breaks)
    classes[sides.newly_reached], classes[sides.cut_off] = len(marks) - 1, 0
    subtitle = f"Of {len(classes):,} {options.what} {sides.sentence()}"
    order = np.argsort(percent, kind="stable")[:MOST_WORST]
    worst = [pair.origins[row] for row in order[percent[order] <= -breaks[0]].tolist()]
    if worst:
        most, lost = -percent[order[0]], round((first[order[0]] - second[order[0]]).item(), DECIMALS)
        subtitle += (
            f"; the greatest loss: {rounded(most, 0)} % ({counted(lost, options.unit)}) at {stops.name_of(worst[0])}"
        )
    title = f"Access from each {options.what[:-1]}: {options.unit}{within_stated(limit)}, {beside(pair)}"
    key = f"Change of access:\n{options.unit}{within_stated(limit)}"
    source = source_of(beside(pair), pair.share, matrix)
    picture = of_all(Picture(title, subtitle, key, marks, classes, source), matrix, pair.origins, options)
    return with_names(picture, worst, stops)
