"""Maps of the time to the nearest opportunities, from each origin, and of its change in a scenario."""

import functools
import math
from dataclasses import dataclass

import numpy as np

from ..core.arrays import Floats
from ..core.text import decimal, display_text, singular
from ..gtfs.stops import Stops
from ..matrices import Matrix, Share, pair_of
from ..measures.access import nearest
from . import map_content
from .classes import MINUTES, MINUTES_OF_CHANGE
from .map_content import Picture, PictureOptions


@dataclass(frozen=True)
class Nearest:
    name: str  # of what is counted
    numbers: Floats  # by stop of the matrix
    count: float

    def label(self) -> str:
        """The text for a title."""
        return f"nearest {self.thing()}" if self.count == 1 else f"{decimal(self.count)} nearest {self.thing()}"

    def thing(self) -> str:
        """What is looked for, in the singular if it is one."""
        return singular(display_text(self.name)) if self.count == 1 else display_text(self.name)

    def seconds(self, matrix: Matrix, scenario: str, share: Share) -> Floats:
        """The time to it from each origin, NaN where fewer are reached."""
        measure = functools.partial(nearest, numbers=self.numbers[:, None], counts=[self.count])
        seconds: Floats = matrix.measure(scenario, share, measure)[:, 0, 0]
        return seconds


def picture_of_nearest(matrix: Matrix, options: PictureOptions, what: Nearest) -> Picture:
    """The time from each origin to the nearest, in classes of minutes."""
    scenario, share = matrix.scenario(options.scenario or options.base), matrix.share(options.share)
    seconds = what.seconds(matrix, scenario, share)
    marks, classes = map_content.classes_of_minutes(seconds, options.breaks or MINUTES)
    there = ~np.isnan(seconds)
    subtitle = f"{there.sum():,} of {len(there):,} {options.what} reach at least {decimal(what.count)} {what.thing()}"
    if there.any():
        subtitle += f", half of these within {math.ceil(float(np.median(seconds[there])) / 60)} minutes"
    title, source = f"Travel time to the {what.label()}", map_content.source_of(display_text(scenario), share, matrix)
    picture = Picture(title, subtitle, map_content.KEY_OF_TIMES, marks, classes, source)
    return map_content.of_all(picture, matrix, matrix.origins(scenario, share), options)


def picture_of_nearest_difference(matrix: Matrix, stops: Stops, options: PictureOptions, what: Nearest) -> Picture:
    """The change of the time to the nearest in a scenario, compared with the base."""
    pair = pair_of(matrix, options.base, options.scenario, options.share)
    before = what.seconds(matrix, pair.base, pair.share)[pair.before]
    after = what.seconds(matrix, pair.other, pair.share)[pair.after]
    marks, classes, subtitle = map_content.changes_of_times(before, after, options)
    cut_off = np.isnan(after) & ~np.isnan(before)
    gain = np.where(cut_off, -np.inf, map_content.minutes_gained(before, after))
    least = (options.breaks or MINUTES_OF_CHANGE)[0]
    order = np.argsort(gain, kind="stable")[: map_content.MOST_WORST]
    worst = [pair.origins[row] for row in order[gain[order] <= -least].tolist()]
    title = f"Travel time to the {what.label()}: {map_content.beside(pair)}"
    source = map_content.source_of(map_content.beside(pair), pair.share, matrix)
    picture = Picture(title, subtitle, map_content.KEY_OF_CHANGES, marks, classes, source)
    return map_content.with_names(map_content.of_all(picture, matrix, pair.origins, options), worst, stops)
