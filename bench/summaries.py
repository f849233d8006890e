"""Medians, least and greatest figures over the turns of the benchmark, as the tables show them."""

import math
import statistics
from collections.abc import Iterable, Mapping
from dataclasses import dataclass

from record import Row

Turns = dict[tuple[str, int], float]  # figures by the date of the run and the turn


@dataclass(frozen=True)
class Summary:
    """The median, the least and the greatest of some figures."""

    median: float
    least: float
    greatest: float
    count: int

    def __str__(self) -> str:
        """Such as `5.23 (5.11 to 5.80)`; a single figure has no range."""
        least, middle, greatest = (shown(figure) for figure in (self.least, self.median, self.greatest))
        return middle if least == greatest else f"{middle} ({least} to {greatest})"


def shown(figure: float) -> str:
    """A figure with three significant digits, or as a whole number from 100 on."""
    if figure == 0:
        return "0"
    digits = max(0, 2 - math.floor(math.log10(abs(figure))))
    return f"{figure:,.{digits}f}"


def summary_of(figures: Iterable[float]) -> Summary | None:
    """Returns `None` if there are no figures."""
    found = list(figures)
    return Summary(statistics.median(found), min(found), max(found), len(found)) if found else None


class Results:
    """The figures of each part, of the build that measured it last: one commit on one machine."""

    def __init__(self, rows: Iterable[Row]) -> None:
        of_part: dict[str, list[Row]] = {}
        for row in rows:
            of_part.setdefault(row.part, []).append(row)
        self.rows = {part: [row for row in some if row.build == some[-1].build] for part, some in of_part.items()}

    def feeds(self, part: str) -> list[str]:
        """The feeds of a part, in the order in which they were measured."""
        return list(dict.fromkeys(row.feed for row in self.rows.get(part, [])))

    def measures(self, part: str, feed: str, program: str) -> list[str]:
        """What was measured of a feed, in that order."""
        rows = (row for row in self.rows.get(part, []) if (row.feed, row.program) == (feed, program))
        return list(dict.fromkeys(row.measure for row in rows))

    def turns(self, part: str, feed: str, program: str, measure: str) -> Turns:
        wanted = feed, program, measure
        rows = (row for row in self.rows.get(part, []) if (row.feed, row.program, row.measure) == wanted)
        return {(row.date, row.turn): row.figure for row in rows}

    def summary(self, part: str, feed: str, program: str, measure: str) -> Summary | None:
        return summary_of(self.turns(part, feed, program, measure).values())

    def median(self, part: str, feed: str, program: str, measure: str) -> float | None:
        found = self.summary(part, feed, program, measure)
        return found.median if found else None


def ratio(above: Mapping[tuple[str, int], float], below: Mapping[tuple[str, int], float]) -> Summary | None:
    """The quotients of two figures that the same turns measured."""
    return summary_of(above[turn] / below[turn] for turn in above if below.get(turn))


def sum_of_turns(*figures: Turns) -> Turns:
    """The sums of figures that the same turns measured."""
    turns = [turn for turn in figures[0] if all(turn in others for others in figures)]
    return {turn: sum(some[turn] for some in figures) for turn in turns}
