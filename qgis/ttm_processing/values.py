"""The values of parameters, and the checks that need no work."""

from __future__ import annotations

import os
import re
from dataclasses import dataclass, replace
from pathlib import Path
from typing import Any, Callable, Iterator

from qgis.core import QgsProcessingParameters
from qgis.PyQt.QtCore import QDate

from . import compat

MOST_PERCENTILES = MOST_CUTOFFS = 8
SECONDS_OF_MINUTE = 60


@dataclass(frozen=True)
class Times:
    """What is asked of the engine, and how places are joined to the stops."""

    date: str  # YYYY-MM-DD
    first: str  # departure, HH:MM
    last: str
    percentiles: tuple[int, ...]
    walk: int  # seconds
    rides: int  # 0: on foot
    most_seconds: float | None  # the longest travel time
    metres_a_second: float
    detour: float
    back: int
    ahead: int
    streets: str  # "": straight lines

    @property
    def middle(self) -> int:
        """The percentile nearest to 50, the lower of two."""
        return min(self.percentiles, key=lambda share: (abs(share - 50), share))

    def on(self, date: str) -> "Times":
        """Return the question for another date."""
        return replace(self, date=date)


def whole_numbers(given: str, label: str, unit: str, most: int, highest: int) -> tuple[int, ...]:
    """Return the whole numbers of a text, sorted.

    Raises
    ------
    ValueError
        The text is something else; the message names the label and what is allowed.
    """
    words = [word for word in re.split(r"[,\s]+", given.strip()) if word]
    numbers = [int(word) for word in words if re.fullmatch(r"[0-9]{1,6}", word)]
    is_right = len(numbers) == len(words) == len(set(numbers)) and 1 <= len(words) <= most
    if not is_right or not all(1 <= number <= highest for number in numbers):
        allowed = f"give 1 to {most} different whole {unit} of 1 to {highest}"
        raise ValueError(f'{label}: "{given}" is not allowed; {allowed}')
    return tuple(sorted(numbers))


class Values:
    """The values of an algorithm's parameters.

    Parameters
    ----------
    algorithm
        The algorithm, which has the definitions.
    parameters, context
        As QGIS passes them.
    """

    def __init__(self, algorithm: Any, parameters: Any, context: Any) -> None:
        self.algorithm, self.parameters, self.context = algorithm, parameters, context

    def text(self, name: str) -> str:
        """Return a text, "" if there is none."""
        return str(self.algorithm.parameterAsString(self.parameters, name, self.context) or "")

    def path(self, name: str) -> str:
        """Return the path of an input, "" if there is none."""
        return str(self.algorithm.parameterAsFile(self.parameters, name, self.context) or "")

    def is_on(self, name: str) -> bool:
        """Return a flag."""
        return bool(self.algorithm.parameterAsBool(self.parameters, name, self.context))

    def whole(self, name: str) -> int:
        """Return a whole number."""
        return int(self.algorithm.parameterAsInt(self.parameters, name, self.context))

    def number(self, name: str) -> float:
        """Return a number."""
        return float(self.algorithm.parameterAsDouble(self.parameters, name, self.context))

    def number_or_none(self, name: str) -> float | None:
        """Return a number that may be missing."""
        return None if compat.is_null(self.parameters.get(name)) else self.number(name)

    def fields(self, name: str) -> list[str]:
        """Return names of fields."""
        return [str(field) for field in self.algorithm.parameterAsFields(self.parameters, name, self.context)]

    def date(self, name: str = "DATE") -> str:
        """Return a date as YYYY-MM-DD, "" if there is none."""
        found = self.read(QgsProcessingParameters.parameterAsDateTime, name).date()
        return str(QDate(found).toString("yyyy-MM-dd")) if found.isValid() else ""

    def time(self, name: str) -> Any:
        """Return a time of day, as a `QTime`."""
        return self.read(QgsProcessingParameters.parameterAsTime, name)

    def read(self, reader: Callable[..., Any], name: str) -> Any:
        """Return a value that algorithms of 3.22 have no method for."""
        return reader(self.algorithm.parameterDefinition(name), self.parameters, self.context)

    def minutes(self) -> tuple[int, ...]:
        """Return the limits, ascending."""
        return whole_numbers(self.text("CUTOFFS"), "Within", "minutes", MOST_CUTOFFS, 10000)

    def shares(self) -> tuple[int, ...]:
        """Return the percentiles, ascending."""
        return whole_numbers(self.text("PERCENTILES"), "Percentiles", "numbers", MOST_PERCENTILES, 100)

    def times(self) -> Times:
        """Return what is asked of the engine."""
        most = self.number_or_none("MAX_TRAVEL")
        return Times(
            date=self.date(),
            first=str(self.time("FROM").toString("HH:mm")),
            last=str(self.time("TO").toString("HH:mm")),
            percentiles=self.shares(),
            walk=int(self.number("MAX_WALK") * SECONDS_OF_MINUTE),
            rides=self.whole("MAX_RIDES"),
            most_seconds=None if most is None else most * SECONDS_OF_MINUTE,
            metres_a_second=self.number("WALK_KMH") / 3.6,
            detour=self.number("DETOUR"),
            back=self.whole("DAYS_BEFORE"),
            ahead=self.whole("DAYS_AFTER"),
            streets=self.path("STREETS"),
        )

    def errors(self) -> Iterator[str]:
        """Yield the errors in the values that need no work to find."""
        for name in ("FEED", "FEED_AFTER"):
            if self.has(name) and self.path(name):
                yield from feed_errors(self.label(name), self.path(name))
        for name in ("STREETS", "PLAN"):
            if self.has(name) and self.path(name) and not os.path.isfile(self.path(name)):
                yield f"{self.label(name)}: {self.path(name)} does not exist"
        for name, read in (("PERCENTILES", self.shares), ("CUTOFFS", self.minutes)):
            try:
                if self.has(name):
                    read()
            except ValueError as error:
                yield str(error)
        if self.has("FROM"):
            yield from self.window_errors()

    def window_errors(self) -> Iterator[str]:
        """Yield what is wrong with the departures."""
        first, last = self.time("FROM"), self.time("TO")
        for name, found in (("FROM", first), ("TO", last)):
            if not found.isValid() or found.second() or found.msec():
                yield f"{self.label(name)}: a time of whole minutes is needed, HH:MM"
        if last < first:
            yield f'{self.label("TO")}: {last.toString("HH:mm")} is before {first.toString("HH:mm")}'

    def has(self, name: str) -> bool:
        """Return whether the algorithm has a parameter."""
        return self.algorithm.parameterDefinition(name) is not None

    def label(self, name: str) -> str:
        """Return the label of a parameter."""
        return str(self.algorithm.parameterDefinition(name).description())


def feed_errors(label: str, path: str) -> Iterator[str]:
    """Yield what is wrong with the path of a feed."""
    found = Path(path)
    if not found.exists():
        yield f"{label}: {path} does not exist"
    elif found.is_dir() and not (found / "stops.txt").is_file() and not any(found.glob("*/stops.txt")):
        yield f"{label}: the folder {path} has no stops.txt, and no folder in it has one"
