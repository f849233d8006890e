"""Notes on results, and the warnings that say the same: nothing that can mislead is left out silently."""

import sys
import warnings
from typing import NamedTuple

PACKAGE = f"{__name__.partition('.')[0]}."


class Note(NamedTuple):
    """Something a reader of the results should know."""

    kind: str  # repaired, no service, unreachable, rounded, scenario, engine
    text: str
    affected: int  # records, places or trips; 0 if they were not counted


class TtmWarning(UserWarning):
    """Base of all warnings of this package."""


class RepairWarning(TtmWarning):
    """A feed was repaired."""


class NoServiceWarning(TtmWarning):
    """No trip runs on the date, or a scenario changes nothing on it."""


class UnreachableWarning(TtmWarning):
    """Places have no stop within the longest walk."""


class RoundingWarning(TtmWarning):
    """Numbers with decimals were rounded for the engine."""


WARNINGS: dict[str, type[TtmWarning]] = {
    "repaired": RepairWarning,
    "no service": NoServiceWarning,
    "unreachable": UnreachableWarning,
    "rounded": RoundingWarning,
    "engine": TtmWarning,
}


def warn(text: str, category: type[TtmWarning]) -> None:
    """Issue a warning at the line outside this package that called it, however deep the call is."""
    frame, level = sys._getframe(), 1
    while frame.f_back is not None and f"{frame.f_globals.get('__name__')}.".startswith(PACKAGE):
        frame, level = frame.f_back, level + 1
    warnings.warn(text, category, stacklevel=level)


def warn_of(note: Note) -> None:
    """Warn of a note by the class for its kind; a note on what a scenario does is no warning."""
    if note.kind in WARNINGS:
        warn(note.text, WARNINGS[note.kind])
