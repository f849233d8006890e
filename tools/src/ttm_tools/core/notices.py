"""Sentences for people that are also warnings for programs.

A function returns a `Notice` among its sentences; `console.say` prints it like any other text. While `collecting` runs,
what is said, or passed to `note`, is collected as well.
"""

import contextlib
from typing import Iterator

KINDS = {
    "repaired": "a rule repaired or removed records of a feed",
    "no service": "no trip runs on a date, or on any day",
    "unreachable": "no stop is within a walk of these points",
    "rounded": "numbers with decimals were rounded for `ttm`",
    "scenario": "a scenario is left out, or differs from what its name says",
    "engine": "there is more than `ttm` takes, or `ttm` warned",
    "feed": "likely a mistake in a feed, which `ttm` reads in spite of it",
    "left out": "files or records were left out",
    "renamed": "identifiers got a prefix",
    "place": "stops or points have no coordinates, or are far from a street",
}


class Notice(str):
    """A sentence about something that can mislead.

    Attributes
    ----------
    kind
        One of `KINDS`.
    affected
        The number of records, places, trips or names that the sentence is about; None if they are not counted.
    """

    kind: str
    affected: int | None

    def __new__(cls, text: str, kind: str, affected: int | None = None) -> "Notice":
        made = super().__new__(cls, text)
        made.kind, made.affected = kind, affected
        return made

    def after(self, begin: str) -> "Notice":
        """Return the same notice with a text before its own."""
        return Notice(f"{begin}{self}", self.kind, self.affected)

    def __reduce__(self) -> tuple[type["Notice"], tuple[str, str, int | None]]:
        return Notice, (str(self), self.kind, self.affected)


_collected: list[Notice] | None = None


@contextlib.contextmanager
def collecting() -> Iterator[list[Notice]]:
    """Yield a list of the notices of the block, in the order in which they are said; each text once."""
    global _collected
    before, _collected = _collected, list[Notice]()
    try:
        yield _collected
    finally:
        _collected = before


def note(*lines: object) -> None:
    """Add the notices among some lines to those that are collected."""
    if _collected is not None:
        _collected.extend(line for line in lines if isinstance(line, Notice) and line not in _collected)
