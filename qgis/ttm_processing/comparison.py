"""What changes for an origin between two matrices."""

from __future__ import annotations

from dataclasses import dataclass
from typing import Any, Iterator, Mapping, Sequence

from .engine import Matrix
from .places import Places
from .rows import Rows
from .values import Times

CUT_OFF, LOSES, UNCHANGED, GAINS, NEW = "cut off", "loses", "unchanged", "gains", "newly reached"
Access = Mapping[tuple[str, int, str, int], float]  # by origin, percentile, column and limit


@dataclass(frozen=True)
class Side:
    """Before, or after."""

    matrix: Matrix
    scenario: str


@dataclass(frozen=True)
class Change:
    """What changes for one origin; None for one without a geometry.

    Attributes
    ----------
    before, after
        Access.
    cut_off, slower, unchanged, faster, new
        Numbers of destinations. One that neither side reaches counts as unchanged.
    mean_seconds
        The mean change of the travel time to destinations that both sides reach, None if there are none.
    """

    before: float | None
    after: float | None
    cut_off: int = 0
    slower: int = 0
    unchanged: int = 0
    faster: int = 0
    new: int = 0
    mean_seconds: float | None = None
    reached_before: int = 0
    reached_after: int = 0

    @property
    def what(self) -> str:
        """The kind of the change: by access, and if that is the same, by travel times."""
        assert self.before is not None and self.after is not None
        if self.reached_before and not self.reached_after:
            return CUT_OFF
        if self.reached_after and not self.reached_before:
            return NEW
        if self.after != self.before:
            return GAINS if self.after > self.before else LOSES
        better, worse = self.faster + self.new, self.slower + self.cut_off
        return UNCHANGED if better == worse else GAINS if better > worse else LOSES

    def cells(self) -> list[Any]:
        """Return the attributes of an origin."""
        if self.before is None or self.after is None:
            return [None] * 11
        change = self.after - self.before
        percent = 100 * change / self.before if self.before else None
        counts = [self.cut_off, self.slower, self.unchanged, self.faster, self.new]
        return [self.before, self.after, change, percent, self.what, *counts, self.mean_seconds]


def change_of(
    before: Sequence[int | None], after: Sequence[int | None], tolerance: float, access: list[float]
) -> Change:
    """Compare the times of one origin to all destinations.

    Parameters
    ----------
    before, after
        Seconds, None if a destination is not reached.
    tolerance
        Seconds by which a travel time may differ and count as unchanged.
    access
        Before and after.
    """
    pairs = list(zip(before, after))
    both = [new - old for old, new in pairs if old is not None and new is not None]
    slower, faster = sum(d > tolerance for d in both), sum(-d > tolerance for d in both)
    cut, new = sum(n is None and o is not None for o, n in pairs), sum(o is None and n is not None for o, n in pairs)
    mean = sum(both) / len(both) if both else None
    counts = (cut, slower, len(pairs) - slower - faster - cut - new, faster, new)
    return Change(access[0], access[1], *counts, mean, len(both) + cut, len(both) + new)


def changes_of(
    sides: Sequence[Side], times: Times, ends: tuple[Places, Places], access: Sequence[Access], tolerance: float
) -> Iterator[Change]:
    """Yield the change of each origin, in their order."""
    origins = ends[0]
    before, after = (Rows(side.matrix, times, *ends, side.scenario).by_origin() for side in sides)
    by_name = [{key[0]: value for key, value in found.items()} for found in access]
    for (position, old), (_, new) in zip(before, after):
        if old is None or new is None:
            yield Change(None, None)
            continue
        name = f"{origins.prefix}{position + 1}"
        yield change_of(old[0], new[0], tolerance, [found[name] for found in by_name])
