"""The columns of a matrix of `ttm`, in either form, as the header alone shows which it is.

    scenario,origin,access,A,B,C                         one share and one limit, which the matrix doesn't name
    scenario,origin,share,access_900,access_1800,A,B     a line for each share too, and for each limit (seconds) a
    column of access

Then each stop has a column: the travel time in seconds, empty where the share of departures doesn't reach it. A stop
may have any name, `origin` too, so columns are known by their places. In the second form up to eight columns with
ascending limits are access, and the stops follow.
"""

import re
from dataclasses import dataclass
from typing import Sequence

LIMIT = re.compile(r"access_(0|[1-9][0-9]{0,9})")  # seconds of 32 bits
MOST_LIMITS = 8


@dataclass(frozen=True)
class MatrixLayout:
    """What a header's columns are."""

    names_share: bool  # whether lines name a share
    limits: tuple[int | None, ...]  # of access, in seconds; None where it isn't named
    stops: list[str]

    @property
    def first_cell(self) -> int:
        """The place of the first stop's column."""
        return 2 + self.names_share + len(self.limits)

    @property
    def width(self) -> int:
        return self.first_cell + len(self.stops)

    @property
    def heads(self) -> list[str]:
        """The names of the columns before the stops."""
        if not self.names_share:
            return ["scenario", "origin", "access"]
        return ["scenario", "origin", "share", *[f"access_{limit}" for limit in self.limits]]


def layout_of(header: Sequence[str]) -> MatrixLayout | None:
    """The layout that a header shows, or None if it is not that of a matrix."""
    if list(header[:3]) == ["scenario", "origin", "access"]:
        return MatrixLayout(False, (None,), list(header[3:]))
    if list(header[:3]) != ["scenario", "origin", "share"]:
        return None
    limits: list[int] = []
    for name in header[3 : 3 + MOST_LIMITS]:
        limit = LIMIT.fullmatch(name)
        if not limit or limits and int(limit[1]) <= limits[-1]:
            break
        limits.append(int(limit[1]))
    return MatrixLayout(True, tuple(limits), list(header[3 + len(limits) :])) if limits else None
