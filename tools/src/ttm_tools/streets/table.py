"""Walking times between many places as a table of whole seconds, in two bytes each."""

from dataclasses import dataclass
from typing import Iterable, Iterator

import numpy as np
import numpy.typing as npt

from ..core.walking import Walking
from .counting import Places, TooManyWalks, Ways
from .router import Endpoints
from .street_walks import SnappedStops

NONE = 20_000  # seconds: longer than any walk, and the sum of three fits into two bytes
MOST_CELLS = 500_000_000  # so a table takes 1 GB at most
ROWS_AT_ONCE = 1024
Seconds = npt.NDArray[np.uint16]
Direct = Iterable[tuple[int, int, int]]  # from where, to where, seconds


@dataclass(frozen=True)
class WalkTable:
    """The least seconds of walking from some stops to some others, NONE where it takes longer than the limit."""

    begins: Places  # the stop of each row, ascending
    ends: Places  # the stop of each column, ascending
    seconds: Seconds
    limit: int

    def blocks(self) -> Iterator[tuple[slice, Seconds]]:
        """Some rows at a time."""
        for first in range(0, len(self.seconds), ROWS_AT_ONCE):
            rows = slice(first, first + ROWS_AT_ONCE)
            yield rows, self.seconds[rows]

    def put(self, ways: Iterable[Ways], walking: Walking) -> None:
        row, column = positions_in(self.begins), positions_in(self.ends)
        for one, other, metres in ways:
            seconds = walking.seconds(metres)
            np.minimum.at(self.seconds, (row[one], column[other]), seconds.astype(np.uint16))

    def put_direct(self, walks: Direct) -> set[int]:
        """Takes in walks of a feed that are shorter than those that are there; gives the stops that they join."""
        row, column, joined = positions_in(self.begins), positions_in(self.ends), set[int]()
        for one, other, seconds in walks:
            if one != other and seconds < self.seconds[row[one], column[other]]:
                self.seconds[row[one], column[other]] = seconds
                joined |= {one, other}
        return joined

    def chain(self, stops: Iterable[int]) -> None:
        """Makes each time the least of all chains of walks by way of some stops, and drops those past the limit."""
        row, column = positions_in(self.begins), positions_in(self.ends)
        for stop in sorted(stops):
            onward = self.seconds[row[stop]].copy()
            for _, block in self.blocks():
                np.minimum(block, block[:, column[stop], None] + onward, out=block)
        for _, block in self.blocks():
            block[block > self.limit] = NONE


def positions_in(stops: Places) -> Places:
    """The position of each stop among some, -1 of one that isn't among them."""
    positions = np.full(int(stops.max(initial=-1)) + 1, -1, np.int64)
    positions[stops] = np.arange(len(stops))
    return positions


def street_table(snapped: SnappedStops, endpoints: Endpoints) -> WalkTable:
    """The walks along streets from all stops that may be origins to all that may be destinations."""
    router, begins, others = snapped.router, np.flatnonzero(endpoints.origins), np.flatnonzero(endpoints.destinations)
    if len(begins) * len(others) > MOST_CELLS:
        text = f"{len(begins):,} times {len(others):,} walks are more than fit into the memory"
        raise TooManyWalks(router.streets.path, text, limit=MOST_CELLS)
    table = WalkTable(
        begins, others, np.full((len(begins), len(others)), NONE, np.uint16), int(router.walking.max_seconds)
    )
    stops = snapped.indices
    table.put(((stops[a], stops[b], metres) for a, b, metres in snapped.walks(endpoints)), router.walking)
    return table
