"""Who loses and who wins between two scenarios of a matrix, by pair of stops and by origin.

A pair differs where its travel time is more than a limit away from the base's: slower or faster. `cut off` is who got
there in the base and doesn't in the scenario, `new` who does only there: these have no change, and count whatever the
limit is. An origin loses or gains by its access, as `Sides` says.
"""

from dataclasses import dataclass
from typing import Any, Iterable

import numpy as np
import numpy.typing as npt

from ..core.arrays import Places, Seconds, Sums

KINDS = ["cut off", "slower", "new", "faster"]  # in the order of a table
CUT_OFF, SLOWER, NEW, FASTER = range(4)
LOSS, GAIN, RELATIVE = "loss", "gain", "relative"  # ways to sort other than losers first and then winners, by size
LEAST_OF_DECIMALS = 5e-7  # tables have six decimals
RANKS = {LOSS: [0, 1, 3, 2], GAIN: [3, 2, 0, 1]}  # of KINDS


@dataclass(frozen=True)
class Changes:
    """The pairs that differ: places of origins and destinations, what became of them, and travel times in seconds, NaN
    where there are none.
    """

    origin: npt.NDArray[np.int32]
    destination: npt.NDArray[np.int32]
    kind: npt.NDArray[np.int8]
    before: Seconds
    after: Seconds

    def __len__(self) -> int:
        return len(self.origin)


@dataclass(frozen=True)
class Comparison:
    """How two scenarios differ: for each origin to how many stops it is cut off, slower, new and faster; and the pairs,
    where kept.
    """

    counts: npt.NDArray[np.int64]  # a row for each origin, a column for each of KINDS
    changes: Changes


@dataclass(frozen=True)
class Sides:
    """Which origins lose access and which gain some, however little: the one definition for maps, page, report and
    tables.
    """

    lose: npt.NDArray[np.bool_]  # less than before
    gain: npt.NDArray[np.bool_]  # more than before
    cut_off: npt.NDArray[np.bool_]  # of those that lose: something before, and nothing now
    newly_reached: npt.NDArray[np.bool_]  # of those that gain: nothing before, and something now

    def sentence(self) -> str:
        """How many there are of each."""
        lose, gain, cut, new = (int(kind.sum()) for kind in (self.lose, self.gain, self.cut_off, self.newly_reached))
        all_of_it = f" ({cut:,} of them cut off)" if cut else ""
        from_nothing = f" ({new:,} of them newly reached)" if new else ""
        return f"{lose:,} lose{'s' * (lose == 1)}{all_of_it}, {gain:,} gain{'s' * (gain == 1)}{from_nothing}"


def least_change(*sums: Sums) -> float:
    """Returns the least change of access that counts: however little it is, but for errors of floating point."""
    return LEAST_OF_DECIMALS if any(numbers.dtype.kind == "f" for numbers in sums) else 1


def sides_of(before: Sums, after: Sums, least: float | None = None) -> Sides:
    """The sides of origins with this access before and after; a change below the least counts for none."""
    least = least_change(before, after) if least is None else least
    lose, gain = before - after >= least, after - before >= least
    return Sides(lose, gain, lose & (after == 0), gain & (before == 0))


def kinds_of(before: Seconds, after: Seconds, limit: float) -> npt.NDArray[np.int8]:
    """What became of each cell: a place among KINDS, -1 where it differs by no more than the limit, in seconds."""
    gone, new = np.isnan(after), np.isnan(before)
    later = after - before
    kinds = np.full(before.shape, -1, np.int8)
    kinds[later > limit] = SLOWER
    kinds[later < -limit] = FASTER
    kinds[gone & ~new] = CUT_OFF
    kinds[new & ~gone] = NEW
    return kinds


def compare(blocks: Iterable[tuple[int, Seconds, Seconds]], limit: float, with_pairs: bool) -> Comparison:
    """Compares travel times before and after, some origins at a time.

    Parameters
    ----------
    blocks
        The index of the first origin, and the travel times of some origins in the base and in the scenario, as
        `Pair.blocks` yields them.
    limit
        Seconds: a smaller change counts for none.
    with_pairs
        Whether the pairs that differ are returned, at 17 bytes for each, and as many again while they are sorted.
    """
    counts = [np.zeros((0, len(KINDS)), np.int64)]
    none = np.zeros((0, 0), np.float32)
    found = [[column] for column in columns_of(0, none, none, np.zeros((0, 0), np.int8))]
    for begin, before, after in blocks:
        kinds = kinds_of(before, after, limit)
        counts.append(np.stack([np.count_nonzero(kinds == kind, axis=1) for kind in range(len(KINDS))], axis=1))
        for column, piece in zip(found, columns_of(begin, before, after, kinds) if with_pairs else ()):
            column.append(piece)
    return Comparison(np.concatenate(counts), Changes(*map(put_together, found)))


def put_together(pieces: list[npt.NDArray[Any]]) -> npt.NDArray[Any]:
    """A column of its pieces, which are dropped."""
    column: npt.NDArray[Any] = np.concatenate(pieces)
    pieces.clear()
    return column


def columns_of(begin: int, before: Seconds, after: Seconds, kinds: npt.NDArray[np.int8]) -> list[npt.NDArray[Any]]:
    """The columns of `Changes` for some rows, the first of them at a place among the origins."""
    row, column = np.nonzero(kinds >= 0)
    ends = [(row + begin).astype(np.int32), column.astype(np.int32)]
    return [*ends, kinds[row, column], before[row, column], after[row, column]]


def order_of(changes: Changes, sort: str | None = None) -> Places:
    """Losers first: those cut off, then the slower, the greatest change first; then new connections, then the faster,
    the greatest change first. Sorted by gain new connections and the faster come first, and those cut off last; by loss
    the faster come before new connections; by both, the least change comes last of what is first, and first of what is
    last; relative, each by its part of the travel time before.
    """
    if sort is None:
        size = np.nan_to_num(np.abs(changes.after - changes.before)).astype(np.int32)
        key = (changes.kind.astype(np.int32) << 25) + ((1 << 24) - size)
        return np.argsort(key, kind="stable")
    change = np.nan_to_num(changes.after.astype(np.float64) - changes.before)
    if sort == RELATIVE:
        part = np.abs(change) / np.maximum(np.nan_to_num(changes.before.astype(np.float64)), 1)
        keys = [-part, changes.kind]
    else:
        keys = [-change if sort == LOSS else change, np.array(RANKS[sort])[changes.kind]]
    order: Places = np.lexsort(keys)
    return order


def sorted_origins(first: Sums, second: Sums, sort: str) -> Places:
    """Origins by their change of access: the greatest loss or gain first, or by its part of the access before, losers
    first and then winners.
    """
    change = (second - first).astype(np.float64)
    if sort != RELATIVE:
        return np.argsort(change if sort == LOSS else -change, kind="stable")
    part = np.abs(change) / np.where(first > 0, first, np.where(change == 0, 1, 1e-300))
    order: Places = np.lexsort([-part, rank_of(change)])
    return order


def rank_of(change: npt.NDArray[Any]) -> npt.NDArray[Any]:
    """Losers before winners before the others."""
    return np.select([change < 0, change > 0], [0, 1], 2)


def order_of_origins(change: Sums, counts: npt.NDArray[np.int64]) -> Places:
    """Losers of access first, then its winners, each by the size of the change; then who has the same access, those cut
    off from most first.
    """
    order: Places = np.lexsort([-counts[:, SLOWER], -counts[:, CUT_OFF], -np.abs(change), rank_of(change)])
    return order
