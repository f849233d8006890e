"""What a scenario changes, by origin and by pair."""

from collections.abc import Iterator
from typing import Any

import geopandas
import numpy as np
import numpy.typing as npt
import pandas

from ..core.question import Duration, seconds_given
from ..measures.comparison import kinds_of
from .chosen import MatrixPart

KINDS = ("cut_off", "slower", "new", "faster")  # in the order of `kinds_of`
WHAT = ("cut off", "slower", "new", "faster")
Pair = tuple[str, str | None]  # a scenario, and what it is compared with
Compared = tuple[int, npt.NDArray[np.int8], npt.NDArray[np.float32], npt.NDArray[np.float32]]


def compared(part: MatrixPart, pair: Pair, percentile: int | None, tolerance: Duration) -> Iterator[Compared]:
    """Yield the kinds of change of some origins, with the number of the first, and the seconds before and after."""
    before, one = part.one(pair[1], percentile)
    after, _ = part.one(pair[0], percentile)
    limit = seconds_given("tolerance", tolerance)
    for rows in part.blocks():
        first, second = part.seconds(before, one, rows), part.seconds(after, one, rows)
        yield rows.start, kinds_of(first, second, limit), first, second


def difference_frame(
    part: MatrixPart, pair: Pair, percentile: int | None, tolerance: Duration
) -> geopandas.GeoDataFrame:
    """Return what a scenario changes by origin: see `Matrix.difference`."""
    counts, means = list[Any](), list[Any]()
    for _, kinds, before, after in compared(part, pair, percentile, tolerance):
        counts.append(np.stack([np.count_nonzero(kinds == kind, axis=1) for kind in range(len(KINDS))], axis=1))
        change = after.astype(np.float64) - before
        both = np.count_nonzero(~np.isnan(change), axis=1)
        means.append(np.divide(np.nansum(change, axis=1), both, out=np.full(len(both), np.nan), where=both > 0))
    table = dict(zip(KINDS, np.concatenate(counts).astype(np.int64).T))
    table["unchanged"] = part.shape[3] - sum(table.values())
    ordered = {name: table[name] for name in ("cut_off", "slower", "unchanged", "faster", "new")}
    origins = part.origins
    columns = {"from_id": origins["id"].to_numpy(), **ordered, "mean_change": np.concatenate(means)}
    found = geopandas.GeoDataFrame(columns, geometry=origins.geometry.to_numpy(), crs=origins.crs)
    return found.set_index(origins.index)


def pairs_frame(part: MatrixPart, pair: Pair, percentile: int | None, tolerance: Duration) -> pandas.DataFrame:
    """Return the pairs that a scenario changes: see `Matrix.difference_by_pair`."""
    begins, ends, pieces = part.origins["id"].to_numpy(), part.destinations["id"].to_numpy(), list[Any]()
    for begin, kinds, first, second in compared(part, pair, percentile, tolerance):
        row, column = np.nonzero(kinds >= 0)
        before, after = (cells[row, column].astype(np.float64) for cells in (first, second))
        what = np.array(WHAT, dtype=object)[kinds[row, column]]
        columns = {"from_id": begins[row + begin], "to_id": ends[column], "what": what}
        pieces.append(pandas.DataFrame({**columns, "before": before, "after": after, "change": after - before}))
    return pandas.concat(pieces, ignore_index=True)
