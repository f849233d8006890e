"""Files of footpaths, written."""

from typing import BinaryIO, Sequence

import numpy as np

from ..core.arrays import Whole
from .columns import column_of, numbered
from .tables import Table, write_table


def write_footpaths(
    out: BinaryIO, ends: tuple[Whole, Whole], seconds: Whole, names: tuple[Sequence[str], Sequence[str]]
) -> None:
    """Write footpaths as `ttm` reads them.

    Parameters
    ----------
    ends, names
        Where the footpaths begin, and where they end: positions among the identifiers of stops.
    """
    begins, others = (column_of(own, places) for own, places in zip(names, ends))
    columns = {"from_stop_id": begins, "to_stop_id": others, "seconds": numbered(seconds, str)}
    write_table(Table("footpaths", columns, np.arange(len(seconds))), out)
