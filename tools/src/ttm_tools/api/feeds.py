"""Feeds: all their errors, and feeds ready for the engine."""

from collections.abc import Sequence
from os import PathLike, fspath
from pathlib import Path

import geopandas
import numpy as np
import pandas

from ..core.columns import ERRORS, names_of
from ..core.errors import InputError
from ..core.folders import scratch
from ..core.question import Date, checked_date
from ..core.times import day_of
from ..gtfs.check import check
from ..gtfs.fault_report import fault_rows
from ..gtfs.feeds import read_feed
from ..prepare.clip import Clip
from ..prepare.make import PrepareOptions, make
from .feed_frames import read_repairs
from .frames import DEGREES

PathLikeStr = str | PathLike[str]


def check_feed(gtfs: PathLikeStr) -> pandas.DataFrame:
    """All errors for which the engine would refuse a feed: file, record, column, value, error, allowed."""
    with scratch("feed") as room:
        found = list(fault_rows(check(read_feed(fspath(gtfs), room))))
    table = pandas.DataFrame(found, columns=names_of(ERRORS)).rename(columns={"fault": "error"})
    return table.assign(record=pandas.to_numeric(table["record"]).astype(np.float64))


def prepare_feed(
    gtfs: PathLikeStr | Sequence[PathLikeStr],
    out: PathLikeStr,
    *,
    repair: bool = True,
    area: geopandas.GeoDataFrame | None = None,
    routes: Sequence[str] = (),
    agencies: Sequence[str] = (),
    dates: Sequence[Date] = (),
    allow_loss: bool = False,
) -> pandas.DataFrame:
    """Merge, repair and clip feeds into the folder `out`; returns the repairs, as `Network.repairs`."""
    paths = [fspath(gtfs)] if isinstance(gtfs, (str, PathLike)) else [fspath(path) for path in gtfs]
    days = [day_of(checked_date(day)) for day in dates]
    with scratch("feed") as room:
        clip = Clip(None, None if area is None else area_file(area, room), list(routes), list(agencies), days)
        make(PrepareOptions(paths, fspath(out), repair, clip, allow_loss), room)
    return read_repairs(Path(out))


def area_file(area: geopandas.GeoDataFrame, room: Path) -> str:
    """Write an area for clipping; returns the file."""
    if area.crs is None:
        raise InputError("area", "names no coordinate reference system; set it with .set_crs(..)")
    path = room / "area.geojson"
    area[[area.geometry.name]].to_crs(DEGREES).to_file(path, driver="GeoJSON")
    return str(path)
