"""Matrices of travel times between places, and what follows from them."""

from collections.abc import Iterator, Sequence
from dataclasses import replace
from os import PathLike
from typing import TYPE_CHECKING, Literal

import geopandas
import numpy as np
import numpy.typing as npt
import pandas

from ..core.errors import needs
from ..core.files import atomic_path
from ..core.notes import Note
from ..core.question import Duration, Question, not_allowed
from ..core.text import quantity
from ..matrices.array_matrix import ArrayMatrix
from ..matrices.base import Matrix as Store
from ..matrices.omx import write_open_matrix
from .chosen import Chosen, Context, MatrixPart, picked, positions
from .decay import Decay
from .differences import difference_frame, pairs_frame
from .omx_places import write_places_of
from .opportunities import Counted, access_frame, competition_frame, nearest_frame, ties_frame
from .pages import WRITE_PAGE, SavedPage, call

if TYPE_CHECKING:
    from xarray import DataArray

Labels = str | int | Sequence[str] | Sequence[int]
PathLikeStr = str | PathLike[str]


class Matrix:
    """Seconds by scenario, percentile, origin and destination. It never changes; its arrays are read-only.

    In memory after `Network.matrix`; read in blocks after `open_matrix`. ``len`` and iteration are left out on
    purpose: use `long`, `wide`, `to_xarray` or `blocks`.
    """

    def __init__(self, store: Store, context: Context, chosen: Chosen | None = None) -> None:
        self._part = MatrixPart(store, context, chosen or Chosen.all_of(store, context))

    @property
    def scenarios(self) -> tuple[str, ...]:
        """Names, `base` first."""
        return self._part.chosen.scenarios

    @property
    def base(self) -> str:
        """What others are compared with: ``today``, or ``base`` in a file of an engine's run with scenario files."""
        return self._part.store.base

    @property
    def percentiles(self) -> tuple[int, ...]:
        """Ascending."""
        return self._part.chosen.percentiles

    @property
    def origins(self) -> geopandas.GeoDataFrame:
        """The frame that was asked with, or a frame of the feed's stops."""
        return self._part.origins.copy()

    @property
    def destinations(self) -> geopandas.GeoDataFrame:
        """Likewise."""
        return self._part.destinations.copy()

    @property
    def shape(self) -> tuple[int, int, int, int]:
        """Number of scenarios, percentiles, origins and destinations."""
        return self._part.shape

    @property
    def question(self) -> Question | None:
        """What was asked; None for a file that doesn't say."""
        return self._part.context.question

    @property
    def notes(self) -> tuple[Note, ...]:
        """What the engine and the preparation of walks warned of."""
        return self._part.context.notes

    @property
    def unreachable(self) -> tuple[pandas.Index, pandas.Index]:
        """Identifiers of the origins and of the destinations without a stop within `max_walk`."""
        part = self._part
        pairs = zip((part.origins, part.destinations), part.unreachable())
        first, second = (pandas.Index(frame["id"].iloc[list(places)]) for frame, places in pairs)
        return first, second

    def sel(
        self,
        *,
        scenario: str | Sequence[str] | None = None,
        percentile: int | Sequence[int] | None = None,
        from_id: Labels | None = None,
        to_id: Labels | None = None,
    ) -> "Matrix":
        """Part of the matrix by labels, as in xarray; dimensions of length one stay."""
        part, chosen = self._part, self._part.chosen
        if scenario is not None:
            chosen = replace(chosen, scenarios=picked("scenario", scenario, chosen.scenarios))
        if percentile is not None:
            chosen = replace(chosen, percentiles=picked("percentile", percentile, chosen.percentiles))
        if from_id is not None:
            chosen = replace(chosen, rows=chosen.rows[positions("from_id", from_id, part.origins["id"])])
        if to_id is not None:
            chosen = replace(chosen, columns=chosen.columns[positions("to_id", to_id, part.destinations["id"])])
        return Matrix(part.store, part.context, chosen)

    def wide(self, scenario: str | None = None, percentile: int | None = None) -> pandas.DataFrame:
        """Origins as rows and destinations as columns, float64 seconds, NaN if not reached.

        The scenario is `base` unless named; the percentile must be named if there are several.
        """
        part = self._part
        seconds = part.seconds(*part.one(scenario, percentile)).astype(np.float64)
        rows, columns = pandas.Index(part.origins["id"]), pandas.Index(part.destinations["id"])
        return pandas.DataFrame(seconds, index=rows.rename("from_id"), columns=columns.rename("to_id"))

    def long(self, *, unit: Literal["seconds", "minutes"] = "seconds", unreached: bool = True) -> pandas.DataFrame:
        """Columns scenario, percentile, from_id, to_id, and `unit` (float64; minutes aren't rounded).

        ``unreached=False`` leaves out pairs without a travel time.
        """
        if unit not in ("seconds", "minutes"):
            raise not_allowed("unit", unit, "'seconds' or 'minutes'")
        frames = [self._part.long(key, slice(None), unit, unreached) for key in self._part.keys()]
        return pandas.concat(frames, ignore_index=True)

    def to_xarray(self) -> "DataArray":
        """float32, dims scenario, percentile, from_id, to_id; ``attrs["units"]`` is "s". Doesn't copy."""
        return self._part.array(slice(None))

    def blocks(self, rows: int | None = None) -> Iterator["DataArray"]:
        """The same, some origins at a time."""
        return map(self._part.array, self._part.blocks(rows))

    def load(self) -> "Matrix":
        """The matrix in memory."""
        part = self._part
        arrays = {key: np.array(part.seconds(*key)) for key in part.keys()}
        begins, ends = ([str(name) for name in frame["id"]] for frame in (part.origins, part.destinations))
        context = replace(part.context, origins=part.origins, destinations=part.destinations)
        return Matrix(ArrayMatrix(begins, ends, arrays), replace(context, unreachable=part.unreachable()))

    def reaching(
        self, to_id: str | int, *, scenario: str | None = None, percentile: int | None = None
    ) -> geopandas.GeoDataFrame:
        """All origins with their `seconds` to one destination: its catchment. Has the origins' index and columns."""
        part = self.sel(to_id=to_id)._part
        return self.origins.assign(seconds=part.seconds(*part.one(scenario, percentile))[:, 0].astype(np.float64))

    def reached_from(
        self, from_id: str | int, *, scenario: str | None = None, percentile: int | None = None
    ) -> geopandas.GeoDataFrame:
        """All destinations with the `seconds` from one origin. Has the destinations' index and columns."""
        part = self.sel(from_id=from_id)._part
        return self.destinations.assign(seconds=part.seconds(*part.one(scenario, percentile))[0].astype(np.float64))

    def nearest(
        self, opportunity: str | None = None, count: int = 1, *, counted: Counted = "opportunities"
    ) -> geopandas.GeoDataFrame:
        """Time to the nearest destination, or until `count` of an opportunity are reached.

        With `counted="places"` each destination with any of it counts once: 2 is the second nearest hospital, whatever
        its beds. Without an opportunity each destination counts once.

        Returns
        -------
        GeoDataFrame
            scenario, percentile, from_id, opportunity, counted, count, to_id (the destination that completes the
            count, of several at the same time the first), seconds, ties (how many others have this time), geometry.
        """
        return nearest_frame(self._part, opportunity, count, counted)

    def nearest_ties(
        self, opportunity: str | None = None, count: int = 1, *, counted: Counted = "opportunities"
    ) -> geopandas.GeoDataFrame:
        """All destinations that complete a count at the same time, where several do: columns of `nearest`, no ties."""
        return ties_frame(self._part, opportunity, count, counted)

    def access(
        self, opportunities: str | Sequence[str], minutes: Sequence[float], *, decay: Decay = Decay()
    ) -> geopandas.GeoDataFrame:
        """Opportunities reached by each origin; `opportunities` are numeric columns of the destinations.

        Returns
        -------
        GeoDataFrame
            scenario, percentile, from_id, opportunity, minutes, access (float64), geometry.
        """
        return access_frame(self._part, opportunities, minutes, decay)

    def competition(
        self,
        supply: str,
        demand: str,
        minutes: Sequence[float],
        *,
        method: Literal["floating", "balanced", "availability"] = "floating",
        decay: Decay = Decay(),
    ) -> geopandas.GeoDataFrame:
        """Access if people compete; `supply` is a column of the destinations, `demand` of the origins."""
        return competition_frame(self._part, (supply, demand), minutes, method, decay)

    def difference(
        self, scenario: str, base: str | None = None, *, percentile: int | None = None, tolerance: Duration = "0 s"
    ) -> geopandas.GeoDataFrame:
        """What a scenario changes, by origin, with the origins' index.

        Returns
        -------
        GeoDataFrame
            from_id; cut_off, slower, unchanged, faster, new (int64, destinations; a change up to `tolerance` is none);
            mean_change (float64, seconds, of destinations that both reach); geometry.
        """
        return difference_frame(self._part, (scenario, base), percentile, tolerance)

    def difference_by_pair(
        self, scenario: str, base: str | None = None, *, percentile: int | None = None, tolerance: Duration = "0 s"
    ) -> pandas.DataFrame:
        """Pairs that change: from_id, to_id, what (cut off, slower, faster, new), before, after, change (seconds)."""
        return pairs_frame(self._part, (scenario, base), percentile, tolerance)

    def to_omx(self, path: PathLikeStr) -> None:
        """Write an Open Matrix file with places, question and notes, from which `open_matrix` restores all."""
        part = self.load()._part
        with atomic_path(str(path)) as aside:
            write_open_matrix(part.store, str(aside))
            write_places_of(str(aside), part.context)

    def to_csv(self, path: PathLikeStr, *, unreached: bool = True) -> None:
        """Write `long`, in blocks."""
        with atomic_path(str(path)) as aside, open(aside, "w", encoding="utf-8", newline="") as out:
            for number, frame in enumerate(self._long_blocks(unreached)):
                frame.to_csv(out, index=False, header=number == 0, lineterminator="\n", float_format="%.0f")

    def to_parquet(self, path: PathLikeStr, *, unreached: bool = True) -> None:
        """Write `long`, in blocks. Needs pyarrow."""
        needs("pyarrow")
        import pyarrow
        from pyarrow import parquet

        with atomic_path(str(path)) as aside:
            writer = None
            for frame in self._long_blocks(unreached):
                table = pyarrow.Table.from_pandas(frame, preserve_index=False)
                writer = writer or parquet.ParquetWriter(str(aside), table.schema)
                writer.write_table(table)
            if writer is not None:
                writer.close()

    def to_html(self, path: PathLikeStr, *, title: str = "", opportunities: Sequence[str] = ()) -> SavedPage:
        """Write an interactive page, one file that needs no network.

        Parameters
        ----------
        path
            The file.
        title
            The title of the page.
        opportunities
            Numeric columns of the destinations, which the page counts.

        Returns
        -------
        SavedPage
            The page by its `path`. A notebook shows it inline.
        """
        saved: SavedPage = call(WRITE_PAGE, self._part, path, title, opportunities)
        return saved

    def _long_blocks(self, unreached: bool) -> Iterator[pandas.DataFrame]:
        for key in self._part.keys():
            for rows in self._part.blocks():
                yield self._part.long(key, rows, "seconds", unreached)

    def _repr_html_(self) -> str:
        from html import escape

        scenarios, percentiles, rows, columns = self.shape
        named = ", ".join(map(escape, self.scenarios))
        percents = ", ".join(map(str, self.percentiles))
        sizes = f"{quantity(rows, 'origin')}, {quantity(columns, 'destination')}"
        return f"<p>Travel times: {sizes}; scenarios {named}; percentiles {percents}</p>"

    def __repr__(self) -> str:
        return f"<Matrix {' x '.join(map(str, self.shape))}: {', '.join(self.scenarios)}>"

    def __array__(self, dtype: npt.DTypeLike | None = None) -> npt.NDArray[np.float32]:
        found = self._part.cells(slice(None))
        return found if dtype is None else found.astype(dtype)
