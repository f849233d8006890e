"""What a matrix was made of, and which part of it is chosen."""

import itertools
from collections.abc import Iterator, Sequence
from dataclasses import dataclass, field
from functools import cached_property
from typing import TYPE_CHECKING, Any

import geopandas
import numpy as np
import numpy.typing as npt
import pandas

from ..core.errors import ArgumentError, InputError, needs
from ..core.notes import Note
from ..core.question import Question, not_allowed
from ..core.toml_values import near
from ..matrices.base import Matrix as Store

if TYPE_CHECKING:
    from xarray import DataArray

CELLS_AT_ONCE = 2_000_000
NO_PERCENTILE = 100  # what a matrix that names none is said to have


@dataclass(frozen=True)
class Context:
    """What a matrix was made of, apart from its cells."""

    origins: geopandas.GeoDataFrame
    destinations: geopandas.GeoDataFrame
    question: Question | None = None
    notes: tuple[Note, ...] = ()
    unreachable: tuple[tuple[int, ...], tuple[int, ...]] = ((), ())  # positions of origins and of destinations


@dataclass(frozen=True)
class Chosen:
    """Which part of a matrix is chosen."""

    scenarios: tuple[str, ...]
    percentiles: tuple[int, ...]
    rows: npt.NDArray[np.intp]
    columns: npt.NDArray[np.intp]
    width: int = field(default=0)

    @classmethod
    def all_of(cls, store: Store, context: Context) -> "Chosen":
        """Return all of a matrix, the base first."""
        base, compared = store.base, list(store.compared)
        scenarios = tuple([base, *(name for name in compared if name != base)] if base in compared else compared)
        percentiles = tuple(share or NO_PERCENTILE for share in store.shares)
        rows, columns = np.arange(len(context.origins)), np.arange(len(context.destinations))
        return cls(scenarios, percentiles, rows, columns, len(columns))

    @property
    def has_all_columns(self) -> bool:
        return len(self.columns) == self.width and bool((np.diff(self.columns) == 1).all())


@dataclass(frozen=True)
class MatrixPart:
    """The chosen part of a matrix: its cells, and the frames of its places."""

    store: Store
    context: Context
    chosen: Chosen

    @cached_property
    def origins(self) -> geopandas.GeoDataFrame:
        return self.context.origins.iloc[self.chosen.rows]

    @cached_property
    def destinations(self) -> geopandas.GeoDataFrame:
        return self.context.destinations.iloc[self.chosen.columns]

    @property
    def shape(self) -> tuple[int, int, int, int]:
        chosen = self.chosen
        return len(chosen.scenarios), len(chosen.percentiles), len(chosen.rows), len(chosen.columns)

    def keys(self) -> Iterator[tuple[str, int]]:
        """Yield each scenario with each percentile."""
        return itertools.product(self.chosen.scenarios, self.chosen.percentiles)

    def seconds(self, scenario: str, percentile: int, rows: slice = slice(None)) -> npt.NDArray[np.float32]:
        """Return some rows of a scenario and a percentile."""
        share = percentile if self.store.layout.names_share else None
        found: npt.NDArray[np.float32] = self.store.rows_at(scenario, share, self.chosen.rows[rows])
        return found if self.chosen.has_all_columns else found[:, self.chosen.columns]

    def one(self, scenario: str | None, percentile: int | None) -> tuple[str, int]:
        """Return a scenario, by default the base, and a percentile, which must be named if there are several."""
        scenarios, percentiles = self.chosen.scenarios, self.chosen.percentiles
        named = scenario or (self.store.base if self.store.base in scenarios else scenarios[0])
        if named not in scenarios:
            raise not_allowed("scenario", named, ", ".join(scenarios))
        if percentile is None and len(percentiles) > 1:
            raise ArgumentError(f"percentile must be named; allowed: {', '.join(map(str, percentiles))}")
        chosen = percentiles[0] if percentile is None else percentile
        if chosen not in percentiles:
            raise not_allowed("percentile", chosen, ", ".join(map(str, percentiles)))
        return named, chosen

    def blocks(self, rows: int | None = None) -> Iterator[slice]:
        """Yield slices of the origins, so many at a time that their cells take little memory."""
        step = rows or max(1, CELLS_AT_ONCE // max(1, self.shape[0] * self.shape[1] * self.shape[3]))
        return (slice(begin, begin + step) for begin in range(0, self.shape[2], step))

    def unreachable(self) -> tuple[tuple[int, ...], tuple[int, ...]]:
        """Return the positions of unreachable places among those that are chosen."""
        first, second = self.context.unreachable
        rows, columns = self.chosen.rows, self.chosen.columns
        return tuple(np.flatnonzero(np.isin(rows, first))), tuple(np.flatnonzero(np.isin(columns, second)))

    def long(self, key: tuple[str, int], rows: slice, unit: str, unreached: bool) -> pandas.DataFrame:
        """Return some origins of a scenario and a percentile, a row for each pair."""
        seconds = self.seconds(*key, rows).astype(np.float64).ravel()
        begins, ends = self.origins["id"].to_numpy()[rows], self.destinations["id"].to_numpy()
        columns = {"from_id": np.repeat(begins, len(ends)), "to_id": np.tile(ends, len(begins))}
        values = seconds if unit == "seconds" else seconds / 60
        frame = pandas.DataFrame({"scenario": key[0], "percentile": key[1], **columns, unit: values})
        return frame if unreached else frame[frame[unit].notna()].reset_index(drop=True)

    def cells(self, rows: slice) -> npt.NDArray[np.float32]:
        """Return some origins of all scenarios and percentiles, in four dimensions; not writeable."""
        chosen, cells = self.chosen, [self.seconds(*key, rows) for key in self.keys()]
        shape = len(chosen.scenarios), len(chosen.percentiles), *cells[0].shape
        seconds = cells[0].reshape(shape) if len(cells) == 1 else np.stack(cells).reshape(shape)
        seconds.flags.writeable = False
        return seconds

    def array(self, rows: slice) -> "DataArray":
        """Return some origins as an array of xarray."""
        needs("xarray")
        from xarray import DataArray

        chosen, seconds = self.chosen, self.cells(rows)
        ids = {"from_id": self.origins["id"].to_numpy()[rows], "to_id": self.destinations["id"].to_numpy()}
        coordinates = {"scenario": list(chosen.scenarios), "percentile": list(chosen.percentiles), **ids}
        return DataArray(seconds, coordinates, list(coordinates), name="seconds", attrs={"units": "s"})


def picked(name: str, wanted: Any, known: Sequence[Any]) -> tuple[Any, ...]:
    """Return the labels that are wanted, in the matrix's order."""
    listed = [wanted] if isinstance(wanted, (str, int)) else list(wanted)
    for one in listed:
        if one not in known:
            raise not_allowed(name, one, ", ".join(map(str, known)))
    return tuple(one for one in known if one in listed)


def positions(name: str, wanted: Any, known: pandas.Series) -> npt.NDArray[np.intp]:
    """Return where labels stand among identifiers, in the order in which they are wanted."""
    is_one = isinstance(wanted, (str, bytes)) or not hasattr(wanted, "__iter__")
    listed = [wanted] if is_one else list(wanted)
    index = pandas.Index(known)
    found: npt.NDArray[np.intp] = index.get_indexer(pandas.Index(listed))
    if (found < 0).any():
        lost = listed[int(np.argmax(found < 0))]
        raise InputError(name, f"is not in the matrix{near(str(lost), map(str, index))}", value=str(lost))
    return found
