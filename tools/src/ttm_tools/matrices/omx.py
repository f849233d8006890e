"""Matrices as Open Matrix files (OMX, version 0.2): HDF5 files that AequilibraE, Visum, Emme and TransCAD load.

`data` has a matrix for each scenario and share, in seconds, NaN where a stop isn't reached, with the attributes
`scenario`, `share` and `place` (of the matrix among all). `lookup` has the identifiers of origins and destinations
(bytes of UTF-8), and their numbers from 1 on for programs whose zones are numbers. `access` has sums: for
each matrix a row for each origin and a column for each limit, which the attribute `limits` of the file names in
seconds. They are int64, or float64 if the counts have decimals. All have one list of origins, as the format wants one
shape.
"""

from pathlib import Path
from typing import Any, Sequence

import numpy as np
import numpy.typing as npt

from ..core import progress
from ..core.arrays import Seconds, Sums
from ..core.errors import InputError, needs
from ..core.files import atomic_path
from ..core.reading import as_one_line, regular
from ..core.threads import map_in_order, processors
from .base import Matrix, Share, lacking
from .chunks import LEVEL, packed, rows_of
from .layout import MatrixLayout
from .omx_checks import SHARES, checked_cells, limits_of, refuse_shapes, refuse_twice

SIGNATURE = b"\x89HDF\r\n\x1a\n"
CELLS_OF_A_CHUNK = 1 << 18


def encoded(names: Sequence[str]) -> npt.NDArray[np.bytes_]:
    return np.array([name.encode("utf-8", "surrogateescape") for name in names] or [b""], dtype=np.bytes_)[: len(names)]


def decoded(names: Any) -> list[str]:
    """Texts as this module, or another program, wrote them."""
    return [name.decode("utf-8", "surrogateescape") if isinstance(name, bytes) else str(name) for name in names]


def names_of(keys: Sequence[tuple[str, Share]]) -> dict[tuple[str, Share], str]:
    """The names of matrices in the file, no two alike."""
    names: dict[tuple[str, Share], str] = {}
    for scenario, share in keys:
        name = scenario.replace("/", "_").replace("\0", "_") + ("" if share is None else f"_{share}")
        name = name.lstrip(".") or "_"
        while name in names.values():
            name += "_"
        names[scenario, share] = name
    return names


def write_open_matrix(matrix: Matrix, path: str, threads: int | None = None) -> None:
    """Writes a matrix, a few rows at a time, which several threads read and compress: one on each processor where
    their number isn't said.
    """
    needs("h5py")
    import h5py

    if not matrix.stops:
        message = "has no columns, as after a run whose --destinations has only a header: there is nothing to write"
        raise InputError(matrix.path, message)
    layouts = [(scenario, share) for scenario in matrix.compared for share in matrix.shares]
    first = matrix.origins(*layouts[0])
    for scenario, share in layouts:
        names = matrix.origins(scenario, share)
        if names != first:
            what = f"{scenario}, percentile {share}" if share is not None else scenario
            lost = lacking((layouts[0][0], first), (what, names)) or f"{what} has them in another order"
            raise InputError(matrix.path, f"an Open Matrix file has one list of origins: {lost}")
    refuse_twice(first, "origin", matrix.path)
    refuse_twice(matrix.stops, "destination", matrix.path)
    with atomic_path(path) as aside, h5py.File(aside, "w") as file:
        file.attrs["OMX_VERSION"] = np.bytes_(b"0.2")
        file.attrs["SHAPE"] = np.array([len(first), len(matrix.stops)], np.int32)
        if matrix.layout.names_share:
            file.attrs["limits"] = np.array(matrix.layout.limits, np.int64)
        write_lookups(ordered_group(file, "lookup"), first, matrix.stops)
        data, access = file.create_group("data"), file.create_group("access")
        for place, (key, name) in enumerate(names_of(layouts).items()):
            made_data = make_data(data, matrix, key, name, place)
            fill_data(made_data, matrix, key, threads or processors())
            access.create_dataset(name, data=matrix.access(*key))


def ordered_group(file: Any, name: str) -> Any:
    """Creates a group that lists its members in the order of their creation. It stores no time, so that the same
    matrix gives the same bytes.
    """
    import h5py

    how = h5py.h5p.create(h5py.h5p.GROUP_CREATE)
    how.set_link_creation_order(h5py.h5p.CRT_ORDER_TRACKED | h5py.h5p.CRT_ORDER_INDEXED)
    how.set_obj_track_times(False)
    return h5py.Group(h5py.h5g.create(file.id, name.encode("ascii"), gcpl=how))


def write_lookups(group: Any, origins: Sequence[str], stops: Sequence[str]) -> None:
    """Writes the numbers of origins (DIM 0, the rows) and destinations (DIM 1), and then their identifiers."""
    ends = (("origin", origins), ("destination", stops))
    numbers = [(f"{name}_number", np.arange(1, len(names) + 1, dtype=np.int32)) for name, names in ends]
    for place, (name, data) in enumerate([*numbers, *((name, encoded(names)) for name, names in ends)]):
        group.create_dataset(name, data=data).attrs["DIM"] = np.int32(place % 2)


def make_data(group: Any, matrix: Matrix, key: tuple[str, Share], name: str, place: int) -> Any:
    """Makes the room for the travel times of a scenario and a share, in chunks of whole rows."""
    scenario, share = key
    shape = (len(matrix.origins(scenario, share)), len(matrix.stops))
    rows = max(1, min(shape[0], CELLS_OF_A_CHUNK // max(1, shape[1])))
    how = {"chunks": (rows, shape[1]), "compression": "gzip", "compression_opts": LEVEL, "shuffle": True}
    data = group.create_dataset(name, shape=shape, dtype="<f4", **(how if all(shape) else {}))
    data.attrs["place"] = place
    data.attrs["NA"] = np.float32(np.nan)
    data.attrs["scenario"] = np.bytes_(scenario.encode("utf-8", "surrogateescape"))
    if share is not None:
        data.attrs["share"] = share
    return data


def fill_data(data: Any, matrix: Matrix, key: tuple[str, Share], threads: int) -> None:
    """Writes the travel times of a scenario and a share, a chunk at a time."""
    if data.chunks is None:
        return
    count, rows = data.shape[0], data.chunks[0]
    begins = range(0, count, rows)

    def chunk_from(begin: int) -> bytes:
        return packed(padded(matrix, key, range(begin, min(begin + rows, count)), rows))

    chunks = map_in_order(chunk_from, begins, threads)
    for begin, chunk in zip(begins, progress.track(chunks, len(begins), f"{key[0]} {key[1] or ''}", "blocks")):
        data.id.write_direct_chunk((begin, 0), chunk)


def padded(matrix: Matrix, key: tuple[str, Share], rows: range, room: int) -> Seconds:
    """Some rows of a scenario and a share, and zeros behind them up to this number."""
    cells = np.zeros((room, len(matrix.stops)), np.float32)
    for first in rows[:: matrix.rows_at_once()]:
        last = min(first + matrix.rows_at_once(), rows.stop)
        cells[first - rows.start : last - rows.start] = matrix.rows(*key, first, last)
    return cells


class OpenMatrix(Matrix):
    """A matrix from an Open Matrix file that `ttm-tools omx` wrote."""

    def __init__(self, path: str) -> None:
        needs("h5py")
        import h5py

        self.path = path
        regular(path)
        self.names: dict[tuple[str, Share], str] = {}
        with as_one_line(path, "not a complete HDF5 file"):
            self.file: Any = h5py.File(path, "r")
            refuse_shapes(self.file, path)
            for name, data in sorted(self.file["data"].items(), key=lambda item: int(item[1].attrs.get("place", 0))):
                self.take(name, data.attrs["scenario"], data.attrs.get("share"))
            self.read_layout()

    def take(self, name: str, scenario: Any, share: Any) -> None:
        """Takes a matrix of the file by its scenario and share."""
        if not isinstance(scenario, (bytes, str)):
            raise InputError(self.path, f"matrix {name} names no scenario")
        key = decoded([scenario])[0], None if share is None else int(share)
        if not key[0] or share is not None and int(share) not in SHARES:
            raise InputError(self.path, f"matrix {name} names no scenario, or a percentile that isn't 1 to 100")
        if key in self.names:
            raise InputError(self.path, f"matrix {name} has the scenario and percentile of {self.names[key]}")
        self.names[key] = name

    def read_layout(self) -> None:
        """Takes the layout, and the order of scenarios, from what was read."""
        if not self.names:
            raise InputError(self.path, "no matrices")
        lookup = self.file["lookup"]
        self.origin_names, stops = decoded(lookup["origin"][:]), decoded(lookup["destination"][:])
        refuse_twice(self.origin_names, "origin", self.path)
        refuse_twice(stops, "destination", self.path)
        named = None not in {share for _, share in self.names}
        self.layout = MatrixLayout(named, limits_of(self.file, self.path), stops)
        self.scenarios = list(dict.fromkeys(scenario for scenario, _ in self.names))
        self.shares = sorted({share for _, share in self.names}, key=lambda share: share or 0)
        if len(self.names) < len(self.scenarios) * len(self.shares):
            raise InputError(self.path, "not all scenarios have the same percentiles")
        for key in self.names:
            self.access(*key)

    def origins(self, scenario: str, share: Share) -> list[str]:
        return self.origin_names if (scenario, share) in self.names else []

    def access(self, scenario: str, share: Share) -> Sums:
        name = self.names[scenario, share]
        with as_one_line(self.path, f"access of {name} can't be read"):
            counts: Sums = self.file["access"][name][:]
        counts = counts.astype(np.float64 if counts.dtype.kind == "f" else np.int64)
        if not ((counts >= 0) & np.isfinite(counts)).all():
            raise InputError(self.path, f"access of {name} has {counts.min()}, which is not a sum")
        return counts

    def rows(self, scenario: str, share: Share, begin: int, end: int) -> Seconds:
        name = self.names[scenario, share]
        with as_one_line(self.path, f"matrix {name} can't be read"):
            return checked_cells(rows_of(self.file["data"][name], begin, end), self.path, name)


def is_open_matrix(path: str) -> bool:
    with Path(path).open("rb") as file:
        return file.read(len(SIGNATURE)) == SIGNATURE
