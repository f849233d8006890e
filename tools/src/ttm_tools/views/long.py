"""A matrix from wide to long: a line for each origin and destination, with names and places of both, as CSV or Parquet;
or for each origin's access.
"""

import math
from dataclasses import dataclass
from typing import Any, BinaryIO, Iterator, Sequence

import numpy as np
import numpy.typing as npt

from ..core import progress
from ..core.errors import InputError, MissingDependencyError
from ..core.files import atomic_path
from ..core.lines import Numerals, Texts, field, fields_as_texts, join_lines, texts_of
from ..core.tables import with_gaps
from ..core.text import decimal, display_text
from ..gtfs.stops import Stops
from ..matrices import Matrix, Seconds, Share, lacking

CELLS_AT_ONCE = 1_000_000
MEDIAN = 50  # percent
MOST_LINES = 1_048_576  # that spreadsheets show
FORMULA = ("=", "+", "-", "@")  # with which spreadsheets begin one


@dataclass(frozen=True)
class TableChoice:
    scenarios: list[str]
    shares: list[Share]
    origins: list[str] | None  # None for all of them
    destinations: list[str]
    reached: bool = False  # leave out pairs without a travel time
    r5py: bool = False  # columns as r5py names them: minutes, a column for each share


@dataclass(frozen=True)
class TablePiece:
    """Some origins of a scenario with their travel times to the chosen stops, of each share in turn."""

    scenario: str
    origins: list[str]
    seconds: list[Seconds]


def pieces_of(matrix: Matrix, choice: TableChoice) -> Iterator[TablePiece]:
    """The chosen rows, some at a time; of a scenario's origins each has all shares."""
    columns = np.array([matrix.places[name] for name in choice.destinations], dtype=np.intp)
    whole = len(columns) == len(matrix.stops) and bool((np.diff(columns) == 1).all())
    step = max(1, CELLS_AT_ONCE // max(1, len(matrix.stops) * len(choice.shares)))
    for scenario in choice.scenarios:
        names = origins_of(matrix, scenario, choice.shares)
        places = np.arange(len(names))
        if choice.origins is not None:
            chosen = set(choice.origins)
            places = np.array([place for place, name in enumerate(names) if name in chosen], dtype=np.intp)
        for begin in progress.track(
            range(0, len(places), step), -(-len(places) // step), display_text(scenario), "blocks"
        ):
            some = places[begin : begin + step]
            rows = [matrix.rows_at(scenario, share, some) for share in choice.shares]
            rows = rows if whole else [row[:, columns] for row in rows]
            yield TablePiece(scenario, [names[place] for place in some], rows)


def origins_of(matrix: Matrix, scenario: str, shares: Sequence[Share]) -> list[str]:
    """The origins of a scenario, which have a line of every share."""
    first = matrix.origins(scenario, shares[0])
    for share in shares[1:]:
        lost = lacking((f"share {shares[0]}", first), (f"share {share}", matrix.origins(scenario, share)))
        if lost:
            raise InputError(matrix.path, f"scenario {display_text(scenario)}: {lost}")
    return first


def ends_of(names: Sequence[str], stops: Stops | None) -> tuple[Texts, Texts]:
    """Identifiers as fields, and what a feed says of them, each behind a comma: name, latitude and longitude."""
    if stops is None:
        return fields_as_texts(names), texts_of([b""] * len(names))
    found = stops.of(names)
    places = zip(found.names, found.latitudes.tolist(), found.longitudes.tolist())
    fields = [b",%s,%s,%s" % (field(name), degrees(north), degrees(east)) for name, north, east in places]
    return fields_as_texts(names), texts_of(fields)


def degrees(number: float) -> bytes:
    return b"" if math.isnan(number) else b"%r" % number


def header_of(matrix: Matrix, choice: TableChoice, stops: Stops | None) -> list[str]:
    if choice.r5py:
        head = ["from_id", "to_id", *(r5py_name(share, choice.shares) for share in choice.shares)]
    else:
        head = ["scenario", *["share"] * matrix.layout.names_share, "origin", "destination", "seconds"]
    columns = [f"{end}_{what}" for end in ("origin", "destination") for what in ("name", "lat", "lon")]
    return head + (columns if stops is not None else [])


def r5py_name(share: Share, shares: Sequence[Share]) -> str:
    """r5py's name for a column of travel times; the median alone has no number."""
    return "travel_time" if share is None or list(shares) == [MEDIAN] else f"travel_time_p{share}"


def minutes(seconds: int) -> bytes:
    """Seconds as minutes, to the nearest hundredth."""
    return b"%r" % round(seconds / 60, 2)


def type_of(column: str, has_decimals: bool) -> str:
    """The type of a column as QGIS reads it from a file next to a CSV; of access by whether it has decimals."""
    if column in ("share", "seconds", "within") or column == "access" and not has_decimals:
        return "Integer"
    is_real = column == "access" or column.endswith(("_lat", "_lon")) or column.startswith("travel_time")
    return "Real" if is_real else "String"


def has_decimals(matrix: Matrix, choice: TableChoice) -> bool:
    """Whether the chosen access is of numbers with decimals."""
    keys = [(scenario, share) for scenario in choice.scenarios for share in choice.shares]
    return any(matrix.access(*key).dtype.kind == "f" for key in keys)


def safe(text: str) -> str:
    """A text that no spreadsheet takes for a formula."""
    return f"'{text}" if text.startswith(FORMULA) else text


def write_times(out: BinaryIO, matrix: Matrix, choice: TableChoice, stops: Stops | None) -> int:
    """Writes a line for each pair, from texts of cells that are formatted once; returns the number of lines."""
    out.write(b",".join(map(field, header_of(matrix, choice, stops))) + b"\n")
    count = 1
    destinations, places = ends_of(choice.destinations, stops)
    after = texts_of([fields + b"\n" for fields in places])
    numerals = Numerals(minutes if choice.r5py else b"%d".__mod__)
    for piece in pieces_of(matrix, choice):
        groups = groups_of(choice, piece)
        for row, (origin, fields) in enumerate(zip(*ends_of(piece.origins, stops))):
            for head, times in groups:
                around, rows = [destinations, fields, after], [seconds[row] for seconds in times]
                text = lines_of(head + origin + b",", rows, around, numerals, choice.reached)
                count += text.count(b"\n")
                out.write(text)
    return count


def groups_of(choice: TableChoice, piece: TablePiece) -> list[tuple[bytes, list[Seconds]]]:
    """What a line begins with, and the travel times that it has: those of one share, or of all for r5py's names."""
    if choice.r5py:
        return [(b"", piece.seconds)]
    head = field(piece.scenario) + b","
    heads = [head if share is None else head + b"%d," % share for share in choice.shares]
    return [(head, [seconds]) for head, seconds in zip(heads, piece.seconds)]


def lines_of(head: bytes, times: Sequence[Seconds], around: Sequence[Any], numerals: Numerals, reached: bool) -> bytes:
    """The lines of one origin: its head, each destination, the travel times to it, and what is known of both ends."""
    destinations, fields, after = around
    if reached:
        kept = np.flatnonzero(~np.isnan(times).all(axis=0))
        times, destinations, after = [seconds[kept] for seconds in times], destinations[kept], after[kept]
    numbers: list[bytes | Texts] = []
    for seconds in times:
        numbers += [b",", numerals.of(seconds)]
    return join_lines([head, destinations, *numbers, fields, after], len(destinations))


def access_header(matrix: Matrix, stops: Stops | None) -> list[str]:
    named = matrix.layout.names_share
    header = ["scenario", *["share"] * named, "origin", *["within"] * named, "access"]
    return header + ([f"origin_{what}" for what in ("name", "lat", "lon")] if stops is not None else [])


def write_access(out: BinaryIO, matrix: Matrix, choice: TableChoice, within: int | None, stops: Stops | None) -> None:
    """A line for each origin, share and limit."""
    places = range(len(matrix.layout.limits)) if within is None else [matrix.limit(within)[0]]
    named = matrix.layout.names_share
    chosen = None if choice.origins is None else set(choice.origins)
    out.write(b",".join(map(field, access_header(matrix, stops))) + b"\n")
    for scenario in choice.scenarios:
        names = origins_of(matrix, scenario, choice.shares)
        sums = [matrix.access(scenario, share).tolist() for share in choice.shares]
        _, ends = ends_of(names, stops)
        for row in [row for row, name in enumerate(names) if chosen is None or name in chosen]:
            for share, access in zip(choice.shares, sums):
                for place in places:
                    limit = [matrix.layout.limits[place]] * named
                    line = [scenario, *[share] * named, names[row], *limit, decimal(access[row][place])]
                    out.write(b",".join(map(field, line)) + ends[row] + b"\n")


def frame_of(matrix: Matrix, choice: TableChoice, piece: TablePiece, stops: Stops | None) -> Any:
    """The lines of a piece as a table of pandas, whose texts are codes."""
    import pandas

    origin = np.repeat(np.arange(len(piece.origins)), len(choice.destinations))
    destination = np.tile(np.arange(len(choice.destinations)), len(piece.origins))
    tables = []
    for share, (_, times) in zip(choice.shares, groups_of(choice, piece)):
        columns: dict[str, Any] = {} if choice.r5py else {"scenario": [display_text(piece.scenario)] * len(origin)}
        if matrix.layout.names_share and not choice.r5py:
            columns["share"] = share
        header = header_of(matrix, choice, None)
        ends = (origin, piece.origins), (destination, choice.destinations)
        for name, (codes, names) in zip(header[-len(times) - 2 :], ends):
            columns[name] = pandas.Categorical.from_codes(codes, list(map(display_text, names)))
        for name, seconds in zip(header[-len(times) :], map(np.ravel, times)):
            columns[name] = np.round(seconds.astype(np.float64) / 60, 2) if choice.r5py else with_gaps(seconds)
        columns |= columns_of_places(stops, piece.origins, origin, "origin")
        columns |= columns_of_places(stops, choice.destinations, destination, "destination")
        table = pandas.DataFrame(columns)
        if choice.reached:
            table = table[np.logical_or.reduce([~np.isnan(seconds.ravel()) for seconds in times])]
        tables.append(table)
    return pandas.concat(tables, ignore_index=True)


def columns_of_places(
    stops: Stops | None, names: Sequence[str], codes: npt.NDArray[np.intp], end: str
) -> dict[str, Any]:
    """Name, latitude and longitude of one end of each pair."""
    if stops is None:
        return {}
    found = stops.of(names)
    names_by_code = np.array(found.names, dtype=object)[codes]
    return {f"{end}_name": names_by_code, f"{end}_lat": found.latitudes[codes], f"{end}_lon": found.longitudes[codes]}


def write_parquet(path: str, frames: Iterator[Any]) -> None:
    """Writes tables as one Parquet file, a group of rows for each, by pyarrow or by fastparquet."""
    try:
        import pyarrow.parquet
    except ImportError:
        write_by_fastparquet(path, frames)
        return
    with atomic_path(path) as aside:
        writer = None
        for table in (pyarrow.Table.from_pandas(frame, preserve_index=False) for frame in frames if len(frame)):
            writer = writer or pyarrow.parquet.ParquetWriter(str(aside), table.schema)
            writer.write_table(table.cast(writer.schema))
        if writer is None:
            raise InputError(path, "no rows to write")
        writer.close()


def write_by_fastparquet(path: str, frames: Iterator[Any]) -> None:
    try:
        import fastparquet
    except ImportError:
        what = "Parquet needs pyarrow or fastparquet, and neither is installed; a name that ends in .csv writes a CSV"
        raise MissingDependencyError(f"{path}: {what}") from None
    with atomic_path(path) as aside:
        for number, frame in enumerate(frame for frame in frames if len(frame)):
            fastparquet.write(str(aside), frame, append=number > 0)
        if not aside.exists():
            raise InputError(path, "no rows to write")


def frames_of(matrix: Matrix, choice: TableChoice, stops: Stops | None) -> Iterator[Any]:
    return (frame_of(matrix, choice, piece, stops) for piece in pieces_of(matrix, choice))
