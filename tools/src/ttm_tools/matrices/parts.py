"""Parts of the origins of a study, and the whole matrix from the matrices of the parts: the bytes are those of one run
over all origins.
"""

import itertools
import operator
from dataclasses import dataclass, field
from pathlib import Path
from typing import BinaryIO, Iterator, Sequence, TypeVar

from ..core.errors import InputError
from ..core.files import atomic_folder
from ..core.reading import as_one_line, regular
from ..core.stop_lists import write_stops
from ..core.text import display_text, first_few, quantity
from .layout import MatrixLayout, layout_of
from .lines import content, count_of_fields, fields_of, head_of, read_record, records_of, refuse_wide

Item = TypeVar("Item")
BYTES_AT_ONCE = 1 << 20


def parts_of(origins: Sequence[Item], parts: int) -> list[Sequence[Item]]:
    """So many parts of about the same length, in order, none of them empty where there are origins."""
    parts = max(1, min(parts, len(origins)))
    short, more = divmod(len(origins), parts)
    ends = [number * short + min(number, more) for number in range(parts + 1)]
    return [origins[a:b] for a, b in zip(ends, ends[1:])]


def write_parts(origins: Sequence[str], parts: int, folder: str) -> int:
    """Writes part_0001.csv .. and origins.csv with the origins of all, and gives the number of parts."""
    cut = {f"part_{number:04}.csv": part for number, part in enumerate(parts_of(origins, parts), 1)}
    for other in sorted(Path(folder).glob("part_[0-9]*.csv")):
        if other.name not in cut:
            raise InputError(other, "belongs to another split: name another folder, or remove it")
    with atomic_folder(folder) as aside:
        for name, stops in {"origins.csv": origins, **cut}.items():
            with open(aside / name, "wb") as file:
                write_stops(file, stops)
    return len(cut)


@dataclass
class Scenario:
    """The first row of a scenario in the matrix of a part, and its origins in order."""

    begin: int
    end: int
    origins: list[str] = field(default_factory=list)


class PartMatrix:
    """A matrix on the disk: its header, its scenarios in order, and the shares that each origin has."""

    def __init__(self, path: str) -> None:
        self.path = path
        self.scenarios: dict[str, Scenario] = {}
        self.shares: list[str] | None = None
        regular(path)
        with as_one_line(path, "can't be read"), open(path, "rb", buffering=BYTES_AT_ONCE) as file:
            self.header = read_record(file)
            refuse_wide(path, self.header)
            self.read(file)

    def read(self, file: BinaryIO) -> None:
        """Reads all records behind the header, the shares of each origin together."""
        layout = layout_of(fields_of(self.header))
        if layout is None or not self.header.endswith(b"\n"):
            raise InputError(self.path, "not a matrix" if layout is None else "truncated")
        end = file.tell()
        for (name, origin), lines in itertools.groupby(self.lines(file, layout), key=operator.itemgetter(0, 1)):
            if name in self.scenarios and name != next(reversed(self.scenarios)):
                raise InputError(self.path, f"the rows of {display_text(name)} aren't consecutive")
            scenario = self.scenarios.setdefault(name, Scenario(end, end))
            scenario.origins.append(origin)
            shares = list[str]()
            for *_, share, length in lines:
                shares += share
                end += length
            scenario.end = end
            self.shares = shares if self.shares is None else self.shares
            if shares != self.shares:
                what = f"{display_text(origin)} has other percentiles in {display_text(name)} than the first origin"
                raise InputError(self.path, what)

    def lines(self, file: BinaryIO, layout: MatrixLayout) -> Iterator[tuple[str, str, list[str], int]]:
        """The scenario, the origin, the share if there is one, and the length of each line."""
        for record in records_of(file):
            line = content(record)
            heads, first = head_of(line, layout.first_cell)
            if len(heads) + count_of_fields(line, first) != layout.width or len(line) == len(record):
                raise InputError(self.path, "truncated")
            yield heads[0], heads[1], heads[2:3] if layout.names_share else [], len(record)

    @property
    def first(self) -> list[str]:
        """The origins of the first scenario."""
        return next((scenario.origins for scenario in self.scenarios.values()), [])


def are_alike(part: PartMatrix, first: PartMatrix) -> None:
    """Refuses a part that is of another study than the first one, or lacks rows."""
    if part.header != first.header:
        raise InputError(part.path, f"its header isn't that of {first.path}")
    if list(part.scenarios) != list(first.scenarios):
        raise InputError(part.path, f"its scenarios aren't those of {first.path}")
    if part.shares != first.shares:
        raise InputError(part.path, f"its percentiles aren't those of {first.path}")
    for name, scenario in part.scenarios.items():
        if scenario.origins != part.first:
            raise InputError(part.path, f"{display_text(name)} has other origins than the first scenario")


def in_order(parts: Sequence[PartMatrix], origins: Sequence[str], origins_file: str) -> list[PartMatrix]:
    """The parts in the order of their origins in the whole; each origin must be in one of them."""
    place = {origin: number for number, origin in enumerate(origins)}
    holder: dict[str, str] = {}
    for part in parts:
        are_alike(part, parts[0])
        for origin in part.first:
            if origin not in place:
                raise InputError(part.path, f"{display_text(origin)} isn't an origin of the study")
            if origin in holder:
                raise InputError(part.path, f"origin {display_text(origin)} is in {holder[origin]}, too")
            holder[origin] = part.path
    lost = [display_text(origin) for origin in origins if origin not in holder]
    if lost:
        raise InputError(origins_file, f"{quantity(len(lost), 'origin')} in no part: {first_few(lost, 1)}")
    ordered = sorted(parts, key=lambda part: place[part.first[0]] if part.first else -1)
    if [origin for part in ordered for origin in part.first] != list(origins):
        raise InputError(origins_file, "the parts aren't consecutive origins of the study")
    return ordered


def write_whole(parts: Sequence[PartMatrix], out: BinaryIO) -> None:
    """The header, and for each scenario the rows of each part."""
    out.write(parts[0].header)
    for name in parts[0].scenarios:
        for part in parts:
            copy(Path(part.path), part.scenarios[name], out)


def copy(path: Path, rows_of: Scenario, out: BinaryIO) -> None:
    with path.open("rb") as file:
        file.seek(rows_of.begin)
        left = rows_of.end - rows_of.begin
        while left and (block := file.read(min(left, BYTES_AT_ONCE))):
            out.write(block)
            left -= len(block)
        if left:
            raise InputError(path, "became shorter while it was read")
