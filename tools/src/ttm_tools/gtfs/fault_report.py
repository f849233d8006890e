"""The errors that a check found, as lines and as a table."""

from typing import Iterable, Iterator, Sequence

import numpy as np

from ..core.console import one_line
from ..core.errors import InputError
from ..core.text import display_text, quantity
from .check import FeedError

FEW = 8  # records that are named


def escaped(text: str) -> str:
    """A text in UTF-8: bytes that aren't are read as Windows-1252, and what no file can hold is shown by its number."""
    return display_text(text).encode("utf-8", "backslashreplace").decode("utf-8")


def fault_lines(faults: Sequence[FeedError]) -> Iterator[str]:
    """Two lines for each failed check: the line of `ttm`, then the value, what is allowed, and how often it fails."""
    for fault in faults:
        yield fault.line()
        value = fault.value()
        found = f'column {fault.column} is "{one_line(display_text(value))}"; ' if value is not None else ""
        records = ", ".join(map(str, fault.records[:FEW].tolist())) + (", .." if len(fault) > FEW else "")
        often = f"; {len(fault):,} times: records {records}" if len(fault) > 1 else ""
        yield f"  {found}{fault.allowed}{often}"


def refuse(path: str, faults: Sequence[FeedError], hint: str, causes: Iterable[str] = ()) -> None:
    """Reports the first of some errors, and how many there are; or the first cause of them that is known."""
    if faults:
        cause = next(iter(causes), None)
        if cause is not None:
            raise InputError(path, cause)
        count, first = sum(map(len, faults)), next(fault_lines(faults)).removeprefix("ttm: ")
        what = f"{quantity(count, 'error')}{', the first' if count > 1 else ''}: {first} ({hint})"
        raise InputError(path, what).noting(**place_of(faults[0]))


def place_of(fault: FeedError) -> dict[str, object]:
    """The attributes of an `InputError` about the first record of a fault."""
    record = None if fault.missing else int(fault.records[0])
    value = fault.value()
    found = {"record": record, "column": fault.column or None, "value": value, "allowed": fault.allowed}
    return {"file": fault.table.name, **found}


def fault_rows(faults: Sequence[FeedError]) -> Iterator[list[object]]:
    """Every single fault, file by file in the order in which `ttm` would report them."""
    files = list(dict.fromkeys(fault.table.name for fault in faults))
    for name in files:
        some = [fault for fault in faults if fault.table.name == name]
        which = np.concatenate([np.full(len(fault), place) for place, fault in enumerate(some)])
        within = np.concatenate([np.arange(len(fault)) for fault in some])
        ranks = np.concatenate([fault.ranks if len(fault.ranks) else np.full(1, -1) for fault in some])
        for place in np.argsort(ranks, kind="stable"):
            fault, row = some[which[place]], int(within[place])
            record = "" if fault.missing else int(fault.records[row])
            yield [name, record, fault.column, escaped(fault.value(row) or ""), fault.what, fault.allowed]
