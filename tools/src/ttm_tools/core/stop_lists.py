"""Files that list stops, and the columns of files of walks between them."""

from typing import BinaryIO, Sequence

from .errors import InputError
from .tables import rows, write_rows
from .text import display_text

FOOTPATH_COLUMNS = ("from_stop_id", "to_stop_id", "seconds")


def origins_in(path: str) -> list[str]:
    """The stops that a file with the column stop_id names, in order, each once."""
    named: dict[str, None] = {}
    for number, (stop,) in rows(path, ["stop_id"]):
        if stop in named:
            raise InputError(path, f"{display_text(stop)} occurs twice", record=number)
        named[stop] = None
    return list(named)


def write_stops(file: BinaryIO, stops: Sequence[str]) -> None:
    write_rows(file, ["stop_id"], [[stop] for stop in stops])
