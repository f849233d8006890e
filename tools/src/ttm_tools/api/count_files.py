"""Reads what there is at each stop, or point: columns of numbers from files of opportunities or of people."""

from collections.abc import Sequence
from pathlib import Path

import numpy as np

from ..core.arrays import Floats
from ..core.errors import InputError
from ..core.tables import column_positions, from_zero, names_of, records, refuse_alike, rows
from ..core.text import display_text, first_few
from ..measures.opportunities import Counts

IDENTIFIERS = ("stop_id", "id")  # the column that names a stop or a point: the first of these that is there
# columns that say where and what it is
NO_COUNTS = {"stop_name", "stop_lat", "stop_lon", "name", "lat", "lon", "width", "height"}
OWN_NAME = "opportunities"  # as every file of `ttm` calls its column


def read_counts(paths: Sequence[str], stops: Sequence[str], kind: str, wanted: Sequence[str] = ()) -> Counts:
    """The columns of some files, or the chosen ones, for these stops; a file that names another stop is
    refused. A column `opportunities` is called as its file.
    """
    places = {stop: place for place, stop in enumerate(stops)}
    names, there = list[str](), list[str]()
    columns: list[Floats] = []
    for path in paths:
        there += [called(name, path) for name in columns_of(path)]
        found = [name for name in columns_of(path) if not wanted or called(name, path) in wanted]
        for name in found:
            if called(name, path) in names:
                raise InputError(path, f"a column {display_text(called(name, path))} is in another file too")
            names.append(called(name, path))
        columns.append(numbers_of(path, found, places, kind))
    lost = [display_text(name) for name in wanted if name not in names]
    if lost:
        raise InputError(", ".join(paths), f"no column {lost[0]}; there are {first_few([*map(display_text, there)])}")
    return Counts(names, np.concatenate([np.zeros((len(stops), 0)), *columns], axis=1))


def names_in(paths: Sequence[str]) -> dict[str, str]:
    """The names that files give places, in a column `name` or `stop_name`; of two names the first counts."""
    found = dict[str, str]()
    for path in paths:
        for _, (place, *names) in rows(path, [identifier_of(path)], ["name", "stop_name"]):
            found.setdefault(place, next((display_text(name.strip()) for name in names if name.strip()), ""))
    return {place: name for place, name in found.items() if name}


def called(column: str, path: str) -> str:
    return Path(path).stem if column == OWN_NAME else column


def columns_of(path: str) -> list[str]:
    """The columns of numbers of a file: all but the identifier, names and places; no two of them are called alike."""
    _, header = next(records(path), (1, list[str]()))
    names = [name for name in column_positions(header, path, []) if name and name not in NO_COUNTS]
    refuse_alike(path, header, names)
    columns = [name for name in names if name not in IDENTIFIERS]
    if not columns:
        raise InputError(path, "no column of numbers", record=1)
    return columns


def identifier_of(path: str) -> str:
    """The column of a file that names stops."""
    names = names_of(path)
    found = next((name for name in IDENTIFIERS if name in names), None)
    if found is None:
        raise InputError(path, f"no column {' or '.join(IDENTIFIERS)}", record=1)
    return found


def numbers_of(path: str, names: Sequence[str], places: dict[str, int], kind: str) -> Floats:
    """Some columns of a file, each a number from 0 on for each stop."""
    numbers, seen = np.zeros((len(places), len(names))), set[str]()
    for number, (stop, *fields) in rows(path, [identifier_of(path), *names], whole=True):
        if stop not in places:
            raise InputError(path, f"no {kind} is called {display_text(stop)}", record=number)
        if stop in seen:
            raise InputError(path, f"{display_text(stop)} occurs twice", record=number)
        seen.add(stop)
        for column, text in enumerate(fields):
            numbers[places[stop], column] = from_zero(path, number, names[column], text)
    return numbers
