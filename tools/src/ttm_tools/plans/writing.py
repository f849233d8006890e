"""The feed of all scenarios, which has the files of the feed that the plan begins from, as they are, and behind their
records those of the scenarios; and that of one, which has its trips alone.
"""

import shutil
from collections import Counter
from dataclasses import dataclass
from functools import cached_property
from pathlib import Path
from typing import Sequence

import numpy as np

from ..core.arrays import Mask
from ..core.errors import InputError
from ..core.limits import MOST_BYTES
from ..core.tables import names_of as columns_of, records
from ..gtfs.columns import one_of
from ..gtfs.tables import Table, joined, no_table, read_table, write_lines, write_table
from . import new_records as new
from .apply import ScenarioResult
from .base import Base
from .shapes import NAME as SHAPES, Shapes, read_shapes
from .state import State

BLOCK = 1 << 20
OF_ROUTES = ("fare_rules.txt", "route_networks.txt")  # which say of a route what holds of its copies too
OF_TRIPS = ("trip_id", "from_trip_id", "to_trip_id")  # columns that name trips


@dataclass(frozen=True)
class Written:
    """What is written: the feed's scenarios, and what theirs is called in it."""

    base: Base
    finished: Sequence[ScenarioResult]
    names: new.Names

    @property
    def states(self) -> list[State]:
        return [scenario.state for scenario in self.finished]

    @cached_property
    def shapes(self) -> Shapes | None:
        """The shapes of the feed with those of trips that run along another line; none where no trip does."""
        path = self.base.feed.others.get(SHAPES)
        redrawn = any(trip.redrawn for state in self.states for trip in state.own.values())
        return read_shapes(self.base, path) if redrawn and path is not None else None

    @cached_property
    def own(self) -> list[new.OwnTrip]:
        """The scenarios' own trips, scenario by scenario."""
        return new.own_trips(self.states, self.names, self.shapes)


def written_of(base: Base, finished: Sequence[ScenarioResult], alone: bool) -> Written:
    added = Counter(route for scenario in finished for route in scenario.state.lines)
    shared = frozenset(route for route, count in added.items() if count > 1)
    return Written(base, finished, new.Names(base, shared, alone))


def used_stops(written: Written) -> list[int]:
    """The plan's own stops at which some scenario calls."""
    calls = np.sum([state.calls for state in written.states], axis=0)
    old = written.base.old_stops
    return [int(place) + old for place in np.flatnonzero(calls[old:])]


def write_all(written: Written, folder: Path) -> None:
    base, names, own = written.base, written.names, written.own
    tables = [
        new.new_stops(base, used_stops(written)),
        new.new_routes(base, written.states, names),
        new.new_trips(base, own),
        new.new_stop_times(base, own),
        new.new_headways(base, own),
        new.new_days(base, own),
    ]
    written_tables = {table.name: table for table in tables}
    gone = taken_out(base, written.states[0]) if names.alone else None
    write_tables(base, written_tables, gone, folder)
    write_others(base, written.shapes, gone, folder)
    for name in OF_ROUTES:
        if name in base.feed.others:
            table = read_table(name, base.feed.others[name])
            put_together(table, new.new_route_rows(written.states, names, table), folder / name)


def taken_out(base: Base, state: State) -> set[str]:
    """The trips of the feed that the feed of one scenario no longer has, even if others there have their names."""
    away = (base.lengths > 0) & ~(state.kept & (state.shift == 0))
    return {base.trips[place] for place in np.flatnonzero(away)}


def write_tables(base: Base, tables: dict[str, Table], gone: set[str] | None, folder: Path) -> None:
    """Writes the files that `ttm` reads."""
    own = set(tables["trips.txt"].texts("trip_id"))
    for name in dict.fromkeys((*base.feed.tables, *tables)):
        old, more = base.feed.get(name), tables.get(name, no_table(name))
        if gone is not None and name in base.feed.tables:
            old = without_trips(old, gone - own if name == "transfers.txt" else gone)
        if len(more) or name in base.feed.tables:
            put_together(old, more, folder / name)
        if (folder / name).exists() and (folder / name).stat().st_size > MOST_BYTES:
            raise InputError(
                name, f"would have more bytes than ttm takes; allowed: {MOST_BYTES:,}: use fewer scenarios"
            )


def without_trips(table: Table, gone: set[str]) -> Table:
    """A table without the records that name some trips."""
    kept: Mask = np.ones(len(table), dtype=np.bool_)
    for name in OF_TRIPS:
        kept &= ~one_of(table[name], gone)
    rest = table.copy()
    rest.keep(kept)
    return rest


def put_together(old: Table, more: Table, path: Path) -> None:
    """Writes a table and further records after it; the file that it was read from is copied unchanged if possible."""
    if old.source is None or len(more) and not can_go_on(old.source, more):
        with open(path, "wb") as file:
            write_table(joined(old.with_all_columns(), more) if len(more) else old, file)
        return
    shutil.copyfile(old.source, path)
    if not len(more):
        return
    with open(path, "r+b") as file:
        file.seek(-1, 2)
        ended = file.read(1) in (b"\n", b"\r")
        file.write(b"" if ended else b"\n")
        ordered = {name: more[name] for name in columns_of(old.source)}
        write_lines(Table(more.name, ordered, more.records), file)


def can_go_on(path: Path, more: Table) -> bool:
    """Whether records can be written behind those of a file: it has their columns, each once, and no quote is open."""
    _, header = next(records(path), (1, list[str]()))
    quotes, known = 0, columns_of(path)
    with open(path, "rb") as file:
        while block := file.read(BLOCK):
            quotes += block.count(b'"')
    return quotes % 2 == 0 and len(header) == len(known) and set(more.columns) <= set(known)


def write_others(base: Base, shapes: Shapes | None, gone: set[str] | None, folder: Path) -> None:
    """Writes the files that `ttm` doesn't read: with new shapes, all others as they are, without gone trips."""
    for name, path in base.feed.others.items():
        if gone and name.endswith(".txt") and "trip_id" in columns_of(path):
            put_together(without_trips(read_table(name, path), gone), no_table(name), folder / name)
        elif name == SHAPES and shapes is not None:
            put_together(read_table(name, path), shapes.table(columns_of(path)), folder / name)
        else:
            shutil.copyfile(path, folder / name)
