"""The calls of a feed that `ttm` takes, as numbers of two or four bytes each, read some records at a time.

`calls_of` reads the whole file as a table first, which takes several times as much memory.
"""

import contextlib
from dataclasses import dataclass, replace
from pathlib import Path
from typing import Any, Iterable, Mapping, Sequence

import numpy as np
import numpy.typing as npt

from ..core.arrays import Narrow, Whole
from ..core.tables import names_of
from .calls import Calls
from .columns import Codes, Texts, column_of, constant, empty, positions_of, times_of, values_of
from .fields import number
from .growing import GrowableArray
from .reading import Columns, ODD, known_codes, ways_to_read
from .tables import Table, unnumbered

CALLS = "stop_times.txt"
NAMES = ("trip_id", "stop_id", "stop_sequence", "arrival_time", "departure_time")
ROWS_AT_ONCE = 1 << 17
NO_STOP = -2


@dataclass(frozen=True)
class CallNumbers:
    """The calls of the trips that aren't set aside, trip by trip, ascending by stop_sequence."""

    begins: Whole  # where the calls of each trip begin, and behind the last one how many there are
    rows: Narrow | range  # of each call the place of its record
    stop: Codes  # a place among the stops
    arrive: Narrow  # seconds
    depart: Narrow
    records: int  # of the file


@dataclass(frozen=True)
class Stated:
    """What records state of calls, one number for each record."""

    trip: Narrow  # -1 for one that isn't there
    stop: Codes  # -1 for one that isn't there, NO_STOP where none is named
    sequence: npt.NDArray[np.uint32]
    arrive: Narrow  # -2 for no time
    depart: Narrow


STATED = tuple(Stated.__dataclass_fields__)


class ConsecutiveRecords:
    """Records whose trips follow one another, each with its calls in their order, as most feeds have them."""

    def __init__(self) -> None:
        self.trips, self.begins = [np.zeros(0, np.int32)], [np.zeros(0, np.int64)]  # of each run, piece by piece
        self.count, self.last = 0, (-1, 0)  # records, and the trip and stop_sequence of the last one

    def take(self, stated: Stated) -> bool:
        """Notes some records; whether they are in order, and all of them calls of trips that are there."""
        trip, sequence = stated.trip, stated.sequence
        is_new = np.concatenate([[self.last[0]], trip])[:-1] != trip
        ascends = np.concatenate([[self.last[1]], sequence])[:-1] <= sequence
        places = np.flatnonzero(is_new)
        self.trips.append(trip[places])
        self.begins.append(self.count + places)
        self.count += len(trip)
        if len(trip):
            self.last = int(trip[-1]), int(sequence[-1])
        return bool(((is_new | ascends) & (trip >= 0) & (stated.stop != NO_STOP)).all())

    def numbers(self, stated: Stated, count: int) -> CallNumbers | None:
        """The calls of the trips; None where a trip has several runs."""
        trips, begins = np.concatenate(self.trips), np.concatenate([*self.begins, [self.count]])
        lengths = np.zeros(count, np.int64)
        lengths[trips] = np.diff(begins)
        if lengths.sum() < self.count:
            return None
        if not (stated.arrive >= 0).all():
            stated = replace(stated, trip=np.repeat(trips, np.diff(begins)))
        arrive, depart = filled(stated)
        whole = np.concatenate([[0], np.cumsum(lengths)])
        if (trips[1:] > trips[:-1]).all():
            return CallNumbers(whole, range(self.count), stated.stop, arrive, depart, self.count)
        moved = np.zeros(count, np.int64)
        moved[trips] = begins[:-1] - whole[trips]
        rows = narrow(np.arange(self.count) + np.repeat(moved, lengths))
        return CallNumbers(whole, rows, stated.stop[rows], arrive[rows], depart[rows], self.count)


class Pieces:
    """Some columns of what records state of calls, and other columns of their file, piece by piece."""

    def __init__(self, names: Sequence[str], others: Sequence[str]) -> None:
        self.columns = {name: GrowableArray(np.int32) for name in names}
        self.known = {name: dict[str, int]() for name in others}
        self.codes = {name: GrowableArray(np.int8) for name in others}

    def take(self, stated: Stated, piece: Mapping[str, Texts]) -> None:
        for name, column in self.columns.items():
            column.take(getattr(stated, name))
        for name, codes in self.codes.items():
            codes.take(known_codes(piece[name], piece[name].codes, self.known[name]))

    def stated(self) -> Stated:
        """The records of all pieces; a column that isn't kept is empty."""
        return Stated(*(self.columns.get(name, GrowableArray(np.int32)).to_array() for name in STATED))

    def others(self) -> Columns:
        return {name: column_of(list(self.known[name]), codes.to_array()) for name, codes in self.codes.items()}


class CallReader:
    """Reads the calls of some trips from stop_times.txt, and its other columns as a table."""

    def __init__(self, path: Path, trips: Sequence[str], stops: Mapping[str, int]) -> None:
        self.path, self.count, self.stops = path, len(trips), dict(stops)
        self.kind = np.min_scalar_type(min(NO_STOP, -len(stops)))  # of the places of stops
        self.trips = {name: place for place, name in enumerate(trips)}
        self.names = names_of(path)
        self.others = [name for name in self.names if name not in NAMES]

    def read(self) -> tuple[CallNumbers, Table]:
        for pieces in ways_to_read(self.path, self.names, ROWS_AT_ONCE):
            with contextlib.suppress(*ODD):
                numbers, others = self.in_runs(pieces()) or self.in_any_order(pieces())
                break
        apart = [name for name in self.names if name not in others]
        return numbers, Table(CALLS, others, unnumbered(numbers.records), self.path, apart)

    def in_runs(self, some: Iterable[Mapping[str, Texts]]) -> tuple[CallNumbers, Columns] | None:
        """The calls, and the other columns, without the two that put calls in order; None where they are needed."""
        runs, found = ConsecutiveRecords(), Pieces(("stop", "arrive", "depart"), self.others)
        for piece in some:
            stated = self.stated(piece)
            if not runs.take(stated):
                return None
            found.take(stated, piece)
        numbers = runs.numbers(found.stated(), self.count)
        return None if numbers is None else (numbers, found.others())

    def in_any_order(self, some: Iterable[Mapping[str, Texts]]) -> tuple[CallNumbers, Columns]:
        found = Pieces(STATED, self.others)
        for piece in some:
            found.take(self.stated(piece), piece)
        return in_order(found.stated(), self.count), found.others()

    def stated(self, piece: Mapping[str, Texts]) -> Stated:
        count = len(piece["trip_id"].codes)

        def column(name: str) -> Texts:
            return piece[name] if name in piece else constant("", count)

        trip, stop = positions_of(piece["trip_id"], self.trips), positions_of(piece["stop_id"], self.stops)
        stop[empty(piece["stop_id"])] = NO_STOP
        first, last = (times_of(column(name)) for name in ("arrival_time", "departure_time"))
        sequence = np.maximum(values_of(piece["stop_sequence"], number), 0).astype(np.uint32)
        arrive, depart = np.where(first >= 0, first, last), np.where(last >= 0, last, first)
        return Stated(narrow(trip), stop.astype(self.kind), sequence, narrow(arrive), narrow(depart))


def narrow(numbers: npt.NDArray[Any]) -> Narrow:
    narrowed: Narrow = numbers.astype(np.int32)
    return narrowed


def in_order(stated: Stated, count: int) -> CallNumbers:
    """The calls of the trips in their order, without the trips that are set aside."""
    aside = np.zeros(count + 1, dtype=np.bool_)
    aside[stated.trip[stated.stop == NO_STOP]] = True
    aside[-1] = True  # of records whose trip isn't there
    kept = np.flatnonzero(~aside[stated.trip])
    rows = narrow(kept[np.lexsort((stated.sequence[kept], stated.trip[kept]))])
    found = Stated(*(getattr(stated, name)[rows] for name in STATED))
    begins = np.searchsorted(found.trip, np.arange(count + 1, dtype=np.int32)).astype(np.int64)
    return CallNumbers(begins, rows, found.stop, *filled(found), len(stated.trip))


def filled(stated: Stated) -> tuple[Narrow, Narrow]:
    """All arrivals and departures of calls in their order, open ones as `ttm` has them."""
    if (stated.arrive >= 0).all():
        return stated.arrive, stated.depart
    trip, first, last = (column.astype(np.int64) for column in (stated.trip, stated.arrive, stated.depart))
    found = Calls(np.arange(len(trip)), trip, first, last, np.zeros(0, np.bool_)).filled()
    return narrow(found[0]), narrow(found[1])
