"""All faults for which `ttm` would refuse a feed, in its order: by file, by record, by check.

A field that fails several checks has one fault, that of the first. References to a file that is missing, or lacks a
column, are not checked.
"""

import itertools
from dataclasses import dataclass, replace
from typing import Callable, Iterable, Iterator, Sequence

import numpy as np

from ..core.arrays import Mask, Whole
from ..core.limits import MOST_BYTES, MOST_EVENTS, MOST_FOOTPATHS, MOST_NUMBER, MOST_STOPS, MOST_TRIPS
from . import fields
from .calls import calls_of
from .columns import empty, one_of, positions_of, repeated, repeated_pairs, values_of
from .feeds import Feed, OPTIONAL, is_stop, names_in, stops_of, used_transfers
from .fields import FILES, WEEKDAYS, date, number, time
from .likely import renamed_columns
from .tables import Table, no_table

ID = "it may not be empty"
ONCE = "a record before has the same"
STOP = "stops.txt has to name it, as a stop (location_type 0 or empty)"
NUMBER = f"a number is digits alone, 0 to {MOST_NUMBER}"
OPEN_NUMBER = f"it is empty or a number: digits alone, 0 to {MOST_NUMBER}"
TIME = "a time is H:MM:SS, 0:00:00 to 167:59:59"
DATE = "a date is YYYYMMDD"
ENDS = "the first and the last stop time of a trip have an arrival_time or a departure_time"
BACK = "no departure before the arrival, and no arrival before the departure before it"
TOO_MANY, TOO_LONG, UNREAD = "too many", "too long", "read fault"
SIGNS = {";": "semicolons", "\t": "tabs", "|": "bars"}  # in the place of commas
LAST = 1 << 50  # ranks of what is found once all records are read


@dataclass(frozen=True)
class FeedError:
    """What one check of a file finds: the records that fail it, in the order in which `ttm` would report them."""

    table: Table
    what: str  # in the words of `ttm`
    column: str  # "" for none in particular
    allowed: str
    rows: Whole  # places of records in the table
    ranks: Whole  # where each stands among all of the file, a lesser one being reported first
    missing: bool = False  # the file isn't there

    def __len__(self) -> int:
        return max(len(self.rows), 1)

    @property
    def records(self) -> Whole:
        """The numbers of the records; that of the header if the whole file is meant."""
        return self.table.records[self.rows] if len(self.rows) else np.ones(1, np.int64)

    @property
    def is_limit(self) -> bool:
        return self.what in (TOO_MANY, TOO_LONG)

    def line(self) -> str:
        """The line that `ttm` would print of the first record."""
        if self.what == UNREAD:
            return f"ttm: {self.table.source}: {self.what}"
        record = "" if self.missing or self.what == TOO_LONG else f"record {self.records[0]}: "
        return f"ttm: {self.table.name}: {record}{self.what}"

    def value(self, place: int = 0) -> str | None:
        """The text of the field."""
        return self.table.text(self.column, int(self.rows[place])) if self.column and len(self.rows) else None


class Checks:
    """The checks of a file's records, in their order."""

    def __init__(self, table: Table) -> None:
        self.table, self.found = table, list[FeedError]()
        self.failed: dict[str, Mask] = {}

    def add(self, column: str, what: str, allowed: str, fails: Mask) -> None:
        """Notes the records that fail a check, unless they fail one of the same field before."""
        before = self.failed.get(column)
        rows = np.flatnonzero(fails if before is None or not column else fails & ~before)
        self.failed[column] = fails if before is None else fails | before
        if len(rows):
            ranks = rows * 64 + len(self.failed) + len(self.found)
            self.found.append(FeedError(self.table, what, column, allowed, rows, ranks))

    def filled(self, column: str) -> None:
        self.add(column, "empty id", ID, empty(self.table[column]))

    def identifies(self, column: str) -> None:
        self.filled(column)
        self.add(column, "duplicate id", ONCE, repeated(self.table[column].codes))

    def named(self, column: str, what: str, names: Iterable[str] | None, allowed: str, but: Mask | None = None) -> None:
        """The field is one of some names, where these are known."""
        if names is not None:
            lost = ~one_of(self.table[column], names)
            self.add(column, what, allowed, lost if but is None else lost & ~but)

    def values(
        self, what: str, allowed: str, read: Callable[[str], int], *columns: str, may_be_empty: bool = False
    ) -> None:
        """The fields are numbers, times or dates."""
        for column in columns:
            value = values_of(self.table[column], read)
            self.add(column, what, allowed, (value == fields.NONE) if may_be_empty else (value < 0))

    def few(self, most: int) -> None:
        allowed = f"at most {most:,} records"
        self.add("", TOO_MANY, allowed, np.arange(len(self.table)) >= most)


def check(feed: Feed) -> list[FeedError]:
    """All faults of a feed: one for each check that fails, the first in the order of `ttm` first."""
    none = np.zeros(0, np.int64)  # `ttm` reads all files before it checks one
    allowed = "a file has to be there, and it is a folder"
    unread = [
        FeedError(no_table(name, path), UNREAD, "", allowed, none, none, True) for name, path in feed.unread.items()
    ]
    misspelt = [name for name in FILES if feed.tables.get(name) is not None and lacking_in(feed.tables[name])]
    renamed = with_right_names(feed, misspelt) if misspelt else feed
    in_order = []
    for name in FILES:
        header = faults_in(feed, name) if name in misspelt else []
        found = [] if header and lacking_in(renamed.tables[name]) else faults_in(renamed, name)
        in_order.append([*header, *sorted(found, key=lambda fault: list(fault.ranks[:1]))])
    return [*unread, *itertools.chain.from_iterable(in_order)]


def lacking_in(table: Table) -> list[str]:
    """The columns that a file needs and lacks."""
    return [column for column in FILES[table.name].needed if column not in table]


def with_right_names(feed: Feed, names: Sequence[str]) -> Feed:
    """A feed whose columns have the names that are meant, so that the records below a misspelt header are checked."""
    tables = dict(feed.tables)
    for name in names:
        table = tables[name].copy()
        right = renamed_columns(table)
        table.fields = {right[column]: table[column] for column in table.columns}
        tables[name] = table
    return replace(feed, tables=tables)


def faults_in(feed: Feed, name: str) -> list[FeedError]:
    table, none = feed.get(name), np.zeros(0, np.int64)
    if name in feed.unread:
        return []
    if name not in feed.tables:
        if name in OPTIONAL and (name != "calendar.txt" or "calendar_dates.txt" in feed.tables):
            return []
        allowed = "the file has to be there" + (", or calendar_dates.txt" if name == "calendar.txt" else "")
        return [FeedError(table, "missing file", "", allowed, none, none, missing=True)]
    if table.source is not None and table.source.stat().st_size > MOST_BYTES:
        return [FeedError(table, TOO_LONG, "", "a file has at most 1,073,741,824 bytes", none, none)]
    lacking = lacking_in(table)
    if lacking:
        sign = next((sign for sign in SIGNS if any(sign in column for column in table.columns)), None)
        allowed = f"the header has to name {', '.join(lacking)}"
        allowed += f"; {SIGNS[sign]} separate its fields, where commas have to" if sign else ""
        return [FeedError(table, "missing column", "", allowed, none, none)]
    checks = Checks(table)
    CHECKS[name](feed, checks)
    if name == "stop_times.txt":  # now that the columns of its checks are freed
        checks.found += whole_trips(feed, table)
    return checks.found


def check_stops(_: Feed, checks: Checks) -> None:
    checks.few(MOST_STOPS)
    checks.identifies("stop_id")
    checks.values("bad number", OPEN_NUMBER, number, "location_type", may_be_empty=True)


def check_routes(_: Feed, checks: Checks) -> None:
    checks.identifies("route_id")


def check_calendar(_: Feed, checks: Checks) -> None:
    checks.identifies("service_id")
    for day in WEEKDAYS:
        flags = values_of(checks.table[day], number)
        checks.add(day, "bad number", "a weekday is 0 or 1", ~np.isin(flags, (0, 1)))
    checks.values("bad date", DATE, date, "start_date", "end_date")


def check_calendar_dates(_: Feed, checks: Checks) -> None:
    checks.filled("service_id")
    checks.values("bad date", DATE, date, "date")
    kinds = values_of(checks.table["exception_type"], number)
    allowed = "it is 1 (the date is added) or 2 (it is removed)"
    checks.add("exception_type", "bad number", allowed, ~np.isin(kinds, (1, 2)))


def check_trips(feed: Feed, checks: Checks) -> None:
    checks.few(MOST_TRIPS)
    checks.filled("route_id")
    checks.named("route_id", "unknown route", names_in(feed, "routes.txt", "route_id"), "routes.txt has to name it")
    checks.filled("service_id")
    checks.identifies("trip_id")


def named_trips(feed: Feed, checks: Checks) -> None:
    checks.filled("trip_id")
    checks.named("trip_id", "unknown trip", names_in(feed, "trips.txt", "trip_id"), "trips.txt has to name it")


def check_stop_times(feed: Feed, checks: Checks) -> None:
    table = checks.table
    checks.few(MOST_EVENTS)
    named_trips(feed, checks)
    checks.named("stop_id", "unknown stop", stops_of(feed), STOP, but=empty(table["stop_id"]))
    sequence = values_of(table["stop_sequence"], number)
    checks.add("stop_sequence", "bad number", NUMBER, sequence < 0)
    twice = repeated_pairs(table["trip_id"].codes, sequence)
    checks.add("stop_sequence", "duplicate id", "another record of the trip has the same", twice)
    checks.values("bad time", TIME, time, "arrival_time", "departure_time", may_be_empty=True)
    checks.values("bad number", OPEN_NUMBER, number, "pickup_type", "drop_off_type", may_be_empty=True)


def check_frequencies(feed: Feed, checks: Checks) -> None:
    named_trips(feed, checks)
    checks.values("bad time", TIME, time, "start_time", "end_time")
    headways = values_of(checks.table["headway_secs"], number)
    checks.add("headway_secs", "bad number", f"a headway is whole seconds, 1 to {MOST_NUMBER}", headways < 1)


def check_transfers(feed: Feed, checks: Checks) -> None:
    table = checks.table
    checks.values("bad number", OPEN_NUMBER, number, "transfer_type", may_be_empty=True)
    used = used_transfers(table)
    for column in ("from_stop_id", "to_stop_id"):
        names = names_in(feed, "stops.txt", "stop_id")
        checks.named(column, "unknown stop", names, "stops.txt has to name it", but=~used)
    wrong = values_of(table["min_transfer_time"], number) == fields.NONE
    checks.add("min_transfer_time", "bad number", NUMBER, used & wrong)
    checks.found += too_many_footpaths(feed, table)


def too_many_footpaths(feed: Feed, table: Table) -> Iterator[FeedError]:
    """The rows of transfers.txt from that one on with which they make more footpaths than `ttm` takes."""
    if not feed.has_columns("stops.txt"):
        return
    footpaths = np.where(used_transfers(table), footpaths_of(table, feed.tables["stops.txt"]), 0)
    rows = np.flatnonzero((np.cumsum(footpaths) > MOST_FOOTPATHS) & (footpaths > 0))
    if len(rows):
        allowed = f"at most {MOST_FOOTPATHS:,} footpaths, one for each pair of stops of its two ends"
        yield FeedError(table, TOO_MANY, "", allowed, rows, LAST + rows)


def footpaths_of(table: Table, stops: Table) -> Whole:
    """The number of footpaths of each row of transfers.txt; a station has those of its children, other places none."""
    places = {stop: place for place, stop in reversed(list(enumerate(stops.texts("stop_id"))))}  # the first of several
    called, is_station = is_stop(stops), values_of(stops["location_type"], number) == 1
    parents = positions_of(stops["parent_station"], places)
    parents = np.where(called & (parents >= 0) & is_station[parents], parents, -1)
    children = np.bincount(parents[parents >= 0], minlength=len(stops))
    sizes = np.append(np.where(called, 1, np.where(is_station, children, 0)), 0)
    parents = np.append(parents, -2)  # that of a place that isn't known
    a, b = (positions_of(table[name], places) for name in ("from_stop_id", "to_stop_id"))
    shared = np.where(a == b, sizes[a], ((parents[a] == b) | (parents[b] == a)).astype(np.int64))
    return np.where((a >= 0) & (b >= 0), sizes[a] * sizes[b] - shared, 0)


def whole_trips(feed: Feed, table: Table) -> Iterator[FeedError]:
    """The faults of whole trips, in the order of trips.txt; a field that is a fault isn't reported again."""
    trips = names_in(feed, "trips.txt", "trip_id")
    if trips is None:
        return
    calls = calls_of(table, trips)
    untimed = np.flatnonzero((calls.is_first | calls.is_last) & ~calls.timed & ~calls.has_bad_time)
    back = np.flatnonzero(calls.goes_back)
    for what, allowed, places, within in (
        ("no time", ENDS, untimed, calls.is_last[untimed].astype(np.int64)),
        ("times go back", BACK, back, 2 + back),
    ):
        if len(places):
            ranks = (1 << 40) + (calls.trip[places] << 32) + within
            yield FeedError(table, what, "arrival_time", allowed, calls.rows[places], ranks)


CHECKS = {
    "stops.txt": check_stops,
    "routes.txt": check_routes,
    "calendar.txt": check_calendar,
    "calendar_dates.txt": check_calendar_dates,
    "trips.txt": check_trips,
    "stop_times.txt": check_stop_times,
    "frequencies.txt": check_frequencies,
    "transfers.txt": check_transfers,
}
