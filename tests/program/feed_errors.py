"""The first error of a feed's files, by the definitions alone, without any of the code of `ttm`.

`Feed` reads the files in the order in which errors are reported, and raises `Refused` at the first. The only limit of
size that it knows is that of `stops.txt`. Files are taken to be readable. Standard library only.
"""

from __future__ import annotations

import calendar
import csv
import io
import os
import re
from collections import defaultdict
from collections.abc import Callable, Iterator, Sequence
from typing import NamedTuple

import plain

MOST_NUMBER = 4_294_967_295
MOST_STOPS = 65_535


class Refused(Exception):
    """The first error: its line."""


class Record(dict[str, str]):
    """A record by its columns, where one that it lacks is empty, and its number; record 1 is the header."""

    number = 0

    def __missing__(self, _column: str) -> str:
        return ""


class Table(NamedTuple):
    """A file: the name that its errors have, and its records."""

    name: str
    records: list[Record]

    def refuse(self, number: int, words: str) -> None:
        raise Refused(f"{self.name}: record {number}: {words}")


def is_number(text: str) -> bool:
    digits = text.strip(" ")
    return re.fullmatch("[0-9]+", digits) is not None and int(digits) <= MOST_NUMBER


def number(text: str) -> int:
    """The value of a number, or 0 if there is none."""
    return int(text.strip(" ") or 0)


def time(text: str) -> int | None:
    """The seconds of a time; `None` if it is no time."""
    parts = re.fullmatch("([0-9]{1,3}):([0-5][0-9]):([0-5][0-9])", text.strip(" "))
    hours, minutes, rest = map(int, parts.groups()) if parts else (168, 0, 0)
    return 3600 * hours + 60 * minutes + rest if hours <= 167 else None


def is_date(text: str) -> bool:
    parts = re.fullmatch("([0-9]{4})([0-9]{2})([0-9]{2})", text.strip(" "))
    year, month, day = map(int, parts.groups()) if parts else (0, 0, 0)
    return 1 <= month <= 12 and 1 <= day <= calendar.monthrange(year, month)[1]


def is_blank(text: str) -> bool:
    return not text.strip(" ")


def read(path: str, name: str, required: Sequence[str]) -> Table:
    """The table of a file, which has its required columns."""
    with open(path, newline="", encoding="utf-8-sig", errors="surrogateescape") as file:
        lines = [fields for fields in csv.reader(io.StringIO(file.read(), newline="")) if fields]
    header = [column.strip(" ") for column in lines[0]] if lines else []
    table = Table(name, [])
    if not set(required) <= set(header):
        table.refuse(1, "missing column")
    for at, fields in enumerate(lines[1:], 2):
        # the first column of a name counts
        record = Record({column: field for column, field in reversed([*zip(header, fields)])})
        record.number = at
        table.records.append(record)
    return table


Check = tuple[bool, str]  # whether a record passes, and what is wrong if it doesn't
Checks = Callable[[Record], Iterator[Check]]


def check_each(table: Table, checks: Checks) -> None:
    """Refuses the first record that fails a check, by the first check that it fails."""
    for record in table.records:
        for passes, words in checks(record):
            if not passes:
                table.refuse(record.number, words)


def is_new(seen: set[str], text: str) -> bool:
    """Whether a text wasn't there before; from now on it was."""
    known = text in seen
    seen.add(text)
    return not known


class Feed:
    """The files of a feed, each checked as it is read, in the order of errors."""

    def __init__(self, folder: str) -> None:
        self.folder = folder
        self.kinds: dict[str, int] = {}  # the location_type of each place
        self.routes: set[str] = set()
        self.trips: dict[str, Record] = {}
        self.times: dict[str, list[tuple[int, Record]]] = defaultdict(list)  # by ascending stop_sequence
        self.aside: set[str] = set()  # trips with a record that names no stop
        self.check("stops.txt", ["stop_id"], self.place)
        self.check("routes.txt", ["route_id"], self.route)
        self.check_calendars()
        self.check("trips.txt", ["route_id", "service_id", "trip_id"], self.trip)
        self.check("stop_times.txt", ["trip_id", "stop_id", "stop_sequence"], self.stop_time)
        self.check_whole_trips()
        self.headways: dict[str, list[tuple[int, int, int]]] = defaultdict(list)  # of a trip: start, end, seconds
        if self.has("frequencies.txt"):
            self.check("frequencies.txt", ["trip_id", "start_time", "end_time", "headway_secs"], self.headway)
        if self.has("transfers.txt"):
            self.check("transfers.txt", [], self.transfer)

    def has(self, name: str) -> bool:
        return os.path.exists(os.path.join(self.folder, name))

    def check(self, name: str, required: Sequence[str], checks: Checks) -> None:
        if not self.has(name):
            raise Refused(f"{name}: missing file")
        check_each(read(os.path.join(self.folder, name), name, required), checks)

    def is_stop(self, name: str) -> bool:
        return self.kinds.get(name) == 0

    def place(self, record: Record) -> Iterator[Check]:
        yield len(self.kinds) < MOST_STOPS, "too many"
        yield record["stop_id"] != "", "empty id"
        yield record["stop_id"] not in self.kinds, "duplicate id"
        yield is_blank(record["location_type"]) or is_number(record["location_type"]), "bad number"
        self.kinds[record["stop_id"]] = number(record["location_type"])

    def route(self, record: Record) -> Iterator[Check]:
        yield record["route_id"] != "", "empty id"
        yield is_new(self.routes, record["route_id"]), "duplicate id"

    def check_calendars(self) -> None:
        columns = ["service_id", *plain.WEEKDAYS, "start_date", "end_date"]
        services: set[str] = set()

        def period(record: Record) -> Iterator[Check]:
            yield record["service_id"] != "", "empty id"
            yield is_new(services, record["service_id"]), "duplicate id"
            for day in plain.WEEKDAYS:
                yield is_number(record[day]) and number(record[day]) <= 1, "bad number"
            yield is_date(record["start_date"]) and is_date(record["end_date"]), "bad date"

        def exception(record: Record) -> Iterator[Check]:
            yield record["service_id"] != "", "empty id"
            yield is_date(record["date"]), "bad date"
            yield is_number(record["exception_type"]) and number(record["exception_type"]) in (1, 2), "bad number"

        if self.has("calendar.txt") or not self.has("calendar_dates.txt"):
            self.check("calendar.txt", columns, period)
        if self.has("calendar_dates.txt"):
            self.check("calendar_dates.txt", ["service_id", "date", "exception_type"], exception)

    def trip(self, record: Record) -> Iterator[Check]:
        yield record["route_id"] != "", "empty id"
        yield record["route_id"] in self.routes, "unknown route"
        yield record["service_id"] != "" and record["trip_id"] != "", "empty id"
        yield record["trip_id"] not in self.trips, "duplicate id"
        self.trips[record["trip_id"]] = record

    def stop_time(self, record: Record) -> Iterator[Check]:
        trip, sequence = record["trip_id"], record["stop_sequence"]
        yield trip != "", "empty id"
        yield trip in self.trips, "unknown trip"
        yield record["stop_id"] == "" or self.is_stop(record["stop_id"]), "unknown stop"
        yield is_number(sequence), "bad number"
        yield number(sequence) not in [other for other, _ in self.times[trip]], "duplicate id"
        for column in ("arrival_time", "departure_time"):
            yield is_blank(record[column]) or time(record[column]) is not None, "bad time"
        for column in ("pickup_type", "drop_off_type"):
            yield is_blank(record[column]) or is_number(record[column]), "bad number"
        self.times[trip].append((number(sequence), record))
        if record["stop_id"] == "":
            self.aside.add(trip)

    def check_whole_trips(self) -> None:
        table = Table("stop_times.txt", [])
        for trip in self.trips:
            self.times[trip].sort(key=lambda timed: timed[0])
            events = [record for _, record in self.times[trip]] if trip not in self.aside else []
            timed = [record for record in events if record_times(record)]
            for end in events[:1] + events[-1:]:
                if end not in timed or not record_times(end):
                    table.refuse(end.number, "no time")
            latest = 0
            for record in timed:
                arrive, depart = record_times(record)
                if not latest <= arrive <= depart:
                    table.refuse(record.number, "times go back")
                latest = depart

    def headway(self, record: Record) -> Iterator[Check]:
        start, end = time(record["start_time"]), time(record["end_time"])
        yield record["trip_id"] != "", "empty id"
        yield record["trip_id"] in self.trips, "unknown trip"
        yield start is not None and end is not None, "bad time"
        yield is_number(record["headway_secs"]) and number(record["headway_secs"]) >= 1, "bad number"
        self.headways[record["trip_id"]].append((start or 0, end or 0, number(record["headway_secs"])))

    def transfer(self, record: Record) -> Iterator[Check]:
        yield is_blank(record["transfer_type"]) or is_number(record["transfer_type"]), "bad number"
        ends = [record["from_stop_id"], record["to_stop_id"]]
        named = [record[way + kind] for way in ("from_", "to_") for kind in ("route_id", "trip_id")]
        is_timed = not is_blank(record["min_transfer_time"]) and "" not in ends
        if number(record["transfer_type"]) <= 2 and not any(named) and is_timed:
            yield all(end in self.kinds for end in ends), "unknown stop"
            yield is_number(record["min_transfer_time"]), "bad number"


def record_times(record: Record) -> list[int]:
    """Both times of a record, of which one gives the other; empty if it has neither."""
    found = [time(record[column]) for column in ("arrival_time", "departure_time")]
    known = [item for item in found if item is not None]
    return [known[0], known[-1]] if known else []
