"""The first error of a study, by the definitions alone: a second program for what `ttm` refuses.

`first_error` takes the arguments of `ttm` and returns the line that refuses them, or `None` if nothing is wrong. It
checks the names of scenarios, all files, the dates and the number of runs. Options are taken to be good, files to be
readable, and footpaths and networks to be within their limits of size. Standard library only.
"""

from __future__ import annotations

import argparse
import datetime
import re
from collections import Counter
from collections.abc import Iterator, Sequence

import plain
from feed_errors import Check, Feed, Record, Refused, check_each, is_new, is_number, read, record_times

MOST_FILES = 15
MOST_EDITS = 100_000
MOST_SHIFT = 604_799
MOST_TIME = 1_999_999
MOST_RUNS = 1_000_000
LAST_DAY = datetime.date(9999, 12, 31)

Span = tuple[int, int]  # the least and the greatest time of a trip, over all its departures


def first_error(arguments: Sequence[str]) -> str | None:
    """Returns the line that refuses these arguments, or `None` if there is no error."""
    options = plain.options(arguments)
    try:
        names = scenario_names(options.scenario)
        feed = Feed(options.feed)
        check_own_files(feed, options)
        for path, name in zip(options.scenario, names):
            check_scenario(feed, path, f"scenario {name}")
        check_days(feed, options)
    except Refused as error:
        return f"ttm: {error}\n"
    return None


def scenario_names(paths: Sequence[str]) -> list[str]:
    if len(paths) > MOST_FILES:
        raise Refused("too many scenarios")
    names = [path.rpartition("/")[2].removesuffix(".csv") for path in paths]
    for at, name in enumerate(names):
        if name in ("", "base", *names[:at]):
            raise Refused(f"scenario name: {name}")
    return names


def check_own_files(feed: Feed, options: argparse.Namespace) -> None:
    """Checks the files of footpaths, origins, opportunities and destinations, if they are named."""

    def footpath(record: Record) -> Iterator[Check]:
        ends = [record["from_stop_id"], record["to_stop_id"]]
        yield "" not in ends, "empty id"
        yield all(end in feed.kinds for end in ends), "unknown stop"
        yield is_number(record["seconds"]), "bad number"

    if options.footpaths:
        check_each(read(options.footpaths, "footpaths.csv", ["from_stop_id", "to_stop_id", "seconds"]), footpath)
    for name in ("origins", "opportunities", "destinations"):
        if getattr(options, name):
            check_stops(feed, getattr(options, name), name)


def check_stops(feed: Feed, path: str, name: str) -> None:
    """Checks a file of stops, which has a number for each if it is the one of opportunities."""
    columns = ["stop_id", "opportunities"] if name == "opportunities" else ["stop_id"]
    seen: set[str] = set()

    def stop(record: Record) -> Iterator[Check]:
        yield record["stop_id"] != "", "empty id"
        yield feed.is_stop(record["stop_id"]), "unknown stop"
        yield is_new(seen, record["stop_id"]), "duplicate id"
        yield all(is_number(record[column]) for column in columns[1:]), "bad number"

    check_each(read(path, name, columns), stop)


def shift_of(text: str) -> int | None:
    """The seconds of a shift, or `None` if the text is none."""
    shift = re.fullmatch("([+-]?)([0-9]+)", text.strip(" "))
    seconds = int(shift[2]) if shift else MOST_SHIFT + 1
    return None if shift is None or seconds > MOST_SHIFT else seconds * (-1 if shift[1] == "-" else 1)


def check_scenario(feed: Feed, path: str, name: str) -> None:
    """Checks each record of a scenario file, and then the times of each trip that it shifts."""
    shifts: Counter[str] = Counter()
    last: dict[str, int] = {}  # the last record that shifts a trip

    def edit(record: Record) -> Iterator[Check]:
        action, named = record["action"], record["id"]
        yield record.number <= MOST_EDITS + 1, "too many"
        yield action in ("remove_route", "remove_trip", "shift_trip"), "unknown action"
        yield action != "remove_route" or named in feed.routes, "unknown route"
        yield action == "remove_route" or named in feed.trips, "unknown trip"
        if action == "shift_trip":
            yield shift_of(record["seconds"]) is not None, "bad number"
            shifts[named] += shift_of(record["seconds"]) or 0
            last[named] = record.number

    table = read(path, name, ["action", "id"])
    check_each(table, edit)
    outside = [last[trip] for trip in last if not is_within(span_of(feed, trip), shifts[trip])]
    if outside:
        table.refuse(min(outside), "shift out of range")


def is_within(span: Span | None, shift: int) -> bool:
    return span is None or (span[0] + shift >= 0 and span[1] + shift <= MOST_TIME)


def span_of(feed: Feed, trip: str) -> Span | None:
    """The least and the greatest time of a trip, or of all its departures if it has headways; `None` without any."""
    if trip in feed.aside or not feed.times[trip]:
        return None
    times = [item for _, record in feed.times[trip] for item in record_times(record)]
    if trip not in feed.headways:
        return times[0], times[-1]
    starts = departures(feed, trip)
    ends = [(min(starts[k]), max(starts[k])) for k in range(len(starts)) if starts[k]]
    # each departure leaves the first stop at its own time, and arrives there then
    return (min(a for a, _ in ends), max(b for _, b in ends) + times[-1] - times[1]) if ends else None


def departures(feed: Feed, trip: str) -> list[range]:
    """The departures that each record of `frequencies.txt` gives a trip."""
    return [range(start, end, headway) for start, end, headway in feed.headways[trip]]


def check_days(feed: Feed, options: argparse.Namespace) -> None:
    """Checks that the days around the date exist, and counts their runs."""
    if options.date > LAST_DAY - datetime.timedelta(days=options.ahead):
        raise Refused("date out of range")
    calendar = plain.Feed(options.feed)
    runs = 0
    for day in range(-options.back, options.ahead + 1):
        date = options.date + datetime.timedelta(days=day)
        for name, record in feed.trips.items():
            if feed.times[name] and name not in feed.aside and calendar.runs_on(record["service_id"], date):
                runs += sum(map(len, departures(feed, name))) if name in feed.headways else 1
    if runs > MOST_RUNS:
        raise Refused("too many runs")
