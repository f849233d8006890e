"""A prepared feed, and the errors of a feed, as values of JSON: docs/reference/json.md has each field."""

from collections import Counter
from pathlib import Path
from typing import Iterator, Sequence

import numpy as np

from ..gtfs.feeds import Feed
from ..gtfs.service_days import days_of, runs_by_day
from ..gtfs.check import FeedError
from .make import PREPARED, Prepared
from ..gtfs.fault_report import fault_rows

COUNTED = {"stops": "stops.txt", "routes": "routes.txt", "trips": "trips.txt", "stop_times": "stop_times.txt"}
OF_ERROR = ("file", "record", "column", "value", "error", "allowed")


def fields_of(made: Prepared, out: str) -> dict[str, object]:
    """The fields of a prepared folder: how many records it has, on which days trips run, and what was repaired."""
    counts = {name: len(made.feed.get(file)) for name, file in COUNTED.items()}
    repairs = Counter(change.rule for change in made.changes)
    changed = {"repairs_file": str(Path(out) / PREPARED), "repairs": dict(repairs)}
    return {"folder": out, **counts, "trips_by_date": trips_by_date(made.feed), **changed}


def trips_by_date(feed: Feed) -> dict[str, int]:
    """How many trips run on each day from the first to the last on which some do, by dates of ISO 8601.

    A trip with headways counts once for each of its departures.
    """
    days = days_of(feed)
    runs = runs_by_day(feed, days)
    busy = np.flatnonzero(runs)
    if not len(busy):
        return {}
    return {str(days.day(place)): int(runs[place]) for place in range(int(busy[0]), int(busy[-1]) + 1)}


def error_fields(path: str, faults: Sequence[FeedError]) -> Iterator[dict[str, object]]:
    """Each single error of a feed, in the order in which `ttm` would report them; None for what has no value."""
    for row in fault_rows(faults):
        yield {"feed": path, **{name: None if value == "" else value for name, value in zip(OF_ERROR, row)}}
