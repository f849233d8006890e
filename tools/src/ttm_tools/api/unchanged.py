"""Scenarios that change nothing on a date: no trip that they remove, add or shift runs on it."""

import datetime
from functools import lru_cache
from pathlib import Path

import numpy as np
import numpy.typing as npt

from ..core.text import display_text
from ..gtfs.columns import one_of
from ..gtfs.feeds import read_folder
from ..gtfs.service_days import services_on
from ..gtfs.tables import Table
from ..gtfs.timetable import read_edits
from ..core.scenarios import TODAY
from ..places.doors import PreparedFeed

NOT_READ = ("stop_times.txt", "stops.txt", "shapes.txt", "transfers.txt")  # which are large and say nothing of days


@lru_cache(maxsize=64)
def unchanged_on(feed: PreparedFeed, date: datetime.date, days: tuple[int, int]) -> tuple[str, ...]:
    """Return the scenarios that have the trips of today, at the same times, on all service days of a question.

    Parameters
    ----------
    date
        The day of the departures.
    days
        How many service days before it and after it count.
    """
    found = read_folder(feed.folder, NOT_READ)
    trips = found.tables["trips.txt"]
    around = [date + datetime.timedelta(days=day) for day in range(-days[0], days[1] + 1)]
    services = set[str]().union(*(services_on(found, day) for day in around))
    runs = one_of(trips["service_id"], services)
    files = {path.stem: path for path in feed.scenario_files}
    kept = {name: shifts_of(path, trips)[runs] for name, path in files.items()}
    today = kept.get(TODAY, np.zeros(int(runs.sum())))
    others = (name for name in files if name != TODAY)
    return tuple(name for name in others if np.array_equal(kept[name], today, equal_nan=True))


def shifts_of(path: Path, trips: Table) -> npt.NDArray[np.float64]:
    """Return by how many seconds a scenario file shifts each trip; NaN for one that it removes."""
    edits = read_edits(str(path))
    gone = one_of(trips["route_id"], edits.routes) | one_of(trips["trip_id"], edits.trips)
    names = trips["trip_id"]
    shifts = np.zeros(len(gone))
    for name, seconds in edits.shifts.items():
        shifts[one_of(names, [name])] = seconds
    return np.where(gone, np.nan, shifts)


def sentence_of(scenario: str, date: datetime.date) -> str:
    """Return what is warned of."""
    return f"the scenario {display_text(scenario)} changes nothing on {date}: no trip that it changes runs then"
