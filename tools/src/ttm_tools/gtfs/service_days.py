"""On which days services run, and how many runs a feed has."""

import datetime
from dataclasses import dataclass
from typing import Sequence

import numpy as np

from ..core.arrays import Mask, Whole
from ..core.errors import InputError
from .columns import distinct, one_of, positions_of, values_of
from .feeds import Feed, names_in
from .fields import WEEKDAYS, date, number, time

ORIGIN = datetime.date(1, 1, 1).toordinal()
MOST_DAYS = 40_000  # of a calendar; a longer one counts as endless, and is read around the days that are asked for
ENDLESS = datetime.date(1990, 1, 1).toordinal(), datetime.date(2049, 12, 31).toordinal()


@dataclass(frozen=True)
class Days:
    """The days of each service: a row for each service, a column for each day from the first on."""

    first: int  # ordinal of the first day
    services: list[str]
    runs: Mask

    def day(self, place: int) -> datetime.date:
        return datetime.date.fromordinal(self.first + place)


def ordinals(dates: Whole) -> Whole:
    """Days of dates that are numbers, -1 where they are none that the Python calendar has."""
    found, places = np.unique(dates, return_inverse=True)
    days = [ordinal(int(date)) for date in found]
    return np.array(days or [-1], dtype=np.int64)[places]


def ordinal(written: int) -> int:
    """The ordinal of a date written YYYYMMDD, -1 for none."""
    if written < 10000:
        return -1
    return datetime.date(written // 10000, written // 100 % 100, written % 100).toordinal()


def days_of(feed: Feed) -> Days:
    """The service days of a feed whose calendars have no fault."""
    calendar, dates = feed.get("calendar.txt"), feed.get("calendar_dates.txt")
    trips = feed.get("trips.txt")
    services = list(dict.fromkeys(text for table in (calendar, dates, trips) for text in table.texts("service_id")))
    starts, ends = (ordinals(values_of(calendar[name], date)) for name in ("start_date", "end_date"))
    marked = ordinals(values_of(dates["date"], date))
    long = (starts >= ORIGIN) & (ends - starts >= MOST_DAYS)
    starts, ends = np.where(long, np.maximum(starts, ENDLESS[0]), starts), np.where(long, ENDLESS[1], ends)
    valid = (starts >= ORIGIN) & (ends >= starts)
    known = np.concatenate([starts[valid], ends[valid], marked[marked >= ORIGIN]])
    if not len(known) or known.max() - known.min() > 10 * MOST_DAYS:
        return Days(ORIGIN, services, np.zeros((len(services), 0), dtype=np.bool_))
    first = int(known.min())
    runs = np.zeros((len(services), int(known.max()) - first + 1), dtype=np.bool_)
    places = {name: place for place, name in enumerate(services)}
    flags = np.stack([values_of(calendar[day], number) == 1 for day in WEEKDAYS], axis=1)
    weekday = (first + np.arange(runs.shape[1]) - 1) % 7
    for row in np.flatnonzero(valid):
        span = slice(starts[row] - first, ends[row] - first + 1)
        runs[places[calendar.text("service_id", row)], span] |= flags[row][weekday[span]]
    of, kinds = positions_of(dates["service_id"], places), values_of(dates["exception_type"], number)
    for kind in (2, 1):  # a day that is both added and removed runs
        rows = np.flatnonzero((kinds == kind) & (marked >= ORIGIN))
        runs[of[rows], marked[rows] - first] = kind == 1
    return Days(first, services, runs)


def services_on(feed: Feed, day: datetime.date) -> set[str]:
    """The services that run on a day: a day that is both added and removed is added."""
    calendar, dates = feed.get("calendar.txt"), feed.get("calendar_dates.txt")
    written = day.year * 10000 + day.month * 100 + day.day
    start, end = (values_of(calendar[name], date) for name in ("start_date", "end_date"))
    runs = (values_of(calendar[WEEKDAYS[day.weekday()]], number) == 1) & (start <= written) & (written <= end)
    kinds, marked = values_of(dates["exception_type"], number), values_of(dates["date"], date) == written
    added, removed = (set(distinct(dates["service_id"], marked & (kinds == kind))) for kind in (1, 2))
    return (set(distinct(calendar["service_id"], runs)) - removed) | added


def on_days(feed: Feed, days: Sequence[datetime.date]) -> Mask:
    """Which trips are of a service that runs on some of the days; all where no days are named."""
    trips = feed.tables["trips.txt"]
    if not days:
        return np.ones(len(trips), dtype=np.bool_)
    return one_of(trips["service_id"], {service for day in days for service in services_on(feed, day)})


def runs_of_trips(feed: Feed) -> Whole:
    """How often each trip runs on a day of its service: once if it has calls, or as its headways say."""
    names = names_in(feed, "trips.txt", "trip_id") or []
    runs, several = np.zeros((2, len(names) + 1), dtype=np.int64)  # the last is that of a trip that isn't there
    runs[positions_of(feed.get("stop_times.txt")["trip_id"], names)] = 1
    table = feed.get("frequencies.txt")
    places = positions_of(table["trip_id"], names)
    start, end = (values_of(table[name], time) for name in ("start_time", "end_time"))
    headway = np.maximum(values_of(table["headway_secs"], number), 1)
    departures = np.where((start >= 0) & (end > start), (end - start + headway - 1) // headway, 0)
    np.add.at(several, places, departures)
    return np.where(np.isin(np.arange(len(runs)), places) & (runs > 0), several, runs)[:-1]


def runs_by_day(feed: Feed, days: Days) -> Whole:
    """The runs of a feed on each day."""
    trips, total = feed.get("trips.txt"), np.zeros(len(days.services), dtype=np.int64)
    places = positions_of(trips["trip_id"], names_in(feed, "trips.txt", "trip_id") or [])
    np.add.at(total, positions_of(trips["service_id"], days.services), runs_of_trips(feed)[places])
    return np.asarray(total @ days.runs, dtype=np.int64)


def busiest_day(feed: Feed) -> tuple[datetime.date, int]:
    """Return the first weekday on which the most trips run, or else the first day with the most, and how many run.

    Of several such days, one with trips on the days before and after it comes first, since these count as well.

    Raises
    ------
    InputError
        No trip runs on any day.
    """
    days = days_of(feed)
    runs = runs_by_day(feed, days)
    weekdays = np.where((days.first + np.arange(len(runs)) - 1) % 7 < 5, runs, 0)
    chosen = weekdays if weekdays.any() else runs
    if not chosen.any():
        raise InputError("calendar.txt", "no trip runs on any day")
    around = np.concatenate([[0], runs, [0]])
    most = np.flatnonzero(chosen == chosen.max())
    inside = most[(around[most] > 0) & (around[most + 2] > 0)]
    place = int((inside if len(inside) else most)[0])
    return days.day(place), int(chosen[place])
