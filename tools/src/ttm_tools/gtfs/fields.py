"""Which texts `ttm` takes as numbers, times and dates, and the files and columns that it reads.

A number is -1 for a text that is none, and -2 for an empty one.
"""

import datetime
import functools
import re
from dataclasses import dataclass

from ..core.limits import LAST_TIME, MOST_NUMBER
from ..core.times import clock_seconds

NONE, EMPTY = -1, -2
WEEKDAYS = ("monday", "tuesday", "wednesday", "thursday", "friday", "saturday", "sunday")
DATE = re.compile(r"[0-9]{8}")


@dataclass(frozen=True)
class Layout:
    """A file that `ttm` reads: the columns that it needs, and others that it takes."""

    needed: tuple[str, ...]
    taken: tuple[str, ...] = ()


FILES = {
    "stops.txt": Layout(("stop_id",), ("location_type", "parent_station")),
    "routes.txt": Layout(("route_id",)),
    "calendar.txt": Layout(("service_id", *WEEKDAYS, "start_date", "end_date")),
    "calendar_dates.txt": Layout(("service_id", "date", "exception_type")),
    "trips.txt": Layout(("route_id", "service_id", "trip_id")),
    "stop_times.txt": Layout(
        ("trip_id", "stop_id", "stop_sequence"), ("arrival_time", "departure_time", "pickup_type", "drop_off_type")
    ),
    "frequencies.txt": Layout(("trip_id", "start_time", "end_time", "headway_secs")),
    "transfers.txt": Layout(
        (),
        ("from_stop_id", "to_stop_id", "transfer_type", "min_transfer_time")
        + ("from_route_id", "to_route_id", "from_trip_id", "to_trip_id"),
    ),
}


def number(text: str) -> int:
    """One or more digits, of a value of at most 4,294,967,295."""
    trimmed = text.strip(" ")
    if not trimmed:
        return EMPTY
    digits = trimmed.lstrip("0") or "0"
    if not (trimmed.isascii() and trimmed.isdigit() and len(digits) <= 10):
        return NONE
    return int(digits) if int(digits) <= MOST_NUMBER else NONE


@functools.lru_cache(maxsize=1 << 17)  # a feed's times, of which arrivals and departures have most in common
def time(text: str) -> int:
    """Seconds of H:MM:SS, from 0:00:00 to 167:59:59."""
    trimmed = text.strip(" ")
    if not trimmed:
        return EMPTY
    seconds = clock_seconds(trimmed) if trimmed.count(":") == 2 else None
    return NONE if seconds is None or seconds > LAST_TIME else seconds


def date(text: str) -> int:
    """YYYYMMDD as a number, if it is a day of the Gregorian calendar; `ttm` takes the year 0000, too."""
    trimmed = text.strip(" ")
    if not trimmed:
        return EMPTY
    if not DATE.fullmatch(trimmed):
        return NONE
    try:
        datetime.date.fromisoformat(trimmed if trimmed[:4] != "0000" else f"0400{trimmed[4:]}")
    except ValueError:
        return NONE
    return int(trimmed)
