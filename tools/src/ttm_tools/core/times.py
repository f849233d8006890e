"""Dates and clock times, read and written."""

import datetime
import re

DATE = re.compile(r"[0-9]{8}|[0-9]{4}-[0-9]{2}-[0-9]{2}")
DATES_ALLOWED = "YYYYMMDD or YYYY-MM-DD"
CLOCK = re.compile(r"([0-9]{1,3}):([0-5][0-9])(?::([0-5][0-9]))?")
MINUTE = re.compile(r"(?:[01][0-9]|2[0-3]):[0-5][0-9]")
MINUTES_ALLOWED = "00:00 to 23:59"
SECONDS_OF_UNIT = {"s": 1, "sec": 1, "second": 1, "min": 60, "minute": 60, "h": 3600, "hour": 3600}
PART_OF_DURATION = re.compile(r"([0-9]+(?:\.[0-9]+)?) *([a-z]+?)s?(?: +|(?=[0-9])|$)")


def day_of(text: str | datetime.date) -> datetime.date:
    """Read a date, YYYYMMDD or YYYY-MM-DD; raises a `ValueError` for any other text."""
    if isinstance(text, datetime.date):
        return text.date() if isinstance(text, datetime.datetime) else text
    if not DATE.fullmatch(text):
        raise ValueError(text)
    return datetime.date.fromisoformat(text)


def as_ttm_reads(day: str | datetime.date) -> str:
    """Return a date as YYYYMMDD. A text that is no date is returned unchanged: `ttm` refuses it with its own line."""
    try:
        read = day_of(day)
        return f"{read.year:04}{read.month:02}{read.day:02}"
    except ValueError:
        return str(day)


def is_minute(text: str) -> bool:
    """Return whether a text is a minute of the day, HH:MM from 00:00 to 23:59."""
    return MINUTE.fullmatch(text) is not None


def minutes_of(text: str) -> int:
    """Return the minutes from midnight to HH:MM."""
    return int(text[:2]) * 60 + int(text[3:])


def clock_seconds(text: str) -> int | None:
    """Return the seconds from midnight to H:MM or H:MM:SS; None for any other text. Hours may have three digits."""
    match = CLOCK.fullmatch(text)
    return None if match is None else int(match[1]) * 3600 + int(match[2]) * 60 + int(match[3] or 0)


def duration_seconds(given: str | datetime.timedelta) -> float:
    """Return the seconds of a duration: a `timedelta`, or a text such as "15 min", "1 h 30 min" or "-90 s".

    Raises a `ValueError` for a text without a unit, since "15" could be minutes or seconds.
    """
    if isinstance(given, datetime.timedelta):
        return given.total_seconds()
    text = given.strip()
    rest, total = text.removeprefix("-").lstrip(), 0.0
    while match := PART_OF_DURATION.match(rest):
        if match[2] not in SECONDS_OF_UNIT:
            break
        total += float(match[1]) * SECONDS_OF_UNIT[match[2]]
        rest = rest[match.end() :]
        if not rest:
            return -total if text.startswith("-") else total
    raise ValueError(given)


def as_duration(seconds: float) -> str:
    """Return seconds as a text that `duration_seconds` reads: in minutes if they are whole, else in seconds."""
    return f"{seconds / 60:.0f} min" if seconds % 60 == 0 else f"{seconds:g} s"


def as_minute(minutes: int) -> str:
    """Return minutes from midnight as HH:MM."""
    return f"{minutes // 60:02}:{minutes % 60:02}"


def as_clock(seconds: int) -> str:
    """Return seconds from midnight as HH:MM:SS, as `ttm` reads them."""
    return f"{seconds // 3600:02}:{seconds // 60 % 60:02}:{seconds % 60:02}"
