"""A question: when journeys begin, and what they may use. Its settings have their names, ranges and defaults here.

Commands, study files, the page and the names of r5py take them from this module.
"""

import datetime as dt
import operator
from collections.abc import Sequence
from dataclasses import asdict, dataclass, replace
from typing import TYPE_CHECKING, Any

from .errors import ArgumentError
from .limits import DETOUR, MOST_DAYS, MOST_FOOT_SECONDS, MOST_RIDES, MOST_SECONDS, MOST_SHARES, WALKING_KMH
from .ranges import Range
from .times import DATES_ALLOWED, MINUTES_ALLOWED, as_duration, as_minute, day_of, duration_seconds, is_minute

if TYPE_CHECKING:
    from pandas import DatetimeIndex

Date = dt.date | str  # 2026-05-04 or 20260504
TimeOfDay = dt.time | str  # 08:00
Duration = dt.timedelta | str  # "15 min", "90 s"
MINUTES_OF_DAY = 1_440


@dataclass(frozen=True)
class Setting:
    """A setting of a question, as other places know it."""

    option: str  # of `ttm`, of the commands, of study files and of the page's requests
    allowed: Range
    default: float  # in the unit of `allowed`


PERCENTILES = Setting("share", Range("percent", 1, 100), 50)
MAX_WALK = Setting("walk", Range("seconds", 0, MOST_FOOT_SECONDS), 600)
MAX_RIDES = Setting("trips", Range("", 1, MOST_RIDES), 4)  # of the engine; a question without rides is a walk
MAX_TRAVEL = Range("seconds", 1, MOST_SECONDS)
WALKING = Setting("kmh", Range("km/h", 0.1, 50, whole=False), WALKING_KMH)
WAY = Setting("detour", Range("", 1, 100, whole=False), DETOUR)
DAYS_BEFORE = Setting("back", Range("days", 0, MOST_DAYS), 1)
DAYS_AFTER = Setting("ahead", Range("days", 0, MOST_DAYS), 1)
ON_FOOT_OR_RIDES = Range("vehicles", 0, MOST_RIDES)


@dataclass(frozen=True)
class Question:
    """When journeys begin, and what they may use. Commands and study files take names and defaults from here.

    Values are stored as texts and numbers, whatever they were given as, so two questions that ask the same are equal.

    Parameters
    ----------
    date, first, last
        Day, first and last departure, one each minute, by the feed's clock. Without `last` there is one departure.
    percentiles
        One to eight of 1 to 100.
    max_walk
        Limit of each walk: to a stop, between stops, from a stop. Two hours at most.
    max_rides
        Vehicles of a journey: 0 (on foot) to 8.
    max_travel
        Slower journeys count as not reached. None is no limit.
    walking_kmh
        Walking speed, in kilometres an hour.
    detour
        Metres walked for a metre of straight line, where there are no streets.
    days_before, days_after
        Neighbouring service days whose trips count: 0 to 6. One before takes in trips past midnight.

    Raises
    ------
    ArgumentError
        A value is not allowed. The message names the argument and what is allowed.

    Examples
    --------
    >>> peak = Question("2026-05-04", "08:00", "08:59", percentiles=(25, 50), max_walk="15 min")
    >>> len(peak.departures)
    60
    >>> peak.replace(max_rides=2).max_rides
    2
    """

    date: Date
    first: TimeOfDay
    last: TimeOfDay | None = None
    percentiles: Sequence[int] = (int(PERCENTILES.default),)
    max_walk: Duration = as_duration(MAX_WALK.default)
    max_rides: int = int(MAX_RIDES.default)
    max_travel: Duration | None = None
    walking_kmh: float = WALKING.default
    detour: float = WAY.default
    days_before: int = int(DAYS_BEFORE.default)
    days_after: int = int(DAYS_AFTER.default)

    def __post_init__(self) -> None:
        first = checked_minute("first", self.first)
        last = first if self.last is None else checked_minute("last", self.last)
        if last < first:
            what = f"last is {last}, before first, which is {first}"
            raise ArgumentError(f"{what}; allowed: a window within one day, so ask for each day of its own")
        checked: dict[str, object] = {
            "date": checked_date(self.date),
            "first": first,
            "last": None if self.last is None else last,
            "percentiles": checked_percentiles(self.percentiles),
            "max_walk": checked_duration("max_walk", self.max_walk, MAX_WALK.allowed),
            "max_rides": checked_number("max_rides", self.max_rides, ON_FOOT_OR_RIDES),
            "walking_kmh": checked_number("walking_kmh", self.walking_kmh, WALKING.allowed),
            "detour": checked_number("detour", self.detour, WAY.allowed),
            "days_before": checked_number("days_before", self.days_before, DAYS_BEFORE.allowed),
            "days_after": checked_number("days_after", self.days_after, DAYS_AFTER.allowed),
        }
        if self.max_travel is not None:
            checked["max_travel"] = checked_duration("max_travel", self.max_travel, MAX_TRAVEL)
        for name, value in checked.items():
            object.__setattr__(self, name, value)  # the class is frozen for all others

    @classmethod
    def starting(cls, departure: dt.datetime, window: Duration = "1 h", **settings: Any) -> "Question":
        """As in r5py and r5r: ``starting(datetime(2026, 5, 4, 8), "1 h")`` has 60 departures, 08:00 to 08:59."""
        if not isinstance(departure, dt.datetime):
            raise not_allowed("departure", departure, "a datetime, such as datetime(2026, 5, 4, 8, 30)")
        if departure.tzinfo is not None:
            raise not_allowed("departure", departure, "one without a time zone, by the clock of the feed")
        if departure.second or departure.microsecond:
            raise not_allowed("departure", departure, "a whole minute")
        seconds = seconds_given("window", window)
        begin = departure.hour * 60 + departure.minute
        if seconds < 60 or seconds % 60 or begin + seconds / 60 > MINUTES_OF_DAY:
            allowed = "whole minutes, at least one, that end by midnight; ask for each day of its own"
            raise not_allowed("window", window, allowed)
        last = as_minute(begin + int(seconds // 60) - 1)
        return cls(departure.date(), as_minute(begin), last, **settings)

    @property
    def departures(self) -> "DatetimeIndex":
        """All departures, local and without a time zone."""
        import pandas

        first, last = window_of(self)
        return pandas.date_range(f"{self.date} {first}", f"{self.date} {last}", freq="min")

    def replace(self, **settings: Any) -> "Question":
        """Return the same question with other settings, checked again."""
        return replace(self, **settings)

    def to_dict(self) -> dict[str, object]:
        """Return the settings as JSON has them; ``Question(**settings)`` makes the question again."""
        return {name: list(value) if isinstance(value, tuple) else value for name, value in asdict(self).items()}


def window_of(question: Question) -> tuple[str, str]:
    """Return the first and the last departure as HH:MM."""
    first = str(question.first)
    return first, first if question.last is None else str(question.last)


def walk_seconds(question: Question) -> int:
    """Return the longest walk in seconds."""
    return int(duration_seconds(question.max_walk))


def travel_seconds(question: Question) -> int | None:
    """Return the longest travel time in seconds; None if there is no limit."""
    return None if question.max_travel is None else int(duration_seconds(question.max_travel))


def not_allowed(name: str, value: object, allowed: str) -> ArgumentError:
    """Return the error for an argument's value."""
    return ArgumentError(f"{name} is {value!r}; allowed: {allowed}")


def checked_date(given: object) -> str:
    """Return a date as YYYY-MM-DD."""
    if isinstance(given, (str, dt.date)) and not isinstance(given, dt.datetime):
        try:
            return day_of(given).isoformat()
        except ValueError:
            pass
    raise not_allowed("date", given, f"a date, or a text {DATES_ALLOWED}")


def checked_minute(name: str, given: object) -> str:
    """Return a minute of the day as HH:MM."""
    if isinstance(given, dt.time) and not (given.second or given.microsecond or given.tzinfo):
        return given.strftime("%H:%M")
    if isinstance(given, str) and is_minute(given):
        return given
    raise not_allowed(name, given, f"a minute of the day, {MINUTES_ALLOWED}")


def checked_number(name: str, given: Any, allowed: Range) -> float:
    """Return a number in a range, also one of numpy, as Python's own."""
    try:
        value = operator.index(given) if allowed.whole else float(given)
    except (TypeError, ValueError):
        raise not_allowed(name, given, str(allowed)) from None
    if isinstance(given, (bool, str)) or value not in allowed:
        raise not_allowed(name, given, str(allowed))
    return value


def checked_percentiles(given: Any) -> tuple[int, ...]:
    """Return the percentiles, ascending."""
    allowed = f"one to {MOST_SHARES} different whole numbers from 1 to 100, such as (25, 50, 75)"
    if isinstance(given, str) or not hasattr(given, "__iter__"):
        raise not_allowed("percentiles", given, allowed)
    numbers = tuple(given)
    try:
        percentiles = sorted(int(checked_number("percentiles", number, PERCENTILES.allowed)) for number in numbers)
    except ArgumentError:
        raise not_allowed("percentiles", numbers, allowed) from None
    if not 1 <= len(percentiles) <= MOST_SHARES or len(set(percentiles)) < len(percentiles):
        raise not_allowed("percentiles", numbers, allowed)
    return tuple(percentiles)


def seconds_given(name: str, given: object) -> float:
    """Return the seconds of a duration that an argument gives."""
    if isinstance(given, (str, dt.timedelta)):
        try:
            return duration_seconds(given)
        except ValueError:
            pass
    raise not_allowed(name, given, "a timedelta, or a text with a unit, such as '15 min' or '90 s'")


def checked_duration(name: str, given: object, allowed: Range) -> str:
    """Return a duration of whole seconds in a range, as a text."""
    seconds = seconds_given(name, given)
    if seconds not in allowed:
        least, most = as_duration(allowed.least), as_duration(allowed.most)
        raise not_allowed(name, given, f"whole seconds, from {least} to {most}")
    return as_duration(seconds)
