"""Kinds of values that a study's file has in addition to those of all TOML files, and the fields of its tables."""

import datetime
import re
from dataclasses import MISSING, dataclass, field
from typing import Any, Sequence

from ..core import toml_values
from ..core.question import Setting
from ..core.text import quantity
from ..core.times import as_ttm_reads, day_of, is_minute, minutes_of
from ..core.toml_file import Entry
from ..core.toml_values import Kind, WrongItem, is_number, taken_if

WINDOW_NAME = re.compile(r"[\w-]{1,40}")
MOST_DATES, MOST_WINDOWS = 31, 96
SEVERAL_DATES = f"1 to {MOST_DATES} dates in brackets, ascending"
DAY_MINUTES = 1440
EVERY = 60  # minutes from one window of a rule to the next
RULE = '{ from = "05:00", to = "24:00", every = 60, length = 60 }'
SEVERAL_WINDOWS = f"1 to {MOST_WINDOWS} tables of name, from and to in brackets, or a rule such as {RULE}"
EITHER_FORM = "a list of tables with name, from and to, or one table with from, to, every and length"


@dataclass(frozen=True)
class Window:
    """Departures of a day, one each minute, and what they are called."""

    name: str
    first: str  # HH:MM
    last: str

    @property
    def is_named_by_first(self) -> bool:
        """Whether its name is its first departure, as a rule names it."""
        return self.name == self.first.replace(":", "")


def setting(kind: Kind[Any], what: str, example: str, default: Any = None, instead: str | None = None) -> Any:
    """A field of a table: its kind, its meaning, how the template writes it, and its default."""
    return field(default=default, metadata={"kind": kind, "meaning": what, "example": example, "instead": instead})


def of_question(known: Setting, what: str) -> Any:
    """A field for a whole number among the settings of a question, with its range and default."""
    allowed, default = known.allowed, int(known.default)
    return setting(toml_values.whole(int(allowed.least), int(allowed.most), allowed.unit), what, str(default), default)


def several(kind: Kind[Any], what: str, example: str) -> Any:
    """A field that has no values by default."""
    return setting(kind, what, example, ())


def needed(kind: Kind[Any], what: str, example: str, instead: str | None = None) -> Any:
    """A field that has no default: it is needed, where another field doesn't replace it."""
    return setting(kind, what, example, MISSING, instead)


def flag(what: str, default: bool = False) -> Any:
    return setting(toml_values.FLAG, what, str(not default).lower(), default)


def texts_or_none(value: Any) -> tuple[str, ...]:
    return tuple(toml_values.texts_of(value)) if value != [] else ()


def day_in(value: Any) -> str:
    """A day as `ttm` takes it, from a date of TOML or a text."""
    return as_ttm_reads(day_of(value if type(value) is datetime.date else str(value)))


def days_in(value: Any) -> tuple[str, ...]:
    """Days, each after the one before it."""
    if not isinstance(value, list) or not value:
        raise ValueError(value)
    days = list[str]()
    for number, item in enumerate(value):
        try:
            day = day_in(item)
        except ValueError:
            raise WrongItem(number, DATE.wrong, DATE.allowed) from None
        if number == MOST_DATES:
            raise WrongItem(number, "is one date too many", SEVERAL_DATES)
        if days and day <= days[-1]:
            raise WrongItem(number, "isn't after the date before it", SEVERAL_DATES)
        days.append(day)
    return tuple(days)


def minute_in(value: Any) -> str:
    """A minute of the day, from a time of TOML or a text."""
    text = value.strftime("%H:%M") if isinstance(value, datetime.time) and not value.second else str(value)
    if not is_minute(text):
        raise ValueError(value)
    return text


def windows_in(entries: Sequence[Entry]) -> tuple[Window, ...]:
    """Windows of a day, no two called alike."""
    windows = list[Window]()
    for entry in entries:
        refuse_mixed(entry, ("every", "length"), "name")
        entry.only(("name", "from", "to"))
        name, first, last = entry.text("name"), entry.read("from", MINUTE), entry.read("to", MINUTE)
        if not WINDOW_NAME.fullmatch(name) or name.casefold() in [window.name.casefold() for window in windows]:
            raise entry.fault("can't be a window's name", "name", name, "up to 40 letters, digits, _ and -, each once")
        if last < first:
            raise entry.fault("is before from", "to", last)
        windows.append(Window(name, first, last))
    if len(windows) > MOST_WINDOWS:
        raise ValueError(entries)
    return tuple(windows)


def refuse_mixed(entry: Entry, of_other: Sequence[str], own: str) -> None:
    """Refuses keys of the other form of `windows`; the error also names a key of this form, if it is there."""
    other = next((key for key in of_other if entry.has(key)), None)
    if other is not None:
        found = sorted([other, *([own] if entry.has(own) else [])])
        raise entry.fault(f"has {' and '.join(found)}", "windows", allowed=EITHER_FORM)


def end_in(value: Any) -> str:
    """Where the windows of a rule end: a minute of the day, or 24:00."""
    return "24:00" if value == "24:00" else minute_in(value)


def windows_by_rule(entry: Entry) -> tuple[Window, ...]:
    """Windows that begin at `from` and every `every` minutes later, as long as a whole one ends by `to`."""
    refuse_mixed(entry, ("name",), "every")
    entry.only(("from", "to", "every", "length"))
    first, end = entry.read("from", MINUTE), entry.read("to", END)
    every = entry.read("every", MINUTES, EVERY)
    length = entry.read("length", MINUTES, every)
    start, minutes = minutes_of(first), minutes_of(end) - minutes_of(first)
    if minutes <= 0:
        raise entry.fault("is not after from", "to", end)
    if length > minutes:
        key = "every" if entry.has("every") and not entry.has("length") else "length"
        what = f"is longer than the {quantity(minutes, 'minute')} from {first} to {end}"
        raise entry.fault(what, key, str(length), f"1 to {quantity(minutes, 'minute')}")
    starts = range(start, start + minutes - length + 1, every)
    if len(starts) > MOST_WINDOWS:
        found = quantity(len(starts), "window")
        what = f"gives {found}, and {MOST_WINDOWS} are allowed; use every = {EVERY} or a shorter day"
        raise entry.fault(what, "windows").noting(limit=MOST_WINDOWS)
    pairs = ((minute_text(at), minute_text(at + length - 1)) for at in starts)
    return tuple(Window(first.replace(":", ""), first, last) for first, last in pairs)


def minute_text(minutes: int) -> str:
    """A minute of the day as HH:MM."""
    return f"{minutes // 60:02d}:{minutes % 60:02d}"


def is_box(value: Any) -> bool:
    if not isinstance(value, list) or len(value) != 4 or not all(map(is_number, value)):
        return False
    west, south, east, north = value
    return bool(-180 <= west <= 180 and -180 <= east <= 180 and -90 <= south <= north <= 90)


FILE = Kind("a path, relative to this file's folder", "is not text", toml_values.NAME.convert)
NO_TEXTS = "is neither text nor a list of texts"
FILES = Kind("paths in brackets, relative to this file's folder", NO_TEXTS, texts_or_none, is_shown=False)
TEXTS = Kind("texts in brackets", NO_TEXTS, texts_or_none, is_shown=False)
DATE = Kind("YYYY-MM-DD, or YYYYMMDD in quotes", "is not a date", day_in)
DATES = Kind(SEVERAL_DATES, "is invalid", days_in)
WINDOWS = Kind(
    SEVERAL_WINDOWS,
    "names too many windows",
    windows_in,
    is_shown=False,
    of_tables=True,
    of_table=windows_by_rule,
)
MINUTES = toml_values.whole(1, DAY_MINUTES, "minutes")
END = Kind("HH:MM in quotes, 00:01 to 24:00", "is not a time", end_in)
MINUTE = Kind("HH:MM in quotes, 00:00 to 23:59", "is not a time", minute_in)
BOX = Kind(
    "[west, south, east, north] in degrees", "is invalid", lambda value: tuple(map(float, taken_if(is_box)(value)))
)
