"""Kinds of values in TOML files: what is allowed, the message for any other value, and the conversion.

`toml_file.Entry.read` applies them, for plans and for studies.
"""

import datetime
import difflib
from dataclasses import dataclass
from decimal import Decimal
from typing import Any, Callable, Generic, Iterable, TypeVar

from .limits import LAST_TIME
from .text import quantity
from .times import clock_seconds

Value = TypeVar("Value")


class WrongItem(ValueError):
    """One item of a list is wrong: its number, from 0 on, and what is allowed there."""

    def __init__(self, number: int, what: str, allowed: str) -> None:
        super().__init__(what)
        self.number, self.what, self.allowed = number, what, allowed


@dataclass(frozen=True)
class Kind(Generic[Value]):
    """A kind of values."""

    allowed: str
    wrong: str  # the message for any other value
    convert: Callable[[Any], Value]  # raises a ValueError, or a `WrongItem` for an item of a list
    names: tuple[str, ...] = ()  # the allowed values, if they can be listed; an error shows the nearest
    is_shown: bool = True  # in the message
    of_tables: bool = False  # the value is a list of tables
    of_table: Callable[[Any], Value] | None = None  # converts a single table, if one is allowed instead of a list


def nearest_name(name: str, names: Iterable[str]) -> str | None:
    """Return the most similar of some names, or None if none is similar."""
    return next(iter(difflib.get_close_matches(name, list(names), 1, 0.5)), None)


def near(name: str, names: Iterable[str]) -> str:
    """Return the end of an error message that names the most similar name, or "" if none is similar."""
    found = nearest_name(name, names)
    return "" if found is None else f"; the nearest is {found!r}"


def as_written(value: Any) -> str:
    """Return a value as TOML writes it."""
    if isinstance(value, list):
        return "[" + ", ".join(repr(item) if isinstance(item, str) else str(item) for item in value) + "]"
    return str(value)


def is_number(value: object) -> bool:
    return type(value) is int or isinstance(value, Decimal) and value.is_finite()


def taken_if(fits: Callable[[Any], bool]) -> Callable[[Any], Any]:
    """Return a conversion that returns values unchanged if they fit, and raises a `ValueError` otherwise."""

    def convert(value: Any) -> Any:
        if not fits(value):
            raise ValueError(value)
        return value

    return convert


def texts_of(value: Any) -> list[str]:
    listed = [value] if isinstance(value, str) else value
    if not isinstance(listed, list) or not listed or not all(isinstance(item, str) and item for item in listed):
        raise ValueError(value)
    return listed


def seconds_of(value: Any) -> int:
    """Return the seconds from midnight to a time."""
    seconds = clock_seconds(value.isoformat("seconds") if isinstance(value, datetime.time) else str(value))
    if seconds is None or seconds > LAST_TIME:
        raise ValueError(value)
    return seconds


def whole(least: int, most: int, unit: str = "") -> Kind[int]:
    allowed = f"a whole number from {least:,} to {most:,} {unit}".rstrip()
    return Kind(allowed, "is invalid", taken_if(lambda value: type(value) is int and least <= value <= most))


def wholes(count: int, most: int) -> Kind[list[int]]:
    """A list of exactly `count` integers from 0 on."""
    allowed = f"{quantity(count, 'whole number')} in brackets, 0 to {most:,}"
    one = whole(0, most).convert
    return Kind(allowed, "is invalid", taken_if(lambda value: type(value) is list and len([*map(one, value)]) == count))


def number(least: float, most: float, unit: str = "") -> Kind[float]:
    allowed = f"a number from {least:g} to {most:,.10g} {unit}".rstrip()
    convert = taken_if(lambda value: is_number(value) and least <= value <= most)
    return Kind(allowed, "is invalid", lambda value: float(convert(value)))


def decimal(least: str, most: str) -> Kind[Decimal]:
    """A number with at most six decimal places."""
    allowed, low, high = f"a number from {least} to {most}, with at most six decimals", Decimal(least), Decimal(most)
    convert = taken_if(lambda value: is_number(value) and low <= value <= high and value == round(value, 6))
    return Kind(allowed, "is invalid", lambda value: Decimal(convert(value)))


def ascending(least: float, most: float, unit: str, is_whole: bool = True, count: int = 8) -> Kind[tuple[float, ...]]:
    """A list of one to `count` numbers in a range, ascending."""
    allowed = f"1 to {count} {'whole ' * is_whole}numbers in brackets, {least:g} to {most:,.10g} {unit}, ascending"
    one: Kind[int] | Kind[float] = whole(int(least), int(most)) if is_whole else number(least, most)

    def convert(value: Any) -> tuple[float, ...]:
        listed = value if isinstance(value, list) else [value]
        numbers = tuple(map(one.convert, listed))
        if not 1 <= len(numbers) <= count or any(low >= high for low, high in zip(listed, listed[1:])):
            raise ValueError(value)
        return numbers

    return Kind(allowed, "is invalid", convert)


def one_of(*names: str) -> Kind[str]:
    listed = ", ".join(f'"{name}"' for name in names)
    return Kind(f"one of {listed}", f"isn't one of {listed}", taken_if(lambda value: value in names), names)


TEXT: Kind[str] = Kind("text in quotes", "is not text", taken_if(lambda value: isinstance(value, str)))
NAME: Kind[str] = Kind("text in quotes", "is not text", taken_if(lambda value: isinstance(value, str) and value != ""))
TEXTS = Kind('"one" or ["one", "other"]', "is neither text nor a list of texts", texts_of, is_shown=False)
FLAG: Kind[bool] = Kind("true or false", "is invalid", taken_if(lambda value: isinstance(value, bool)))
TIME = Kind("HH:MM or HH:MM:SS, from 00:00 to 167:59:59", "is not a time", seconds_of)
