"""Questions of the page; each value is checked before it is used."""

import re
from dataclasses import dataclass
from typing import Mapping

from ..core.errors import ArgumentError
from ..core.question import MAX_RIDES, Setting
from ..core.times import is_minute
from .point import Point

WHOLE = re.compile(r"[0-9]{1,18}")
TAB = re.compile(r"[0-9a-z]{1,32}")
DEGREES = re.compile(r"-?[0-9]{1,3}(\.[0-9]{1,9})?")


@dataclass(frozen=True)
class Question:
    origin: int | Point  # the number of a place of the page, or any point
    window: tuple[str, str]
    trips: int
    tab: str  # of the browser, which sends one question after another
    turn: int  # the number of the question in this tab
    version: int  # the number of the network that the tab shows


def whole(args: Mapping[str, str], name: str, least: int, most: int) -> int:
    text = args.get(name, "")
    if not WHOLE.fullmatch(text) or not least <= int(text) <= most:
        raise ArgumentError(f"{name} is {text[:60]!r}; allowed: {least} to {most}")
    return int(text)


def setting_in(args: Mapping[str, str], setting: Setting) -> int:
    """A setting of a question in a request."""
    return whole(args, setting.option, int(setting.allowed.least), int(setting.allowed.most))


def clock(args: Mapping[str, str], name: str) -> str:
    text = args.get(name, "")
    if not is_minute(text):
        raise ArgumentError(f"{name} is {text[:60]!r}; allowed: 00:00 to 23:59")
    return text


def window_of(args: Mapping[str, str]) -> tuple[str, str]:
    first, last = clock(args, "first"), clock(args, "last")
    if last < first:
        raise ArgumentError(f"the last departure, {last}, is before the first, {first}")
    return first, last


def degrees(args: Mapping[str, str], name: str, most: int) -> float:
    text = args.get(name, "")
    if not DEGREES.fullmatch(text) or abs(float(text)) > most:
        raise ArgumentError(f"{name} is {text[:60]!r}; allowed: -{most} to {most}")
    return float(text)


def origin_of(args: Mapping[str, str], places: int) -> int | Point:
    if "lat" in args or "lon" in args:
        return Point(degrees(args, "lat", 90), degrees(args, "lon", 180))
    return whole(args, "origin", 0, places - 1)


def question_of(args: Mapping[str, str], places: int) -> Question:
    tab, turn, version = tab_of(args), whole(args, "turn", 0, 1 << 53), version_of(args)
    origin, trips = origin_of(args, places), setting_in(args, MAX_RIDES)
    return Question(origin, window_of(args), trips, tab, turn, version)


def tab_of(args: Mapping[str, str]) -> str:
    tab = args.get("tab", "")
    if not TAB.fullmatch(tab):
        raise ArgumentError("tab is not the name of a tab")
    return tab


def version_of(args: Mapping[str, str]) -> int:
    return whole(args, "version", 1, 1 << 53)
