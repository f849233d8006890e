"""Changes of the network as the page sends them, and as actions of a plan.

The page names routes and stops by their numbers, so that no text of it is taken for an identifier, but for the name of
a new line.
"""

import itertools
from dataclasses import dataclass
from decimal import Decimal, InvalidOperation
from typing import Any, Mapping, Sequence

from ..core.errors import ArgumentError
from ..core.question import MAX_WALK, Setting
from .routes import Route

Values = dict[str, Any]
MOST = 1_000_000  # of a number with decimals
MOST_ACTIONS, MOST_STOPS, LONGEST = 200, 500, 100  # of a plan, of an action, and of a new line's name
KINDS = {
    "remove_route": ("route",),
    "headway": ("route", "every", "from", "to"),
    "speed": ("route", "factor"),
    "cut": ("route", "way", "after"),
    "extend": ("route", "way", "stops", "speed", "dwell"),
    "add_line": ("name", "stops", "speed", "dwell", "both", "first", "last", "every"),
}
NAME = "changed"


def actions_of(body: Any) -> list[Values]:
    """The actions that the page sends, each of a kind with its values; the plan checks the values."""
    found = body.get("actions") if isinstance(body, dict) else None
    if not isinstance(found, list) or len(found) > MOST_ACTIONS:
        raise ArgumentError(f"actions is not a list of at most {MOST_ACTIONS}")
    for action in found:
        kind = action.get("do") if isinstance(action, dict) else None
        if not isinstance(kind, str) or kind not in KINDS:
            raise ArgumentError(f"no action {str(kind)[:60]!r}; there are {', '.join(KINDS)}")
        if set(action) != {"do", *KINDS[kind]}:
            raise ArgumentError(f"{kind} takes {', '.join(KINDS[kind])}")
    return found


def walk_of(body: Any) -> int:
    """The longest walk that the page sends, in seconds."""
    return setting_in(body if isinstance(body, dict) else {}, MAX_WALK)


def setting_in(body: Mapping[str, Any], setting: Setting) -> int:
    """A setting of a question in what the page sends."""
    name, allowed = setting.option, setting.allowed
    return number(body.get(name), name, int(allowed.least), int(allowed.most))


def number(value: Any, name: str, least: int, most: int) -> int:
    if type(value) is not int or not least <= value <= most:
        raise ArgumentError(f"{name} is {str(value)[:60]!r}; allowed: {least} to {most}")
    return value


def decimal(value: Any, name: str) -> Decimal:
    """A number as the page writes it, with at most six decimals."""
    try:
        number = Decimal(str(value)) if isinstance(value, (str, int, float)) else Decimal("NaN")
    except InvalidOperation:
        number = Decimal("NaN")
    if not number.is_finite() or abs(number) > MOST or number != round(number, 6):
        raise ArgumentError(f"{name} is {str(value)[:60]!r}, not a number with at most six decimals")
    return number


@dataclass(frozen=True)
class Namer:
    """Finds the identifiers of the page's numbers."""

    stops: Sequence[str]  # by the numbers of places
    routes: Sequence[Route]  # by their numbers

    def stop(self, value: Any, name: str = "stop") -> str:
        return self.stops[number(value, name, 0, len(self.stops) - 1)]

    def several(self, value: Any) -> list[str]:
        if not isinstance(value, list) or not 0 < len(value) <= MOST_STOPS:
            raise ArgumentError(f"stops is not a list of 1 to {MOST_STOPS}")
        return [self.stop(place) for place in value]

    def action(self, change: Values) -> Values:
        if change["do"] == "add_line":
            return self.new_line(change)
        route = self.routes[number(change["route"], "route", 0, len(self.routes) - 1)]
        action: Values = {"do": change["do"], "route": route.identifier}
        if change["do"] in ("cut", "extend"):
            way = route.ways[number(change["way"], "way", 0, len(route.ways) - 1)]
            key, value = ("pattern", way.trip) if way.direction is None else ("direction", way.direction)
            action[key] = value
            action["after"] = self.stop(change["after"] if change["do"] == "cut" else way.stops[-1], "after")
        if change["do"] == "extend":
            action |= {"stops": self.several(change["stops"]), **pace(change)}
        if change["do"] == "headway":
            action |= {"every": number(change["every"], "every", 1, 86_400), "from": change["from"], "to": change["to"]}
        if change["do"] == "speed":
            action["factor"] = decimal(change["factor"], "factor")
        return action

    def new_line(self, change: Values) -> Values:
        name = change["name"]
        if not isinstance(name, str) or not 0 < len(name) <= LONGEST or not name.isprintable():
            raise ArgumentError(f"name is not a text of 1 to {LONGEST} printable characters")
        departures: Values = {"first": change["first"], "last": change["last"]}
        departures["every"] = number(change["every"], "every", 1, 86_400)
        ends = {"stops": self.several(change["stops"]), **pace(change), "both": change["both"] is True}
        return {"do": "add_line", "route": name, **ends, "departures": [departures], "days": "daily"}


def pace(change: Values) -> Values:
    return {"speed": decimal(change["speed"], "speed"), "dwell": number(change["dwell"], "dwell", 0, 3_600)}


def name_among(names: Sequence[str]) -> str:
    """The name of the scenario of a person's changes, which none of a plan has."""
    numbered = (f"{NAME} {number}" for number in itertools.count(2))
    return next(name for name in itertools.chain([NAME], numbered) if name not in names)
