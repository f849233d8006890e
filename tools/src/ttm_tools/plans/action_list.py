"""The actions of a plan, each one entry: its name, its keys, what it does, an example, and the function that does it,
by its module, so that `--help` needs no package. `--help` and the table of docs/reference/plan-file.md come from it.
"""

import textwrap
from dataclasses import dataclass
from pkgutil import resolve_name
from typing import TYPE_CHECKING, Callable

from ..core.columns import table

if TYPE_CHECKING:
    from ..core.toml_file import Entry
    from .state import State

CHOICE = ("route", "direction", "pattern", "service")  # the keys that choose trips
NAME_WIDTH, WIDTH = 15, 120  # of lines of --help


@dataclass(frozen=True)
class Action:
    """An action, what is said of it, and the function that carries it out and gives sentences on what it chose."""

    name: str
    keys: tuple[str, ...]  # in addition to `do`
    fields: str  # what --help says of its keys
    does: str
    example: str
    function: str

    def carry_out(self) -> "Callable[[State, Entry], list[str]]":
        function: Callable[[State, Entry], list[str]] = resolve_name(f"{__package__}.actions.{self.function}")
        return function


LISTED = (
    Action(
        "remove_route",
        ("route",),
        "route",
        "removes the trips of a `route`",
        '`route = "R2"`: T1 alone runs',
        "trips.remove",
    ),
    Action(
        "remove_mode",
        ("mode",),
        "mode: tram, metro, rail, bus, ferry, cable_tram, aerial, funicular, trolleybus or monorail",
        "removes the trips of all routes of a `mode`: tram, metro, rail, bus, ferry, cable_tram, aerial, funicular,"
        " trolleybus or monorail; extended route types count as the nearest of these",
        '`mode = "tram"`: of a bus R1 and a tram R2, T1 of R1 alone runs',
        "trips.remove_modes",
    ),
    Action("remove_trip", ("trip",), "trip", "removes a `trip`", '`trip = "T2"`: T1 alone runs', "trips.remove"),
    Action(
        "remove_stop",
        ("stop", *CHOICE),
        "stop; trips (of route ..) no longer call there",
        "trips (of a `route`, or all) no longer call at a `stop`; other times stay; a trip with one call left goes",
        '`stop = "C"`: T2 is left with B, and goes',
        "trips.remove_stop",
    ),
    Action(
        "shift_route",
        ("route", "direction", "seconds"),
        "route, direction, seconds (negative for earlier)",
        "moves all times of a `route`, or of one `direction` of it, by `seconds`, negative for earlier",
        '`route = "R1"`, `seconds = 300`: A 08:05, B 08:15, just in time for T2',
        "trips.shift",
    ),
    Action(
        "shift_trip",
        ("trip", "seconds"),
        "trip, seconds",
        "moves all times of a `trip` by `seconds`",
        '`trip = "T1"`, `seconds = 300`: the same',
        "trips.shift",
    ),
    Action(
        "add_line",
        ("route", "name", "type", "agency", "stops", "seconds", "speed", "dwell", "both", "departures")
        + ("service", "days"),
        "route (new), name, type (of the GTFS, default 3, a bus), agency; stops, in order; seconds between them, or"
        " speed (km/h along straight lines) and dwell (seconds at stops between the ends, default 0); both"
        " (directions, default true); departures = [{ first, last, every (seconds) }, ..]; days"
        ' ("daily", "weekdays", "weekend" or a list such as ["monday"]) or service',
        "adds a `route` along `stops`, with `seconds` between them or a `speed` (km/h along straight lines, rounded up"
        " to whole seconds), and a `dwell` (seconds at stops between the ends); `departures` by periods that include"
        " `last`, from both ends (`both = false`: from the first); on `days`, or by a `service` of the feed",
        '`stops = ["A", "B", "C"]`, `seconds = [300, 400]`, `dwell = 20`, first 08:00, last 08:10, every 600: A 08:00,'
        " B 08:05 to 08:05:20, C 08:12; the same at 08:10; and from C at both times",
        "lines.add_line",
    ),
    Action(
        "headway",
        (*CHOICE, "every", "times", "from", "to"),
        "route .., every (seconds), from, to: departures from the first time on, before the second; copies of a"
        " typical trip, which is printed, replace the trips that leave in between. With times = 2 instead of every, a"
        " copy of each trip is added halfway to the next departure; from 00:00 to 30:00 is the whole day",
        "copies of a typical trip, one `every` number of seconds, replace the trips that leave from `from` to strictly"
        " before `to`. In each direction the typical trip, which is printed, has the median running time of the pattern"
        " with the most departures there. With `times = 2` in place of `every`, all trips stay, and a copy of each is"
        ' added halfway to the next departure from the same stop; `from = "00:00"`, `to = "30:00"` takes the whole day',
        '`route = "R2"`, `every = 300`, from 08:10 to 08:20: T2 is replaced by B 08:10, C 08:25 and B 08:15, C 08:30',
        "headways.headway",
    ),
    Action(
        "speed",
        (*CHOICE, "from_stop", "to_stop", "factor", "dwell"),
        "route .., factor of the run times, or dwell (seconds to add at each stop, negative to remove), between the"
        " ends or from_stop and to_stop; sums of run times are rounded to the nearest second",
        "multiplies run times by a `factor`, or adds seconds to `dwell` times, of whole trips or between `from_stop`"
        " and `to_stop`; sums are rounded to the nearest second",
        '`route = "R2"`, `factor = 0.85`: 900 seconds become 765, C 08:27:45',
        "lines.speed",
    ),
    Action(
        "extend",
        (*CHOICE, "after", "before", "stops", "seconds", "speed", "dwell"),
        "route .., after (the stop at which trips end) or before (at which they begin), stops, seconds or speed and"
        " dwell as above",
        "trips that end at the stop `after` go on to `stops`, or trips that begin at `before` begin earlier; `seconds`"
        " or `speed` and `dwell` as above",
        '`route = "R1"`, `after = "B"`, `stops = ["C"]`, `seconds = [600]`, `dwell = 30`: T1 leaves B at 08:10:30 and'
        " arrives at C at 08:20:30",
        "trips.extend",
    ),
    Action(
        "cut",
        (*CHOICE, "after", "before"),
        "route .., after or before: the stop at which trips now end or begin",
        "trips end at the stop `after`, or begin at `before`",
        'then `route = "R1"`, `after = "B"`: T1 ends at B again',
        "trips.cut",
    ),
)
ACTIONS = {action.name: action for action in LISTED}


def help_table() -> str:
    """The actions as `--help` lists them."""
    indent = " " * (2 + NAME_WIDTH)
    listed = ((f"  {action.name}".ljust(len(indent)), action.fields) for action in LISTED)
    return "\n".join(textwrap.fill(text, WIDTH, initial_indent=name, subsequent_indent=indent) for name, text in listed)


def markdown_table() -> str:
    """The actions as docs/reference/plan-file.md lists them."""
    rows = ([f"`{action.name}`", action.does, action.example] for action in LISTED)
    return table(["`do`", "What it does", "Example"], rows)
