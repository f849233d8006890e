"""The journeys between two places: those of a percentile of the departures, or of each departure that is the fastest.

`found_by` looks for them in the runs of a schedule. `refuse_difference` compares their travel time with that of `ttm`.
"""

import datetime
from dataclasses import dataclass
from typing import Sequence

from ..core.errors import InputError
from ..core.text import display_text
from ..core.times import as_clock
from ..engine.arguments import EngineArguments
from ..gtfs.timetable import DAY, Runs, Timetable
from .legs import ridden
from .network import Schedule
from .search import Leg, Search, cell, durations, journey


@dataclass(frozen=True)
class Option:
    """A journey that some departure has."""

    departure: int  # seconds on the axis
    seconds: int
    legs: list[Leg]


@dataclass(frozen=True)
class Found:
    """The journeys between two places in one scenario."""

    name: str  # of the scenario
    cell: int | None  # seconds; None where too few departures get there
    durations: list[int | None]  # for each departure
    chosen: int | None  # the place of the departure whose duration the cell is
    legs: list[Leg]
    runs: Runs
    options: Sequence[Option] = ()  # the journey of the cell, or each that is the fastest of some departure


@dataclass(frozen=True)
class ExplainOptions:
    """Two places of a timetable, and the departures whose journeys are looked for."""

    timetable: Timetable
    origin: int
    destination: int
    departures: list[int]  # seconds on the axis
    back: int  # days before the date, with which the axis begins
    share: int  # percent
    arguments: str  # the other arguments

    def clock(self, seconds: int) -> str:
        """A time of the axis as HH:MM:SS of the date."""
        seconds_of_day = seconds - DAY * self.back
        sign, seconds_of_day = ("-", -seconds_of_day) if seconds_of_day < 0 else ("", seconds_of_day)
        return f"{sign}{as_clock(seconds_of_day)}"

    def stop(self, place: int) -> str:
        """What people call a stop."""
        return self.timetable.all_stops.name_of(self.timetable.stops[place])


def describe_question(task: EngineArguments, date: datetime.date) -> str:
    """The date, days, departures and limits of a search."""
    days = f"service days: {task.back} before and {task.ahead} after"
    limits = f"at most {task.trips} rides, walks up to {task.walk} seconds"
    return f"{date:%Y-%m-%d}, {days}; departures {task.window[0]} to {task.window[1]}, {limits}"


def found_by(what: ExplainOptions, name: str, trips: int, schedule: Schedule, all_options: bool = False) -> Found:
    """What this search finds among the runs of a schedule."""
    times = durations(schedule, what.origin, what.destination, what.departures, trips)
    seconds = cell(times, what.share)
    chosen = None if seconds is None else times.index(seconds)
    options = [] if chosen is None else [option_of(what, chosen, times, trips, schedule)]
    legs = options[0].legs if options else []
    if all_options:
        last = last_to_arrive(what.departures, times)
        options = different([option_of(what, place, times, trips, schedule) for place in last])
    return Found(name, seconds, times, chosen, legs, schedule.runs, options)


def option_of(what: ExplainOptions, place: int, times: Sequence[int | None], trips: int, schedule: Schedule) -> Option:
    """The journey of a departure, which gets there."""
    departure, seconds = what.departures[place], times[place]
    assert seconds is not None
    search = Search(schedule.within(departure, departure + seconds), what.origin, departure, trips)
    return Option(departure, seconds, journey(search, what.destination))


def last_to_arrive(departures: Sequence[int], times: Sequence[int | None]) -> list[int]:
    """Returns the place of the last of the departures that arrive at the same time, for each such time, ascending."""
    there = ((place, taken) for place, taken in enumerate(times) if taken is not None)
    return sorted({departures[place] + taken: place for place, taken in there}.values())


def different(options: Sequence[Option]) -> list[Option]:
    """Options without those by the same vehicles, or on the same walk, as an earlier one."""
    keys = [ridden(option.legs) for option in options]
    return [option for place, option in enumerate(options) if keys[place] not in keys[:place]]


def refuse_difference(
    name: str, own: int | None, seconds: int | None, origin: str, destination: str, at: str = ""
) -> None:
    """Raises `InputError` if `ttm` has another travel time in a scenario."""
    if own != seconds:
        one, other = ("none" if value is None else f"{value} seconds" for value in (seconds, own))
        ends = f"from {display_text(origin)} to {display_text(destination)}{at}, {display_text(name)}"
        raise InputError(
            "the travel times differ", f"{ends}: ttm has {one}, and this search, which isn't proved, has {other}"
        )
