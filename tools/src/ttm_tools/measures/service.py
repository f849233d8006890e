"""What runs on a service day: departures, headways, span, speed, vehicles, vehicle hours and kilometres.

A run belongs to the period in which it leaves its first stop, with all its time and way. Headways are the times between
departures that follow one another, both in the period, at the stop at which most runs of the direction call; of several
such stops the first on the way. A run that calls there several times counts with its first call. Vehicles are the most
runs under way at once, without any time to turn.
"""

import functools
from dataclasses import dataclass
from typing import Any, Sequence

import numpy as np

from ..core.arrays import Floats, Mask, Whole
from .columns import column, row_of

HOUR, NONE = 3600.0, float("nan")


@dataclass(frozen=True)
class Period:
    """A part of the day, seconds since midnight; the end isn't in it."""

    start: int
    end: int

    @property
    def hours(self) -> float:
        """The hours by which departures are divided: 24 at most, since service past midnight belongs to the day."""
        return min((self.end - self.start) / HOUR, 24.0)

    def has(self, times: Whole) -> Mask:
        inside: Mask = (times >= self.start) & (times < self.end)
        return inside


@dataclass(frozen=True)
class ServiceCalls:
    """The departures of all runs at stops, without the last call of each run."""

    run: Whole
    stop: Whole  # places among the stops
    depart: Whole  # seconds
    position: Whole  # on the run, from 0
    next_stop: Whole


@dataclass(frozen=True)
class ServiceRuns:
    """The runs of a scenario on a service day."""

    trip: Whole  # places among the trips
    start: Whole  # first departure, seconds
    end: Whole  # last arrival
    kilometres: Floats
    calls: ServiceCalls

    @functools.cached_property
    def first_calls(self) -> Whole:
        """The places of the calls that are a run's first at their stop; later ones are those of loops."""
        calls = self.calls
        _, places = np.unique(np.stack([calls.run, calls.stop], axis=1), axis=0, return_index=True)
        found: Whole = np.sort(places)
        return found


def headway_stops(running: ServiceRuns, group: Whole, groups: int, stops: int) -> Whole:
    """For each group of runs the stop at which most of them call; of several the first on the way; -1 for none."""
    calls, first_calls = running.calls, running.first_calls
    run, stop, position = calls.run[first_calls], calls.stop[first_calls], calls.position[first_calls]
    key, run_once = np.unique(group[run] * stops + stop, return_inverse=True)
    counts = np.bincount(run_once, minlength=len(key))
    means = np.bincount(run_once, position, len(key)) / np.maximum(counts, 1)
    stop_of_group = np.full(groups, -1, dtype=np.int64)
    order = np.lexsort([means, -counts, key // stops])
    first = np.ones(len(order), dtype=np.bool_)
    first[1:] = np.diff(key[order] // stops) > 0
    stop_of_group[key[order][first] // stops] = key[order][first] % stops
    return stop_of_group


@dataclass(frozen=True)
class PeriodRuns:
    """Some of the runs in a period, and a stop of theirs; -1 for none."""

    running: ServiceRuns
    chosen: Mask
    period: Period
    stop: int

    @functools.cached_property
    def inside(self) -> Mask:
        """The runs that leave their first stop in the period."""
        return self.chosen & self.period.has(self.running.start)

    @functools.cached_property
    def gaps(self) -> Floats:
        """Minutes between departures from the stop that follow one another."""
        calls, first_calls = self.running.calls, self.running.first_calls
        at_stop = first_calls[calls.stop[first_calls] == self.stop]
        here = at_stop[self.chosen[calls.run[at_stop]] & self.period.has(calls.depart[at_stop])]
        return np.diff(np.sort(calls.depart[here])) / 60

    @property
    def seconds(self) -> float:
        return float((self.running.end - self.running.start)[self.inside].sum())

    @property
    def kilometres(self) -> float:
        return float(self.running.kilometres[self.inside].sum())


def vehicles_in(running: ServiceRuns, chosen: Mask, period: Period) -> int:
    """The most runs under way at once; one that ends frees its vehicle for one that begins then."""
    under = chosen & (running.start < period.end) & (running.end > period.start)
    begins, ends = np.maximum(running.start[under], period.start), np.minimum(running.end[under], period.end)
    times, steps = np.concatenate([ends, begins]), np.repeat([-1, 1], int(under.sum()))
    order = np.argsort(times, kind="stable")  # ends stand before begins of the same time
    return int(np.cumsum(steps[order]).max(initial=0))


def least(numbers: "Floats | Whole") -> float:
    return float(numbers.min()) if len(numbers) else NONE


def greatest(numbers: "Floats | Whole") -> float:
    return float(numbers.max()) if len(numbers) else NONE


OF_GAPS = (
    "median and greatest time between successive departures in the period, at the stop where most runs of the direction"
    " call (of several, the first on the way); a run that calls there several times counts with its first call"
)
OF_WAYS = (
    "from each run's first departure to its last arrival; along straight lines from stop to stop, on the ellipsoid"
    " WGS 84"
)


@dataclass(frozen=True)
class Service:
    """What runs in a period; NaN if undefined. `head` is for the page, `decimals` for the table."""

    departures: int = column(
        lambda part: int(part.inside.sum()), "runs that leave their first stop in the period", head="departures"
    )
    headway_minutes: float = column(
        lambda part: float(np.median(part.gaps)) if len(part.gaps) else NONE, OF_GAPS, head="headway, min"
    )
    greatest_gap_minutes: float = column(lambda part: greatest(part.gaps), OF_GAPS, head="greatest gap, min")
    first_departure: float = column(
        lambda part: least(part.running.start[part.inside]), "of these runs", head="first", is_time=True
    )
    last_arrival: float = column(
        lambda part: greatest(part.running.end[part.inside]), "of these runs", head="last", is_time=True
    )
    kilometres_an_hour: float = column(
        lambda part: part.kilometres / (part.seconds / HOUR) if part.seconds else NONE,
        "vehicle kilometres by vehicle hours: the speed with all stops",
        head="km/h",
        decimals=2,
    )
    vehicles: int = column(
        lambda part: vehicles_in(part.running, part.chosen, part.period),
        "the most runs under way at once in the period, without turning times and empty runs; a run that arrives frees"
        " its vehicle for one that leaves at that second",
        head="vehicles",
    )
    vehicle_hours: float = column(lambda part: part.seconds / HOUR, OF_WAYS, head="hours", decimals=2)
    vehicle_kilometres: float = column(lambda part: part.kilometres, OF_WAYS, head="km", decimals=2)


def service_of(running: ServiceRuns, chosen: Mask, period: Period, stop: int) -> Service:
    """What some of the runs are in a period."""
    return row_of(Service, PeriodRuns(running, chosen, period, stop))


def departures_by_stop(running: ServiceRuns, period: Period, stops: int) -> Whole:
    """How many vehicles leave each stop in a period."""
    inside = period.has(running.calls.depart)
    departures: Whole = np.bincount(running.calls.stop[inside], minlength=stops)
    return departures


def departures_by_piece(running: ServiceRuns, period: Period) -> tuple[Whole, Whole, Whole]:
    """Pairs of stops that follow one another on some run, either way, and how many vehicles leave for the other in a
    period.
    """
    inside = period.has(running.calls.depart)
    pairs = np.sort(np.stack([running.calls.stop[inside], running.calls.next_stop[inside]], axis=1), axis=1)
    found: Any = np.unique(pairs, axis=0, return_counts=True)
    return found[0][:, 0], found[0][:, 1], found[1]


def periods_of(times: Sequence[int]) -> list[Period]:
    """The periods between times that follow one another."""
    return [Period(start, end) for start, end in zip(times, times[1:])]
