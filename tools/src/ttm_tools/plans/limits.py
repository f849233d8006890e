"""What `ttm` takes, reported before anything is written."""

from itertools import chain
from typing import Iterator, Sequence

import numpy as np

from ..core.arrays import Whole
from ..core.errors import LimitError
from ..core.limits import MOST_EVENTS, MOST_RUNS, MOST_TRIPS
from ..core.notices import Notice
from ..gtfs.service_days import runs_of_trips
from .base import Base
from .days import runs_of
from .state import State

FEWER = "use fewer scenarios, or change fewer trips"


def refuse_limits(path: str, base: Base, states: Sequence[State]) -> None:
    """Refuses a feed that would have more trips or stop times than `ttm` takes."""
    own = [trip for state in states for trip in state.own.values()]
    trips = len(base.trips) + len(own)
    events = base.records + sum(len(trip.stop) for trip in own)
    for count, most, what in ((trips, MOST_TRIPS, "trips"), (events, MOST_EVENTS, "stop times")):
        if count > most:
            too_many = f"the feed of all scenarios would have {count:,} {what}, and ttm takes {most:,}"
            raise LimitError(path, f"{too_many}: {FEWER}", limit=most)


def by_day(base: Base, states: Sequence[State]) -> Whole:
    """The runs and the calls of all scenarios' trips together, on each day that the calendars know: a row of each."""
    old = zip(base.services, runs_of_trips(base.feed).tolist(), base.lengths.tolist())
    own = (trip for state in states for trip in state.own.values())
    totals: dict[str, tuple[int, int]] = {}
    for service, runs, calls in chain(old, ((trip.service, len(trip.departures), len(trip.stop)) for trip in own)):
        before = totals.get(service, (0, 0))
        totals[service] = (before[0] + runs, before[1] + runs * calls)
    found = np.zeros((2, base.days.runs.shape[1]), dtype=np.int64)
    for service, counts in totals.items():
        found += np.array(counts, dtype=np.int64)[:, None] * runs_of(base, service)
    return found


def most_of(counts: Whole, days: int) -> tuple[int, int, int]:
    """The middle of the odd number of consecutive days that have the most calls, and their runs and calls."""
    runs, calls = (np.convolve(row, np.ones(days, dtype=np.int64), "same")[: len(row)] for row in counts)
    place = int(np.argmax(calls))
    return place, int(runs[place]), int(calls[place])


def is_too_much(runs: int, calls: int) -> bool:
    return runs > MOST_RUNS or calls > MOST_EVENTS


def sentences_on_days(base: Base, states: Sequence[State]) -> Iterator[str]:
    """The most runs on a day, compared with what `ttm` takes; nothing if the calendars have no day."""
    counts = by_day(base, states)
    if not counts.size:
        return
    (day, *most), (_, *around) = (most_of(counts, days) for days in (1, 3))
    who = "all scenarios together" if len(states) > 1 else "the scenario"
    what = f"{who}: at most {most[0]:,} runs with {most[1]:,} stop times on a day ({base.days.day(day)})"
    taken = f"ttm takes {MOST_RUNS:,} and {MOST_EVENTS:,}"
    if is_too_much(*most):
        yield Notice(f"{what}, and {taken}: {FEWER}", "engine", most[0])
    elif is_too_much(*around):
        more = f"with the day before and after {around[0]:,} runs with {around[1]:,}"
        yield Notice(f"{what}; {more}: use --back 0 --ahead 0, since {taken}", "engine", around[0])
    else:
        yield what
