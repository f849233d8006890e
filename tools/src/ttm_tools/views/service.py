"""Service as tables by route and direction, by route, in all, or by stop, and what a scenario costs."""

from dataclasses import fields
from typing import Any, BinaryIO, Iterator, Sequence

import numpy as np

from ..api.service import Day, Groups, ServiceLine
from ..core.columns import SERVICE, SERVICE_OF_STOPS, names_of
from ..core.notices import Notice
from ..core.tables import write_rows
from ..core.text import display_text, quantity, rounded, significant
from ..core.times import as_clock
from ..measures.columns import header
from ..measures.service import Period, Service, departures_by_stop, service_of

SINGULAR = {"departures": "departure", "vehicles at once": "vehicle at once"}


def period_shown(period: Period) -> str:
    return f"{as_clock(period.start)[:5]} to {as_clock(period.end)[:5]}"


def texts_of(service: Service) -> list[str]:
    return [text_of(getattr(service, own.name), **own.metadata) for own in fields(Service)]


def text_of(number: float, is_time: bool = False, decimals: int = 4, **_: Any) -> str:
    if is_time:
        return "" if np.isnan(number) else as_clock(int(number))
    return str(number) if isinstance(number, int) else significant(round(number, decimals) or number)


def value_of(number: float, is_time: bool = False, decimals: int = 4, **_: Any) -> object:
    """The same number for programs: None for none, and a time as a text."""
    if np.isnan(number):
        return None
    return as_clock(int(number)) if is_time else number if isinstance(number, int) else round(number, decimals)


def line_values(line: ServiceLine, groups: Groups) -> dict[str, object]:
    """A line of the table for programs, by its columns."""
    named = dict(zip(names_of(SERVICE), named_of(line, groups)))
    numbers = {own.name: value_of(getattr(line.service, own.name), **own.metadata) for own in fields(Service)}
    return {**{name: text or None for name, text in named.items()}, **numbers}


def write_lines(out: BinaryIO, lines: Iterator[ServiceLine], groups: Groups) -> None:
    write_rows(out, [*names_of(SERVICE), *header(Service)], (fields_of(line, groups) for line in lines))


def fields_of(line: ServiceLine, groups: Groups) -> list[str]:
    return [*named_of(line, groups), *texts_of(line.service)]


def named_of(line: ServiceLine, groups: Groups) -> list[str]:
    """The scenario, route, direction and period of a line."""
    route, direction = line.key
    return [line.scenario, route, groups.names.get(route, ""), direction, period_shown(line.period)]


def write_stops(out: BinaryIO, day: Day) -> None:
    """Writes the table by stop: each at which a vehicle leaves in some scenario."""
    lines = ([*named, str(count), significant(an_hour)] for *named, count, an_hour in stop_values(day))
    write_rows(out, names_of(SERVICE_OF_STOPS), lines)


def stop_values(day: Day) -> Iterator[tuple[str, str, str, str, int, float]]:
    """The columns of the table by stop, numbers as numbers."""
    all_stops, stops = day.timetable.all_stops, day.timetable.stops
    for period in day.periods:
        found = {name: departures_by_stop(runs, period, len(stops)) for name, runs in day.running.items()}
        for place, stop in enumerate(stops):
            counts = {name: int(counts[place]) for name, counts in found.items()}
            for name, count in counts.items() if any(counts.values()) else ():
                known = all_stops.names[all_stops.places[stop]]
                yield name, stop, known, period_shown(period), count, count / period.hours


def costs_stated(day: Day) -> list[str]:
    """What runs in the first scenario, and each other one compared with it, all periods together."""
    whole = Period(min(period.start for period in day.periods), max(period.end for period in day.periods))
    every = {name: np.ones(len(runs.trip), dtype=np.bool_) for name, runs in day.running.items()}
    (base, first), *others = ((name, service_of(runs, every[name], whole, -1)) for name, runs in day.running.items())
    lines = [f"{display_text(base)}: {', '.join(map(counts_stated, numbers_of(first)))}"]
    for name, service in others:
        pairs = zip(numbers_of(first), numbers_of(service))
        parts = [f"{what} {before} to {after}" for (what, before), (_, after) in pairs]
        lines.append(f"{display_text(name)} compared with {display_text(base)}: {', '.join(parts)}")
    return [*lines, *sentences_on_unplaced(day)]


def counts_stated(counted: tuple[str, str]) -> str:
    """A number and what it counts, in the singular if it is 1."""
    what, number = counted
    return f"{number} {SINGULAR.get(what, what) if number == '1' else what}"


def sentences_on_unplaced(day: Day) -> list[str]:
    """At how many stops without coordinates vehicles call, since lengths are those between the other stops."""
    stops = day.timetable.all_stops.of(day.timetable.stops)
    called = np.unique(np.concatenate([runs.trip for runs in day.running.values()]))
    events = day.timetable.events
    counts = np.diff(events.begins)
    runs = np.isin(np.repeat(np.arange(len(counts)), counts), called)
    lost = int((~stops.placed[np.unique(events.stop[runs])]).sum())
    what = "kilometres and speeds are those of straight lines between the others"
    text = f"vehicles call at {quantity(lost, 'stop')} without coordinates: {what}"
    return [Notice(text, "place", lost)] if lost else []


def numbers_of(service: Service) -> Sequence[tuple[str, str]]:
    return [
        ("departures", f"{service.departures:,}"),
        ("vehicles at once", f"{service.vehicles:,}"),
        ("vehicle hours", rounded(service.vehicle_hours, 1)),
        ("vehicle kilometres", rounded(service.vehicle_kilometres, 1)),
    ]
