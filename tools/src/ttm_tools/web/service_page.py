"""A page like a timetable at a stop: for each route and direction the minutes of departure by hour, scenarios side by
side, with what runs in all below.
"""

from dataclasses import fields
from html import escape
from typing import BinaryIO, Iterator

import numpy as np

from ..api.service import Day, Groups, ServiceLine, stops_of
from ..core.text import display_text
from ..measures.service import Service, ServiceRuns
from ..views.service import period_shown, texts_of

STYLE = """body{font-family:sans-serif;margin:1em;max-width:70em}table{border-collapse:collapse;margin:.5em 0}
th,td{border:1px solid #999;padding:.2em .5em;text-align:left;vertical-align:top}td.n{text-align:right}
h2{margin-top:1.5em}@media print{h2{break-after:avoid}tr{break-inside:avoid}}"""


def write_page(out: BinaryIO, day: Day, groups: Groups, lines: list[ServiceLine], title: str) -> None:
    """Writes the page, as HTML that needs no other file."""
    head = f'<!DOCTYPE html>\n<html lang="en"><meta charset="utf-8"><title>{escape(title)}</title>'
    out.write(f"{head}<style>{STYLE}</style>\n<h1>{escape(title)}</h1>\n".encode("utf-8", "backslashreplace"))
    stops = stops_of(day, groups)
    for place, key in enumerate(groups.keys):
        own = [line for line in lines if line.key == key]
        if not own:
            continue
        calls_at = {name: int(stops[name][place]) for name in day.running}
        minutes = {name: (stop, hours_of(day.running[name], groups, place, stop)) for name, stop in calls_at.items()}
        for text in section_of(day, heading_of(key, groups), minutes, own):
            out.write(text.encode("utf-8", "backslashreplace"))
    out.write(b"</html>\n")


def heading_of(key: tuple[str, str], groups: Groups) -> str:
    route, direction = key
    if not route:
        return "All routes"
    name = groups.names.get(route, display_text(route))
    return f"Route {name}" + (f", direction {display_text(direction)}" if direction else "")


def hours_of(running: ServiceRuns, groups: Groups, place: int, stop: int) -> dict[int, list[int]]:
    """The minutes of departure from a stop, by hour."""
    calls = running.calls
    chosen = (groups.of_trip[running.trip] == place)[calls.run] & (calls.stop == stop)
    hours: dict[int, list[int]] = {}
    for time in np.sort(calls.depart[chosen]).tolist():
        hours.setdefault(time // 3600, []).append(time // 60 % 60)
    return hours


def section_of(
    day: Day, heading: str, minutes: dict[str, tuple[int, dict[int, list[int]]]], lines: list[ServiceLine]
) -> Iterator[str]:
    """The two tables of a route and direction."""
    all_stops = day.timetable.all_stops
    yield f"<h2>{escape(heading)}</h2>\n<table><tr><th>Hour</th>"
    for name, (stop, _) in minutes.items():
        name_of_stop = all_stops.name_of(day.timetable.stops[stop]) if stop >= 0 else "no departures"
        yield f"<th>{escape(display_text(name))}: {escape(name_of_stop)}</th>"
    yield "</tr>\n"
    for hour in sorted({hour for _, by_hour in minutes.values() for hour in by_hour}):
        cells = [" ".join(f"{minute:02}" for minute in by_hour.get(hour, [])) for _, by_hour in minutes.values()]
        yield f"<tr><th>{hour:02}</th>{''.join(f'<td>{cell}</td>' for cell in cells)}</tr>\n"
    names = ["Period", "Scenario", *(own.metadata["head"] for own in fields(Service))]
    yield f"</table>\n<table><tr>{''.join(f'<th>{name}</th>' for name in names)}</tr>\n"
    for line in lines:
        numbers = "".join(f'<td class="n">{text}</td>' for text in texts_of(line.service))
        yield f"<tr><td>{period_shown(line.period)}</td><td>{escape(display_text(line.scenario))}</td>{numbers}</tr>\n"
    yield "</table>\n"
