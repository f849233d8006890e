"""Journeys as text: leg by leg, scenarios side by side, and a table of all departures."""

import itertools
from typing import Iterator, Mapping, Sequence

from ..core.text import display_text, quantity
from ..gtfs.route_names import routes_called
from ..gtfs.stops import has_file
from ..journeys.found import ExplainOptions, Found
from ..journeys.search import Leg

GAP = "   "


def span(seconds: int) -> str:
    """A duration in minutes and seconds."""
    return f"{seconds // 60}:{seconds % 60:02}"


def with_identifiers(names: Mapping[str, str]) -> dict[str, str]:
    """What people call each route, followed by its identifier if this differs."""
    return {
        route: name if name == display_text(route) else f"{name} ({display_text(route)})"
        for route, name in names.items()
    }


def names_of_routes(folder: str) -> dict[str, str]:
    """What people call each route of a feed, with identifiers; empty without routes.txt."""
    return with_identifiers(routes_called(folder)) if has_file(folder, "routes.txt") else {}


def text_of(options: ExplainOptions, found: Sequence[Found]) -> Iterator[str]:
    """The lines of it all."""
    ends = f"From {options.stop(options.origin)} to {options.stop(options.destination)}"
    departures = quantity(len(options.departures), "departure")
    yield f"{ends}: the travel time that {options.share} % of {departures} achieve"
    yield options.arguments
    yield "Found by a second search, in Python, which isn't proved."
    yield ""
    names = names_of_routes(options.timetable.folder)
    yield from side_by_side([list(lines_of(options, of, names)) for of in found])
    yield ""
    yield from departure_lines(options, found)


def side_by_side(columns: Sequence[Sequence[str]]) -> Iterator[str]:
    """Columns of lines, each as wide as its longest line."""
    widths = [max(map(len, column), default=0) for column in columns]
    for line in itertools.zip_longest(*columns, fillvalue=""):
        yield GAP.join(text.ljust(width) for text, width in zip(line, widths)).rstrip()


def lines_of(options: ExplainOptions, found: Found, names: dict[str, str]) -> Iterator[str]:
    """A journey, leg by leg."""
    if found.cell is None or found.chosen is None:
        yield f"{display_text(found.name)}: not reached"
        return
    yield f"{display_text(found.name)}: {found.cell} seconds"
    time, at = options.departures[found.chosen], options.origin
    yield f"{options.clock(time)} {options.stop(at)}"
    for leg in found.legs:
        yield from leg_lines(options, found, names, leg, time)
        time, at = leg.finish, leg.end
        yield f"{options.clock(time)} {options.stop(at)}"


def leg_lines(options: ExplainOptions, found: Found, names: dict[str, str], leg: Leg, time: int) -> Iterator[str]:
    if leg.run is None:
        yield f"  walk {span(leg.finish - leg.begin)}"
        return
    if leg.change:
        yield f"  change {span(leg.change)}"
    if leg.begin > time + leg.change:
        yield f"  wait {span(leg.begin - time - leg.change)}"
    trip, timetable = int(found.runs.trip[leg.run]), options.timetable
    route = timetable.routes[trip]
    name = names.get(route, display_text(route))
    yield f"{options.clock(leg.begin)} route {name}, trip {display_text(timetable.trips[trip])}"
    yield f"  ride {span(leg.finish - leg.begin)}"


def departure_lines(options: ExplainOptions, found: Sequence[Found]) -> Iterator[str]:
    """A line for each departure, with its durations; that of the journey above has a star."""
    table = [["departure", *[display_text(of.name) for of in found]]]
    for place, departure in enumerate(options.departures):
        cells = []
        for of in found:
            time = of.durations[place]
            cells.append(("-" if time is None else span(time)) + ("*" if place == of.chosen else " "))
        table.append([options.clock(departure)[:-3], *cells])
    widths = [max(map(len, column)) for column in zip(*table)]
    table[0][1:] = [f"{text} " for text in table[0][1:]]
    for line in table:
        times = [text.rjust(wide) for text, wide in zip(line[1:], widths[1:])]
        yield GAP.join([line[0].ljust(widths[0]), *times]).rstrip()
