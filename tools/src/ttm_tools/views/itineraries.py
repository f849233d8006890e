"""A table of the journeys behind many cells: a line for each pair and scenario, with the parts of its travel time."""

from dataclasses import astuple, dataclass
from typing import Iterator, Sequence

from ..core.columns import JOURNEYS
from ..core.text import display_text
from ..journeys.found import ExplainOptions, Found
from ..journeys.search import Leg


@dataclass
class JourneyParts:
    """The parts of a journey's travel time, in seconds, which add up to it."""

    access: int = 0  # the walk before the first ride, or all of a journey on foot
    wait: int = 0
    ride: int = 0
    change: int = 0  # before boarding is possible, after another vehicle
    walk: int = 0  # between rides
    egress: int = 0  # behind the last ride


def parts_of(legs: Sequence[Leg], departure: int) -> JourneyParts:
    """The parts of a journey that sets out at a time."""
    parts, time, rides = JourneyParts(), departure, [place for place, leg in enumerate(legs) if leg.run is not None]
    for place, leg in enumerate(legs):
        seconds = leg.finish - leg.begin
        if leg.run is not None:
            parts.change += leg.change
            parts.wait += leg.begin - time - leg.change
            parts.ride += seconds
        elif not rides or place < rides[0]:
            parts.access += seconds
        elif place > rides[-1]:
            parts.egress += seconds
        else:
            parts.walk += seconds
        time = leg.finish
    return parts


def lines_of(options: ExplainOptions, found: Sequence[Found]) -> Iterator[list[object]]:
    """The lines of a pair, one for each scenario; without parts where too few departures get there."""
    stops = [options.timetable.stops[place] for place in (options.origin, options.destination)]
    for of in found:
        head: list[object] = [of.name, *stops, options.share]
        if of.cell is None or of.chosen is None:
            yield [*head, *[""] * (len(JOURNEYS) - len(head))]
            continue
        departure = options.departures[of.chosen]
        trips = [int(of.runs.trip[leg.run]) for leg in of.legs if leg.run is not None]
        columns = (options.timetable.routes, options.timetable.trips)
        names = [" ".join(display_text(column[trip]) for trip in trips) for column in columns]
        parts = astuple(parts_of(of.legs, departure))
        yield [*head, of.cell, options.clock(departure), *parts, len(trips), *names]
