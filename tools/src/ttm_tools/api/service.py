"""What runs on a day: by route and direction, by route, by stop, or in all, in each scenario."""

import datetime
from collections.abc import Iterator, Mapping, Sequence
from dataclasses import dataclass, fields
from pathlib import Path
from typing import TYPE_CHECKING, Any

import numpy as np

from ..core.arrays import Whole
from ..core.tables import rows
from ..gtfs.route_names import routes_called
from ..gtfs.stops import in_folder, read_stops
from ..gtfs.timetable import Timetable, read_edits, read_timetable
from ..measures.service import (
    Period,
    Service,
    ServiceRuns,
    departures_by_stop,
    headway_stops,
    service_of,
)
from .service_runs import running_on, straight_lengths

if TYPE_CHECKING:
    import pandas

DIRECTION, ROUTE, ALL, STOP = "direction", "route", "all", "stop"
WHOLE_DAY = Period(0, 48 * 3600)
GROUPINGS = (DIRECTION, ROUTE, STOP, ALL)
IDENTIFIERS = {DIRECTION: ("route_id", "direction_id"), ROUTE: ("route_id",), ALL: ()}


@dataclass(frozen=True)
class Groups:
    """The routes, or directions of routes, of which lines report."""

    keys: list[tuple[str, str]]  # route and direction, "" for all
    of_trip: Whole  # for each trip the place of its key
    by: str
    names: dict[str, str]  # of routes


@dataclass(frozen=True)
class Day:
    """What runs in each scenario, by its name, on one day."""

    timetable: Timetable
    running: dict[str, ServiceRuns]
    periods: list[Period]


@dataclass(frozen=True)
class ServiceLine:
    scenario: str
    key: tuple[str, str]
    period: Period
    service: Service


def groups_of(timetable: Timetable, by: str, scenarios: Sequence[str]) -> Groups:
    """Directions of routes, routes, or all trips as one, in the order of their routes in trips.txt. Trips that a
    scenario of a plan adds to a route, under the route's name with an @ and its own behind it, count as that route's.
    """
    folder = timetable.folder
    names = routes_called(folder)
    directions = [fields[1] for _, fields in rows(in_folder(folder, "trips.txt"), ["trip_id"], ["direction_id"])]
    own = {route: route_of(route, names, scenarios) for route in names}
    keys = [
        ("", "") if by == ALL else (own.get(route, route), "" if by == ROUTE else direction.strip())
        for route, direction in zip(timetable.routes, directions)
    ]
    known = {key: place for place, key in enumerate(dict.fromkeys(keys))}
    return Groups(list(known), np.array([known[key] for key in keys], dtype=np.int64), by, names)


def route_of(route: str, names: Mapping[str, str], scenarios: Sequence[str]) -> str:
    """The route that a route is of: another, where a scenario of a plan added it to that one."""
    base = next((route.removesuffix(f"@{name}") for name in scenarios if route.endswith(f"@{name}")), route)
    return base if base in names else route


def lines_of(day: Day, groups: Groups) -> Iterator[ServiceLine]:
    """A line for each group, period and scenario, scenarios below each other; none where nothing runs in any."""
    stops = stops_of(day, groups)
    for place, key in enumerate(groups.keys):
        chosen = {name: groups.of_trip[runs.trip] == place for name, runs in day.running.items()}
        for period in day.periods:
            lines = [
                ServiceLine(name, key, period, service_of(runs, chosen[name], period, int(stops[name][place])))
                for name, runs in day.running.items()
            ]
            if any(line.service.departures for line in lines):
                yield from lines


def stops_of(day: Day, groups: Groups) -> dict[str, Whole]:
    """For each scenario the stops whose headways are those of the groups; both directions together have none."""
    if groups.by != DIRECTION:
        return {name: np.full(len(groups.keys), -1, dtype=np.int64) for name in day.running}
    count = len(day.timetable.stops)
    return {
        name: headway_stops(runs, groups.of_trip[runs.trip], len(groups.keys), count)
        for name, runs in day.running.items()
    }


def day_of(folder: Path, files: Mapping[str, Path | None], date: datetime.date) -> Day:
    """Return what runs on a day.

    Parameters
    ----------
    folder
        The folder of the feed.
    files
        The file of each scenario; None for the feed as it is.
    """
    timetable = read_timetable(read_stops(str(folder)))
    own = timetable.all_stops.of(timetable.stops)
    lengths = straight_lengths(timetable, own.longitudes, own.latitudes)
    edits = {name: read_edits(None if path is None else str(path)) for name, path in files.items()}
    running = {name: running_on(timetable, date, edits[name], lengths) for name in files}
    return Day(timetable, running, [WHOLE_DAY])


def service_frame(day: Day, by: str) -> "pandas.DataFrame":
    """Return what runs as a frame: see `Network.service`."""
    import pandas

    if by == STOP:
        columns = ["scenario", "stop_id", "stop_name", "departures", "departures_an_hour"]
        return pandas.DataFrame(list(rows_by_stop(day)), columns=columns)
    groups = groups_of(day.timetable, by, list(day.running))
    names = IDENTIFIERS[by]
    found = list[dict[str, Any]]()
    for line in lines_of(day, groups):
        own: dict[str, Any] = {"scenario": line.scenario, **dict(zip(names, line.key))}
        if names:
            own["route_name"] = groups.names.get(line.key[0], "")
        found.append({**own, **{one.name: getattr(line.service, one.name) for one in fields(Service)}})
    route = ["route_name"] if names else []
    columns = ["scenario", *names, *route, *(one.name for one in fields(Service))]
    return pandas.DataFrame(found, columns=columns)


def rows_by_stop(day: Day) -> Iterator[tuple[str, str, str, int, float]]:
    """Yield scenario, stop, its name, departures in all and by hour, for each stop at which a vehicle leaves."""
    stops, known = day.timetable.stops, day.timetable.all_stops
    counts = {name: departures_by_stop(runs, WHOLE_DAY, len(stops)) for name, runs in day.running.items()}
    for place, stop in enumerate(stops):
        if any(own[place] for own in counts.values()):
            for name, own in counts.items():
                count = int(own[place])
                yield name, stop, known.names[known.places[stop]], count, count / WHOLE_DAY.hours
