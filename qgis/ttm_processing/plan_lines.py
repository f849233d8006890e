"""The routes of a plan that are removed, changed or new, as lines."""

from __future__ import annotations

import csv
from pathlib import Path
from typing import Any

from qgis.core import QgsCoordinateReferenceSystem, QgsGeometry, QgsPointXY

from . import classes, compat
from .feed_files import Lines, positions_along, read_lines, read_shapes, read_stops, rows
from .places import DEGREES
from .results import Output, field, table_of
from .run import Run

TODAY, REMOVED, CHANGED, NEW = "today", "removed", "changed", "new"


def write_plan_lines(algorithm: Any, run: Run, plan: Path, scenario: str) -> dict[str, Any]:
    """Write the routes that differ between today and a scenario, if they are wanted.

    Parameters
    ----------
    plan
        The folder of a feed with all scenarios of the plan.
    """
    fields = table_of([field(name, compat.TEXT) for name in ("route_id", "short_name", "what")])
    kind = (compat.MULTI_LINE, QgsCoordinateReferenceSystem(DEGREES))
    output = Output(algorithm, run.parameters, run.context, "LINES", fields, kind)
    if not output.is_wanted:
        return {}
    lines, stops, shapes = read_lines(plan, by_direction=False), read_stops(plan), read_shapes(plan)
    names = {row["route_id"]: row.get("route_short_name") or "" for row in rows(plan, "routes.txt")}
    for route, what in changed_routes(plan, scenario, lines).items():
        own = [name for name in (route, f"{route}@{scenario}") if (name, "") in lines.ways]
        ways = [way for name in own for way in lines.ways[name, ""]]
        along = [positions_along(way, shapes, stops) for way in ways]
        parts = [[QgsPointXY(*position) for position in positions] for positions in along if len(positions) > 1]
        shape = QgsGeometry.fromMultiPolylineXY(parts) if parts else None
        output.add([route, names.get(own[0] if own else route, ""), what], shape)
    algorithm.style(run, output.place, classes.of_changed_lines("what"), compat.MULTI_LINE)
    return {"LINES": output.place}


def changed_routes(plan: Path, scenario: str, lines: Lines) -> dict[str, str]:
    """Return the routes that differ, with what happens to each."""
    runs = {name: trips_by_route(plan, plan / "scenarios" / f"{name}.csv") for name in (TODAY, scenario)}
    found = {}
    for route, _ in lines.ways:
        base = route.removesuffix(f"@{scenario}")
        old = runs[TODAY].get(base, frozenset())
        new = runs[scenario].get(base, frozenset()) | runs[scenario].get(f"{base}@{scenario}", frozenset())
        if old != new:
            found[base] = NEW if not old else CHANGED if new else REMOVED
    return found


def trips_by_route(plan: Path, path: Path) -> dict[str, frozenset[str]]:
    """Return the trips of each route that a scenario has, with a mark for those that it shifts."""
    removed: dict[str, set[str]] = {"remove_route": set(), "remove_trip": set()}
    shifted: dict[str, str] = {}
    with path.open(newline="", encoding="utf-8") as file:
        for row in csv.DictReader(file):
            if row["action"] in removed:
                removed[row["action"]].add(row["id"])
            else:
                shifted[row["id"]] = row["seconds"]
    found: dict[str, set[str]] = {}
    for row in rows(plan, "trips.txt"):
        trip, route = row["trip_id"], row["route_id"]
        if route not in removed["remove_route"] and trip not in removed["remove_trip"]:
            mark = shifted.get(trip) or shifted.get(route) or ""
            found.setdefault(route, set()).add(trip + mark)
    return {route: frozenset(trips) for route, trips in found.items()}
