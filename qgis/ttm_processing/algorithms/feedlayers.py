"""Feed as layers: stops with their departures, and lines with departures per hour, headway and speed."""

from __future__ import annotations

from pathlib import Path
from typing import Any, Iterator, Mapping, Sequence

from qgis.core import (
    QgsCoordinateReferenceSystem,
    QgsGeometry,
    QgsPointXY,
    QgsProcessingParameterEnum,
    QgsProcessingParameterFeatureSink,
)

from .. import classes, compat, parameters as define
from ..feed_files import Lines, Stop, positions_along, read_lines, read_shapes, read_stops, rows
from ..places import DEGREES
from ..results import Output, field, table_of, warn_of_shapefile
from ..run import Run
from .base import Algorithm

MODE = 3  # the place of the mode among the fields of a line
DIRECTION, ROUTE = "direction", "route"
STOP_FIELDS = (
    *((name, compat.TEXT) for name in ("stop_id", "name", "station", "routes")),
    ("departures", compat.INTEGER),
    ("per_hour", compat.REAL),
)
LINE_FIELDS = (
    *((name, compat.TEXT) for name in ("route_id", "short_name", "long_name", "mode")),
    ("direction", compat.INTEGER),
    ("departures", compat.INTEGER),
    *((name, compat.REAL) for name in ("per_hour", "headway_min", "gap_min")),
    *((name, compat.TEXT) for name in ("first", "last")),
    ("kmh", compat.REAL),
    ("vehicles", compat.INTEGER),
    *((name, compat.REAL) for name in ("veh_hours", "veh_km")),
)


class FeedLayers(Algorithm):
    """The algorithm `ttm:feedlayers`."""

    NAME, TITLE, GROUP = "feedlayers", "Feed as layers", "feeds"
    HELP = (
        "Shows what runs on a day: stops with their departures, and lines with departures per hour, headway and speed, "
        "for a period such as the morning peak. Lines are drawn along the feed's shapes, or from stop to stop. Use it "
        "to check a feed before you compute with it."
    )

    def definitions(self) -> list[Any]:
        by = QgsProcessingParameterEnum("BY", "A line for", ["each direction", "each route"], False, 0)
        sink = QgsProcessingParameterFeatureSink
        return [
            define.feed(),
            define.date(),
            define.time("FROM", "From", 7, 0, "The period's begin."),
            define.time("TO", "To", 9, 0, "The period's end, not included."),
            define.help_text(by, "Whether both directions of a route are one line."),
            *define.repairs(),
            sink("STOPS", "Stops", compat.ANY_VECTOR),
            sink("LINES", "Lines", compat.ANY_VECTOR),
        ]

    def errors(self, values: Any) -> Iterator[str]:
        yield from super().errors(values)
        if values.time("TO") == values.time("FROM"):
            yield f"{values.label('TO')}: the period is empty"

    def compute(self, run: Run) -> dict[str, Any]:
        by = (DIRECTION, ROUTE)[run.values.whole("BY")]
        feed, result = run.prepare(run.values.path("FEED"), run.progress(2, 40))
        date = run.values.date()
        run.warn_of_date(date, result)
        first, last = run.values.time("FROM"), run.values.time("TO")
        words = ["--date", date, "--periods", f'{first.toString("HH:mm")},{last.toString("HH:mm")}']
        run.feedback.setProgressText("Counting departures")
        at_stops = run.tools.run(run.progress(40, 60), "service", feed, *words, "--by", "stop")["rows"]
        by_line = run.tools.run(run.progress(60, 80), "service", feed, *words, "--by", by)["rows"]
        run.feedback.setProgressText("Drawing lines")
        lines, stops = read_lines(Path(feed), by == DIRECTION), read_stops(Path(feed))
        hours = first.secsTo(last) / 3600
        routes = {row["route_id"]: row for row in rows(Path(feed), "routes.txt")}
        running = {(row["route"], row["direction"] or "") for row in by_line if row["departures"]}
        places = self.write_stops(run, at_stops, stops, Called(lines, routes, running))
        drawn = self.write_lines(run, by_line, hours, Drawing(lines, routes, stops, read_shapes(Path(feed))))
        run.feedback.setProgress(100)
        return {"STOPS": places, "LINES": drawn}

    def write_stops(
        self, run: Run, found: Sequence[Mapping[str, Any]], stops: Mapping[str, Stop], called: "Called"
    ) -> Any:
        """Write a point for each stop at which a trip departs in the period."""
        fields = table_of([field(*item) for item in STOP_FIELDS])
        kind = (compat.POINT, QgsCoordinateReferenceSystem(DEGREES))
        output = Output(self, run.parameters, run.context, "STOPS", fields, kind)
        lost = 0
        for row in found:
            stop = stops[row["stop_id"]]
            lost += stop.position is None
            shape = None if stop.position is None else QgsGeometry.fromPointXY(QgsPointXY(*stop.position))
            texts = [row["stop_id"], stop.name, stop.station, called.at(row["stop_id"])]
            output.add([*texts, row["departures"], row["departures_an_hour"]], shape)
        if lost:
            run.feedback.pushWarning(f"{lost} stops without coordinates have no point")
        self.style(run, output.place, classes.of_stops("per_hour"), compat.POINT)
        return output.place

    def write_lines(self, run: Run, found: Sequence[Mapping[str, Any]], hours: float, drawing: "Drawing") -> Any:
        """Write a line for each route, or direction of a route, that departs in the period."""
        fields = table_of([field(*item) for item in LINE_FIELDS])
        kind = (compat.MULTI_LINE, QgsCoordinateReferenceSystem(DEGREES))
        output = Output(self, run.parameters, run.context, "LINES", fields, kind)
        warn_of_shapefile(output.place, fields, run.feedback)
        modes = set()
        for row in found:
            if row["departures"]:
                cells = line_cells(row, drawing.routes.get(row["route"], {}), hours)
                modes.add(cells[MODE])
                output.add(cells, drawing.shape_of(row))
        self.style(run, output.place, classes.of_lines("mode", "per_hour", sorted(modes)), compat.MULTI_LINE)
        return output.place


class Called:
    """Which routes call at a stop, of those that depart in the period."""

    def __init__(self, lines: Lines, routes: Mapping[str, Mapping[str, str]], running: set[tuple[str, str]]) -> None:
        self.lines, self.routes, self.running = lines, routes, running

    def at(self, stop: str) -> str:
        """Return the short names of the routes, sorted, with commas between them."""
        keys = [key for key in self.lines.routes.get(stop, ()) if key in self.running]
        return ", ".join(sorted({self.routes[route].get("route_short_name") or route for route, _ in keys}))


class Drawing:
    """The shapes of lines."""

    def __init__(
        self, lines: Lines, routes: Mapping[str, Any], stops: Mapping[str, Stop], shapes: Mapping[str, Any]
    ) -> None:
        self.lines, self.routes, self.stops, self.shapes = lines, routes, stops, shapes

    def shape_of(self, row: Mapping[str, Any]) -> Any:
        """Return all ways of a route or of its direction as one geometry, or None if no position is known."""
        ways = self.lines.ways.get((row["route"], row["direction"] or ""), {})
        along = [positions_along(way, self.shapes, self.stops) for way in ways]
        parts = [[QgsPointXY(*position) for position in positions] for positions in along if len(positions) > 1]
        return QgsGeometry.fromMultiPolylineXY(parts) if parts else None


def line_cells(row: Mapping[str, Any], route: Mapping[str, str], hours: float) -> list[Any]:
    """Return the attributes of a line."""
    names = [row["route"], route.get("route_short_name") or "", route.get("route_long_name") or ""]
    direction = row["direction"]
    return [
        *names,
        classes.mode_of(route.get("route_type") or ""),
        int(direction) if direction else None,
        row["departures"],
        row["departures"] / hours,
        row["headway_minutes"],
        row["greatest_gap_minutes"],
        *(row[name] and row[name][:5] for name in ("first_departure", "last_arrival")),
        row["kilometres_an_hour"],
        row["vehicles"],
        row["vehicle_hours"],
        row["vehicle_kilometres"],
    ]
