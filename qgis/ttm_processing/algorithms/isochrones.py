"""Isochrones: the areas that are reached from each origin within given minutes."""

from __future__ import annotations

import json
from typing import Any, Sequence

from qgis.core import (
    QgsCoordinateReferenceSystem,
    QgsCoordinateTransform,
    QgsDistanceArea,
    QgsGeometry,
    QgsJsonUtils,
    QgsProcessingParameterFeatureSink,
)
from qgis.PyQt.QtCore import QTextCodec

from .. import classes, compat, parameters as define
from ..engine import Matrix
from ..places import DEGREES, Places
from ..results import Output, field, table_of, warn_of_shapefile
from ..run import Joined, Run, scenario_of
from ..tools import Progress
from ..values import Times
from .base import Algorithm

OPACITY = 0.4
SLIT = 1e-5  # degrees, a metre
SQUARE_METRES = 1e6  # of a square kilometre
Area = tuple[int, int, int, Any, float]  # position of the origin, percentile, minutes, geometry, square kilometres


class Isochrones(Algorithm):
    """The algorithm `ttm:isochrones`."""

    NAME, TITLE, GROUP = "isochrones", "Isochrones", "times"
    HELP = (
        "Draws the areas that you reach from each origin within given minutes: squares whose middles are reached. "
        "Without streets you walk on from each stop in a straight line. Meant for some dozens of origins. Larger cells "
        "are faster, and a large network needs them."
    )

    def definitions(self) -> list[Any]:
        cell = "The side of a square. A city may need 200 or more."
        return [
            define.feed(),
            define.streets(),
            *define.layer("ORIGINS", "Origins", "Where journeys begin, such as clinics."),
            define.cutoffs("15,30"),
            *define.window(),
            define.percentiles(),
            *define.limits(),
            define.number("CELL", "Cell (metres)", cell, 100, 10, 1000),
            define.flag("DISSOLVE", "One area for all origins", False, "Joins the areas of all origins."),
            QgsProcessingParameterFeatureSink("OUTPUT", "Areas", compat.ANY_POLYGONS),
        ]

    def compute(self, run: Run) -> dict[str, Any]:
        times, cutoffs, joins = run.values.times(), run.values.minutes(), run.values.is_on("DISSOLVE")
        origins = run.places("ORIGINS", "~o")
        feed, result = run.prepare(run.values.path("FEED"), run.progress(2, 15))
        run.warn_of_date(times.date, result)
        joined = run.join(feed, times, origins, run.values.number("CELL"), run.progress(15, 35))
        matrix = run.ask(joined, times, [], run.progress(35, 55))
        areas = areas_of(run, joined, matrix, times, cutoffs, run.progress(55, 95))
        warn_of_nothing(run, origins, areas)
        crs = origins.source.sourceCrs()
        areas = dissolved(areas, run.context) if joins else areas
        own = [] if joins else [field("from_id", origins.identifier_type)]
        numbers = [field("minutes", compat.REAL), field("percentile", compat.INTEGER), field("square_km", compat.REAL)]
        fields = table_of([*own, *numbers])
        output = Output(self, run.parameters, run.context, "OUTPUT", fields, (compat.MULTI_POLYGON, crs))
        warn_of_shapefile(output.place, fields, run.feedback)
        transform = QgsCoordinateTransform(QgsCoordinateReferenceSystem(DEGREES), crs, run.context.transformContext())
        for position, share, minutes, shape, square_km in sorted(areas, key=widest_first):
            drawn = QgsGeometry(shape)
            drawn.transform(transform)
            identifier = [] if joins else [origins.identifiers[position]]
            output.add([*identifier, minutes, share, square_km], drawn)
        shown = classes.of_cutoffs("minutes", cutoffs, opacity=OPACITY)
        self.style(run, output.place, shown, compat.MULTI_POLYGON)
        run.feedback.setProgress(100)
        return {"OUTPUT": output.place}


def widest_first(area: Area) -> tuple[int, int, int]:
    """Return the key of the order in which areas are drawn: small areas last, on top of large ones."""
    position, share, minutes, _, _ = area
    return -minutes, -share, position


def areas_of(
    run: Run, joined: Joined, matrix: Matrix, times: Times, cutoffs: Sequence[int], progress: Progress
) -> list[Area]:
    """Return the areas of all origins, by `ttm-tools isochrones`, in degrees. One without any area has none."""
    run.feedback.setProgressText("Drawing areas")
    found: list[Area] = []
    origins = joined.origins
    words = ["--feed", joined.feed, "--bands", ",".join(map(str, cutoffs)), "--scenario", scenario_of(times)]
    words += [] if times.most_seconds is None else ["--max-minutes", f"{times.most_seconds / 60:g}"]
    # Squares count as a whole, so there is no walk from them.
    words += ["--walk", "0", "--out", "-", matrix.files[scenario_of(times)].as_posix()]
    for count, (name, position) in enumerate(zip(origins.names, origins.points)):
        step = progress.part(count, len(origins.names))
        drawn = run.tools.run(step, "isochrones", "--origin", name, *words)
        found += read_areas(drawn, position, times)
        step.at(1, 1)
    return found


def read_areas(drawn: dict[str, Any], position: int, times: Times) -> list[Area]:
    """Return the areas of a GeoJSON object."""
    codec = QTextCodec.codecForName("UTF-8")
    found = []
    for item in drawn["features"]:
        text = json.dumps({"type": "FeatureCollection", "features": [item]})
        shape = QgsJsonUtils.stringToFeatureList(text, QgsJsonUtils.stringToFields(text, codec), codec)[0].geometry()
        if shape.isEmpty():
            continue
        shape = closed(shape)
        known = item["properties"]
        share = int(known.get("percentile") or times.middle)
        found.append((position, share, round(float(known["minutes"])), shape, float(known["square_km"])))
    return found


def closed(shape: Any) -> Any:
    """Return an area without the slits between squares whose corners were rounded; its outline stays."""
    mitre = (1, QgsGeometry.CapFlat, QgsGeometry.JoinStyleMiter, 2.0)
    found = shape.buffer(SLIT, *mitre).buffer(-SLIT, *mitre)
    found.convertToMultiType()
    return found


def dissolved(areas: Sequence[Area], context: Any) -> list[Area]:
    """Return one area for each limit and percentile, with all that some origin reaches."""
    measure = QgsDistanceArea()
    measure.setSourceCrs(QgsCoordinateReferenceSystem(DEGREES), context.transformContext())
    measure.setEllipsoid("EPSG:7030")  # WGS 84
    groups: dict[tuple[int, int], list[Any]] = {}
    for _, share, minutes, shape, _ in areas:
        groups.setdefault((share, minutes), []).append(shape)
    found = []
    for (share, minutes), shapes in groups.items():
        joined = QgsGeometry.unaryUnion(shapes)
        joined.convertToMultiType()
        found.append((0, share, minutes, joined, measure.measureArea(joined) / SQUARE_METRES))
    return found


def warn_of_nothing(run: Run, origins: Places, areas: Sequence[Area]) -> None:
    """Warn of origins that reach nothing, which have no area."""
    reached = {position for position, *_ in areas}
    missing = [str(origins.identifiers[position]) for position in origins.points if position not in reached]
    if missing:
        run.feedback.pushWarning(
            f"{origins.label}: {len(missing)} reach nothing, and have no area: {', '.join(missing)}"
        )
