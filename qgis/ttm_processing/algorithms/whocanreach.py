"""The origins from which people reach one place within given limits, and how many people live there."""

from __future__ import annotations

from typing import Any, Sequence

from qgis.core import QgsCoordinateReferenceSystem, QgsProcessingParameterFeatureSink, QgsProcessingParameterPoint

from .. import classes, compat, parameters as define
from ..quantities import numbers_of
from ..places import Places, in_degrees, to_degrees
from ..results import Output, extended, field, seconds_field, table_of, warn_of_shapefile
from ..rows import Rows
from ..run import Run
from ..values import Times
from .base import Algorithm

SECONDS_OF_MINUTE = 60


class WhoCanReach(Algorithm):
    """The algorithm `ttm:whocanreach`."""

    NAME, TITLE, GROUP = "whocanreach", "Who can reach this place", "times"
    HELP = (
        "Click on a place, such as a planned clinic, and choose a layer of homes or cells. You get all origins with "
        "their travel time to the place, and a table of how many people live within each limit."
    )

    def definitions(self) -> list[Any]:
        about = "Click on the map, or give x,y [EPSG:27700]."
        sink = QgsProcessingParameterFeatureSink
        people = "Numbers to sum within each limit, such as people."
        return [
            define.feed(),
            define.streets(),
            define.help_text(QgsProcessingParameterPoint("PLACE", "Place"), about),
            *define.layer("ORIGINS", "Origins", "Where journeys begin, such as homes or cells."),
            define.fields_of("PEOPLE", "People", "ORIGINS", people),
            define.cutoffs("15,30,45"),
            *define.window(),
            define.percentiles(),
            *define.limits(),
            sink("OUTPUT", "Origins with their time", compat.ANY_VECTOR),
            sink("SUMMARY", "People within each limit", compat.ANY_VECTOR, None, True, True),
        ]

    def compute(self, run: Run) -> dict[str, Any]:
        times, cutoffs, people = run.values.times(), run.values.minutes(), run.values.fields("PEOPLE")
        origins, place = run.places("ORIGINS", "~o"), self.place(run)
        shares = [seconds_field(f"p{share}_s", share) for share in times.percentiles]
        within = field("within", compat.INTEGER, f"Least limit that holds, {times.middle} % of departures (min)")
        fields = extended(origins.source.fields(), [*shares, within], origins.label)
        counts = {name: numbers_of(origins, name, run.feedback) for name in people}
        feed, result = run.prepare(run.values.path("FEED"), run.progress(2, 15))
        run.warn_of_date(times.date, result)
        joined = run.join(feed, times, origins, place, run.progress(15, 40))
        found = Rows(run.ask(joined, times, [], run.progress(40, 95)), times, origins, place)
        kind = (origins.source.wkbType(), origins.source.sourceCrs())
        output = Output(self, run.parameters, run.context, "OUTPUT", fields, kind)
        warn_of_shapefile(output.place, fields, run.feedback)
        reached: list[Sequence[Any]] = []
        for position, row in found.by_origin():
            feature, seconds = origins.features[position], found.pair(row, 0)
            reached.append(seconds)
            output.add(
                [*feature.attributes(), *seconds, least_limit(seconds[found.middle], cutoffs)], feature.geometry()
            )
        self.style(run, output.place, classes.of_limits("within", cutoffs), kind[0])
        summary = self.write_summary(run, times, cutoffs, counts, reached)
        run.feedback.setProgress(100)
        return {"OUTPUT": output.place, **summary}

    def place(self, run: Run) -> Places:
        """Return the place as a layer of one point."""
        label = run.values.label("PLACE")
        point = self.parameterAsPoint(run.parameters, "PLACE", run.context)
        crs = self.parameterAsPointCrs(run.parameters, "PLACE", run.context)
        if not crs.isValid():
            crs = QgsCoordinateReferenceSystem("EPSG:4326")
        transform = to_degrees(crs, label, run.context)
        coordinates = in_degrees(transform, point.x(), point.y(), label)
        return Places(label, "~d", None, "", [None], ["place"], [0], [coordinates])

    def write_summary(
        self,
        run: Run,
        times: Times,
        cutoffs: Sequence[int],
        counts: dict[str, list[float]],
        reached: list[Sequence[Any]],
    ) -> dict[str, Any]:
        """Write the table of origins and people within each limit, if it is wanted."""
        sums = [item for name in counts for item in (field(name, compat.REAL), field(f"{name}_pct", compat.REAL))]
        whole = [field(name, compat.INTEGER) for name in ("cutoff", "percentile", "origins")]
        fields = table_of([*whole, *sums])
        nowhere = (compat.NO_GEOMETRY, QgsCoordinateReferenceSystem())
        output = Output(self, run.parameters, run.context, "SUMMARY", fields, nowhere)
        for cutoff in cutoffs if output.is_wanted else ():
            for place, share in enumerate(times.percentiles):
                inside = [is_within(seconds[place], cutoff) for seconds in reached]
                cells: list[Any] = [cutoff, share, sum(inside)]
                for numbers in counts.values():
                    total, within = sum(numbers), sum(number for number, is_in in zip(numbers, inside) if is_in)
                    cells += [within, 100 * within / total if total else None]
                output.add(cells)
        return {"SUMMARY": output.place} if output.is_wanted else {}


def is_within(seconds: int | None, minutes: int) -> bool:
    """Return whether a travel time is within a limit."""
    return seconds is not None and seconds <= minutes * SECONDS_OF_MINUTE


def least_limit(seconds: int | None, cutoffs: Sequence[int]) -> int | None:
    """Return the least limit that holds, or None beyond all."""
    return next((cutoff for cutoff in cutoffs if is_within(seconds, cutoff)), None)
