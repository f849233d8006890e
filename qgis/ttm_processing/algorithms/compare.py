"""Compare: what another timetable, or a scenario of a plan, changes for each origin."""

from __future__ import annotations

from pathlib import Path
from typing import Any, Iterator, Sequence

from qgis.core import QgsProcessingException, QgsProcessingParameterFeatureSink

from .. import classes, compat, parameters as define
from ..comparison import Change, Side, changes_of
from ..places import Places
from ..plan_lines import write_plan_lines
from ..results import Output, extended, field, warn_of_shapefile
from ..run import BASE, Run
from ..values import SECONDS_OF_MINUTE, Times, Values
from .access import access_definitions, access_errors, counts_of, measure
from .base import Algorithm

Ends = tuple[Places, Places]
TODAY = "today"  # the scenario with the feed as it was
NUMBERS = ("before", "after", "change", "percent")
COUNTS = ("cut_off", "slower", "unchanged", "faster", "new")


class Compare(Algorithm):
    """The algorithm `ttm:compare`."""

    NAME, TITLE, GROUP = "compare", "Compare two timetables, or a plan with today", "compare"
    HELP = (
        "Shows for each origin what changes: how many destinations it no longer reaches, reaches later, sooner or "
        "newly, and how access changes. Compare today's feed with another feed, or with a scenario of a plan file, "
        "such as one that you saved from ttm-tools explore."
    )

    def definitions(self) -> list[Any]:
        sink = QgsProcessingParameterFeatureSink
        tolerance = "A travel time that differs by this or less counts as unchanged."
        named = "The scenario of the plan; needed if it has several."
        plan = "A plan of ttm-tools scenarios. Give either a plan or another feed."
        return [
            define.feed(label="Before: feed (GTFS zip or folder)"),
            define.feed("FEED_AFTER", "After: feed (GTFS zip or folder)", optional=True),
            define.file("PLAN", "After: plan", define.PLAN_FILTER, plan, optional=True),
            define.text("SCENARIO", "Scenario of the plan", None, named, True),
            define.streets(),
            *define.layer("ORIGINS", "Origins", "Where journeys begin, such as homes or cells."),
            *define.layer("DESTINATIONS", "Destinations", "What is reached, such as workplaces."),
            *access_definitions("30", multiple=False),
            *define.window(),
            define.date("DATE_AFTER", "Date of the feed after", optional=True),
            define.percentiles(),
            *define.limits(),
            define.number("TOLERANCE", "Tolerance (minutes)", tolerance, 0, 0, 10000),
            sink("OUTPUT", "Origins with changes", compat.ANY_VECTOR),
            sink("LINES", "Routes of the plan", compat.ANY_VECTOR, None, True, False),
        ]

    def errors(self, values: Values) -> Iterator[str]:
        yield from super().errors(values)
        yield from access_errors(values)
        if bool(values.path("FEED_AFTER")) == bool(values.path("PLAN")):
            yield f"Give either {values.label('FEED_AFTER')} or {values.label('PLAN')}, one of them"
        if len(values.shares()) > 1 or len(values.minutes()) > 1:
            yield "A comparison has one percentile and one limit"
        if values.whole("MAX_RIDES") == 0:
            yield f"{values.label('MAX_RIDES')}: a comparison needs at least 1"
        if values.date("DATE_AFTER") and values.path("PLAN"):
            yield f"{values.label('DATE_AFTER')}: a plan has the date of the feed; leave it empty"

    def compute(self, run: Run) -> dict[str, Any]:
        times = run.values.times()
        origins, destinations = run.ends()
        counts = counts_of(destinations, run.values.fields("FIELDS")[:1], run.feedback)
        numbers = [field(name, compat.REAL) for name in NUMBERS]
        found = [field("what", compat.TEXT), *(field(name, compat.INTEGER) for name in COUNTS)]
        fields = extended(origins.source.fields(), [*numbers, *found, field("mean_s", compat.REAL)], origins.label)
        feed, result = run.prepare(run.values.path("FEED"), run.progress(2, 10))
        run.warn_of_date(times.date, result)
        ends = origins, destinations
        plan, files = self.plan(run, feed) if run.values.path("PLAN") else (None, [])
        if plan is not None:
            sides = self.sides_of_plan(run, plan, files, times, ends)
        else:
            sides = self.sides_of_feeds(run, feed, times, ends)
        access = [
            measure(run, side.matrix, side.scenario, counts, destinations, run.progress(85 + 5 * place, 90 + 5 * place))
            for place, side in enumerate(sides)
        ]
        tolerance = run.values.number("TOLERANCE") * SECONDS_OF_MINUTE
        changes = list(changes_of(sides, times, ends, access, tolerance))
        place = self.write(run, fields, origins, changes)
        lines = {} if plan is None else write_plan_lines(self, run, plan, Path(files[1]).stem)
        run.feedback.setProgress(100)
        return {"OUTPUT": place, **lines}

    def plan(self, run: Run, feed: Path) -> tuple[Path, list[str]]:
        """Write the feed of the plan's scenarios; returns its folder, and the files of today and of the scenario."""
        run.feedback.setProgressText("Carrying out the plan")
        folder = run.new_folder("plan")
        progress = run.progress(10, 20)
        files = run.tools.run(progress, "scenarios", feed, run.values.path("PLAN"), "--out", folder)["files"]
        chosen = scenario_of_plan(files, run.values.text("SCENARIO"))
        return folder, [next(path for path in files if Path(path).stem == TODAY), chosen]

    def sides_of_plan(self, run: Run, feed: Path, files: list[str], times: Times, ends: Ends) -> list[Side]:
        """Return today and the scenario: one matrix, since one run of the engine has both."""
        joined = run.join(feed, times, *ends, run.progress(20, 45))
        matrix = run.ask(joined, times, files, run.progress(45, 85))
        return [Side(matrix, Path(path).stem) for path in files]

    def sides_of_feeds(self, run: Run, feed: Path, times: Times, ends: Ends) -> list[Side]:
        """Return both feeds, each with its own matrix."""
        after, result = run.prepare(run.values.path("FEED_AFTER"), run.progress(10, 20))
        date = run.values.date("DATE_AFTER") or times.date
        run.warn_of_date(date, result, run.values.label("DATE_AFTER"))
        sides = []
        for place, (folder, day) in enumerate(((feed, times.date), (after, date))):
            low = 20 + 33 * place
            asked = times.on(day)
            joined = run.join(folder, asked, *ends, run.progress(low, low + 10), f"side{place}")
            sides.append(Side(run.ask(joined, asked, [], run.progress(low + 10, low + 32)), BASE))
        return sides

    def write(self, run: Run, fields: Any, origins: Places, changes: Sequence[Change]) -> Any:
        """Write the origins with their changes."""
        kind = (origins.source.wkbType(), origins.source.sourceCrs())
        output = Output(self, run.parameters, run.context, "OUTPUT", fields, kind)
        warn_of_shapefile(output.place, fields, run.feedback)
        for feature, change in zip(origins.features, changes):
            output.add([*feature.attributes(), *change.cells()], feature.geometry())
        self.style(run, output.place, classes.of_changes("what", "percent"), kind[0])
        return output.place


def scenario_of_plan(files: Sequence[str], wanted: str) -> str:
    """Return the scenario file that is compared with today.

    Raises
    ------
    QgsProcessingException
        The plan has no such scenario, or several and none is named.
    """
    named = {Path(path).stem: path for path in files if Path(path).stem != TODAY}
    if not wanted and len(named) == 1:
        return next(iter(named.values()))
    if wanted not in named:
        listed = ", ".join(named) or "none"
        raise QgsProcessingException(f'Scenario of the plan: "{wanted}" is not allowed; the plan has: {listed}')
    return named[wanted]
