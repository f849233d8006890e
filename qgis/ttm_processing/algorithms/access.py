"""Access: what each origin reaches within given minutes."""

from __future__ import annotations

import csv
from pathlib import Path
from typing import Any, Iterator, Sequence

from qgis.core import QgsProcessingParameterEnum, QgsProcessingParameterFeatureSink

from .. import classes, compat, parameters as define
from ..engine import Matrix
from ..places import Places
from ..quantities import numbers_of
from ..results import Output, extended, field, warn_of_shapefile
from ..run import Run, scenario_of
from ..tools import Progress
from ..values import Values
from .base import Algorithm

DECAYS = ("step", "linear", "exponential", "logistic")
WITH_VALUE = ("linear", "logistic")
PLACES = "places"  # what is counted without fields
Found = dict[tuple[str, int, str, int], float]  # by origin, percentile, column and limit


def access_definitions(cutoffs: str, multiple: bool = True) -> list[Any]:
    """Return the parameters of what is counted, and how."""
    about = "Numeric fields to sum, such as jobs. Empty: destinations are counted."
    how = "How weights fall with travel time: at the limit, in a line, by half for each limit, or in a sigmoid."
    width = "The width of the linear fall, or the standard deviation of the logistic one, in minutes."
    return [
        define.fields_of("FIELDS", "Fields to count", "DESTINATIONS", about, multiple),
        define.cutoffs(cutoffs),
        define.help_text(QgsProcessingParameterEnum("DECAY", "Decay", list(DECAYS), False, 0), how),
        define.number("DECAY_VALUE", "Width of the decay (minutes)", width, None, 0.01, 10000),
    ]


def access_errors(values: Values) -> Iterator[str]:
    """Yield what is wrong with the decay."""
    decay, label = DECAYS[values.whole("DECAY")], values.label("DECAY_VALUE")
    has_value = values.number_or_none("DECAY_VALUE") is not None
    if decay in WITH_VALUE and not has_value:
        yield f"{label}: the decay {decay} needs it"
    if decay not in WITH_VALUE and has_value:
        yield f"{label}: the decay {decay} has none; leave it empty"


class Access(Algorithm):
    """The algorithm `ttm:access`."""

    NAME, TITLE, GROUP = "access", "Access to opportunities", "times"
    HELP = (
        "Counts what each origin reaches within given minutes, such as jobs within 30 and 45 minutes. Choose the "
        "fields of the destinations to count. With another decay, near opportunities count more than far ones."
    )

    def definitions(self) -> list[Any]:
        return [
            define.feed(),
            define.streets(),
            *define.layer("ORIGINS", "Origins", "Where journeys begin, such as homes or cells."),
            *define.layer("DESTINATIONS", "Destinations", "What is reached, such as workplaces."),
            *access_definitions("30"),
            *define.window(),
            define.percentiles(),
            *define.limits(),
            QgsProcessingParameterFeatureSink("OUTPUT", "Origins with access", compat.ANY_VECTOR),
        ]

    def errors(self, values: Values) -> Iterator[str]:
        yield from super().errors(values)
        yield from access_errors(values)

    def compute(self, run: Run) -> dict[str, Any]:
        times, cutoffs = run.values.times(), run.values.minutes()
        origins, destinations = run.ends()
        counts = counts_of(destinations, run.values.fields("FIELDS"), run.feedback)
        columns = [(name, cutoff, share) for name in counts for cutoff in cutoffs for share in times.percentiles]
        many = len(times.percentiles) > 1
        added = [access_field(*column, many) for column in columns]
        fields = extended(origins.source.fields(), added, origins.label)
        feed, result = run.prepare(run.values.path("FEED"), run.progress(2, 15))
        run.warn_of_date(times.date, result)
        joined = run.join(feed, times, origins, destinations, run.progress(15, 35))
        matrix = run.ask(joined, times, [], run.progress(35, 85))
        found = measure(run, matrix, scenario_of(times), counts, destinations, run.progress(85, 95))
        kind = (origins.source.wkbType(), origins.source.sourceCrs())
        output = Output(self, run.parameters, run.context, "OUTPUT", fields, kind)
        warn_of_shapefile(output.place, fields, run.feedback)
        first = []
        for position, feature in enumerate(origins.features):
            name = f"{origins.prefix}{position + 1}"
            cells = [found.get((name, share, column, cutoff)) for column, cutoff, share in columns]
            first += [cells[0]] if cells[0] is not None else []
            output.add([*feature.attributes(), *cells], feature.geometry())
        self.style(run, output.place, classes.of_access(added[0].name(), first), kind[0])
        run.feedback.setProgress(100)
        return {"OUTPUT": output.place}


def access_field(name: str, cutoff: int, share: int, many: bool) -> Any:
    """Return the field of one column, limit and percentile; its name has the percentile if there are several."""
    made = f"{name}_{cutoff}_p{share}" if many else f"{name}_{cutoff}"
    return field(made, compat.REAL, f"{name} within {cutoff} min, {share} % of departures")


def counts_of(destinations: Places, fields: Sequence[str], feedback: Any) -> dict[str, list[float]]:
    """Return the numbers of each field; without fields each destination counts as 1."""
    if not fields:
        return {PLACES: [1.0] * len(destinations.features)}
    return {name: numbers_of(destinations, name, feedback) for name in fields}


def measure(
    run: Run, matrix: Matrix, scenario: str, counts: dict[str, list[float]], destinations: Places, progress: Progress
) -> Found:
    """Return the access of each origin by `ttm-tools access`."""
    run.feedback.setProgressText("Measuring access")
    listed, table = run.folder / f"{scenario}-counts.csv", run.folder / f"{scenario}-{matrix.folder.parent.name}.csv"
    write_counts(listed, counts, destinations)
    decay, value = DECAYS[run.values.whole("DECAY")], run.values.number_or_none("DECAY_VALUE")
    most = run.values.number_or_none("MAX_TRAVEL")
    words: list[object] = ["--opportunities", listed, "--cutoffs", ",".join(map(str, run.values.minutes()))]
    words += ["--decay", decay, *([] if value is None else ["--decay-value", f"{value:g}"])]
    words += [] if most is None else ["--max-minutes", f"{most:g}"]
    run.tools.command(progress, "access", *words, "--scenario", scenario, "--out", table, matrix.files[scenario])
    return read_access(table, list(counts))


def write_counts(path: Path, counts: dict[str, list[float]], destinations: Places) -> None:
    """Write the file of opportunities; its columns are numbered, since fields may have any name."""
    with path.open("w", newline="", encoding="utf-8") as file:
        writer = csv.writer(file)
        writer.writerow(["stop_id", *(f"column{place}" for place in range(len(counts)))])
        for name, position in zip(destinations.names, destinations.points):
            writer.writerow([name, *(f"{numbers[position]:.15g}" for numbers in counts.values())])


def read_access(path: Path, columns: Sequence[str]) -> Found:
    """Read the long table of `ttm-tools access`."""
    found = {}
    with path.open(newline="", encoding="utf-8") as file:
        for row in csv.DictReader(file):
            column = columns[int(row["opportunity"].removeprefix("column"))]
            key = (row["id"], int(row["percentile"]), column, round(float(row["cutoff"])))
            found[key] = float(row["accessibility"])
    return found
