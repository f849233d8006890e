"""Prepare a feed: merge, repair and clip published feeds into a folder that all other algorithms take."""

from __future__ import annotations

import csv
import datetime
import json
import os
import shutil
from pathlib import Path
from typing import Any, Iterator, Mapping

from qgis.core import (
    QgsCoordinateReferenceSystem,
    QgsCsException,
    QgsProcessingException,
    QgsProcessingOutputNumber,
    QgsProcessingOutputString,
    QgsProcessingParameterFeatureSink,
    QgsProcessingParameterFeatureSource,
    QgsProcessingParameterFolderDestination,
    QgsProcessingParameterMultipleLayers,
)

from .. import compat, parameters as define
from ..places import to_degrees
from ..results import Output, field, table_of
from ..run import Run
from ..values import Values, feed_errors
from .base import Algorithm

REPAIRS = ("file", "record", "column", "value", "rule", "result")
NUMBERS = {"STOPS": "stops", "TRIPS": "trips", "STOP_TIMES": "stop_times"}
TEXTS = {
    "FIRST_DATE": "First date",
    "LAST_DATE": "Last date",
    "BUSIEST_WEEKDAY": "A date with the most trips, Mo to Fr",
}
SATURDAY = 5


class PrepareFeed(Algorithm):
    """The algorithm `ttm:preparefeed`."""

    NAME, TITLE, GROUP = "preparefeed", "Prepare a feed", "feeds"
    HELP = (
        "Merges published GTFS feeds, repairs what the engine would refuse, and writes a folder that all other "
        "algorithms take as their feed. The table of repairs lists each changed record with its rule. Clip a large "
        "feed to an area or a date to make later steps faster. Travellers change between two feeds only on foot."
    )

    def definitions(self) -> list[Any]:
        feeds = QgsProcessingParameterMultipleLayers("FEEDS", "Feeds (GTFS zips)", compat.FILES)
        feeds.setMinimumNumberInputs(1)
        area = QgsProcessingParameterFeatureSource("AREA", "Keep stops inside", [compat.ANY_POLYGONS], None, True)
        days = "Days {} the date that are kept, too."
        only = "Identifiers of the feed, with commas between them. Empty: all."
        sink = QgsProcessingParameterFeatureSink("REPAIRS", "Repairs", compat.ANY_VECTOR, None, True, True)
        day = define.date("DATE", "Keep trips of this date and the days around it", optional=True)
        numbers = [
            QgsProcessingOutputNumber(name, name.replace("_", " ").capitalize()) for name in (*NUMBERS, "REPAIRED")
        ]
        return [
            define.help_text(feeds, "Zip files or folders. In scripts repeat the parameter for each feed."),
            *define.repairs(advanced=False),
            define.help_text(area, "A trip keeps its calls inside the areas, if there are at least two."),
            day,
            define.whole("DAYS_BEFORE", "Service days before that count", days.format("before"), 1, 0, 6),
            define.whole("DAYS_AFTER", "Service days after that count", days.format("after"), 1, 0, 6),
            define.text("ROUTES", "Keep these routes only", None, only, True, True),
            define.text("AGENCIES", "Keep these agencies only", None, only, True, True),
            QgsProcessingParameterFolderDestination("OUTPUT", "Prepared feed"),
            define.help_text(sink, "Each changed record: file, record (1 is the header), column, value, rule, result."),
            *numbers,
            *(QgsProcessingOutputString(name, label) for name, label in TEXTS.items()),
        ]

    def errors(self, values: Values) -> Iterator[str]:
        yield from super().errors(values)
        for path in self.feeds(values):
            yield from feed_errors(values.label("FEEDS"), path)

    def feeds(self, values: Values) -> list[str]:
        """Return the paths of the feeds."""
        return [str(path) for path in self.parameterAsFileList(values.parameters, "FEEDS", values.context)]

    def compute(self, run: Run) -> dict[str, Any]:
        folder = Path(self.parameterAsString(run.parameters, "OUTPUT", run.context))
        if folder.is_dir() and any(folder.iterdir()):
            raise QgsProcessingException(f"{run.values.label('OUTPUT')}: the folder {folder} is not empty")
        run.feedback.setProgressText("Preparing the feed")
        options, aside = self.options(run), run.new_folder("feed")
        result = run.prepared(run.progress(2, 95), self.feeds(run.values), options, aside)
        shutil.copytree(aside, folder, dirs_exist_ok=True)
        repaired, repairs = self.write_repairs(run, folder)
        run.feedback.setProgress(100)
        numbers = {name: result[key] for name, key in NUMBERS.items()}
        dates = dates_of(result.get("trips_by_date") or {})
        return {"OUTPUT": str(folder), **repairs, **numbers, "REPAIRED": repaired, **dates}

    def options(self, run: Run) -> list[object]:
        """Return the options of the command."""
        values, words = run.values, list[object]()
        for name, option in (("REPAIR", "--repair"), ("ALLOW_LOSS", "--allow-loss")):
            words += [option] if values.is_on(name) else []
        if values.date():
            words += [
                "--date",
                values.date(),
                "--back",
                values.whole("DAYS_BEFORE"),
                "--ahead",
                values.whole("DAYS_AFTER"),
            ]
        for name, option in (("ROUTES", "--routes"), ("AGENCIES", "--agency")):
            words += [word for item in values.text(name).split(",") if item.strip() for word in (option, item.strip())]
        area = self.parameterAsSource(run.parameters, "AREA", run.context)
        if area is not None:
            words += ["--area", write_area(area, run)]
        return words

    def write_repairs(self, run: Run, folder: Path) -> tuple[int, dict[str, Any]]:
        """Write the table of repairs, if it is wanted; returns their number and the output."""
        kinds = [compat.INTEGER if name == "record" else compat.TEXT for name in REPAIRS]
        fields = table_of([field(name, kind) for name, kind in zip(REPAIRS, kinds)])
        nowhere = (compat.NO_GEOMETRY, QgsCoordinateReferenceSystem())
        output = Output(self, run.parameters, run.context, "REPAIRS", fields, nowhere)
        count, path = 0, folder / "prepared.csv"
        if path.is_file():
            with path.open(newline="", encoding="utf-8") as file:
                for row in list(csv.reader(file))[1:]:
                    count += 1
                    output.add([row[0], int(row[1]) if row[1] else None, *row[2:]])
        return count, {"REPAIRS": output.place} if output.is_wanted else {}


def write_area(source: Any, run: Run) -> str:
    """Write the polygons of a layer as GeoJSON in degrees, and return the file."""
    label = run.values.label("AREA")
    transform, shapes = to_degrees(source.sourceCrs(), label, run.context), []
    for feature in source.getFeatures():
        geometry = feature.geometry()
        if geometry.isNull() or geometry.isEmpty():
            continue
        try:
            geometry.transform(transform)
        except QgsCsException as error:
            raise QgsProcessingException(
                f"{label}: feature {feature.id()} is outside its projection: {error}"
            ) from None
        shapes.append({"type": "Feature", "properties": {}, "geometry": json.loads(geometry.asJson(9))})
    if not shapes:
        raise QgsProcessingException(f"{label}: the layer has no areas")
    path = run.folder / "area.geojson"
    path.write_text(json.dumps({"type": "FeatureCollection", "features": shapes}), encoding="utf-8")
    return os.fspath(path)


def dates_of(trips: Mapping[str, int]) -> dict[str, str]:
    """Return the first and the last date with trips, and a date from Monday to Friday with the most; "" if none."""
    running = sorted(day for day, count in trips.items() if count)
    if not running:
        return dict.fromkeys(TEXTS, "")
    weekdays = [day for day in running if datetime.date.fromisoformat(day).weekday() < SATURDAY]
    busiest = max(weekdays, key=lambda day: trips[day], default="")
    return {"FIRST_DATE": running[0], "LAST_DATE": running[-1], "BUSIEST_WEEKDAY": busiest}
