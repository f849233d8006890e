"""The definitions of the parameters that algorithms share. Models and scripts use their names, which never change."""

from __future__ import annotations

from typing import Any

from qgis.core import (
    QgsProcessingParameterBoolean,
    QgsProcessingParameterDateTime,
    QgsProcessingParameterDefinition,
    QgsProcessingParameterFeatureSource,
    QgsProcessingParameterField,
    QgsProcessingParameterFile,
    QgsProcessingParameterNumber,
    QgsProcessingParameterString,
)
from qgis.PyQt.QtCore import QTime

from . import compat

FEED_FILTER = "GTFS feed (*.zip);;All files (*)"  # 3.22 refuses a folder unless the filter has all files
STREETS_FILTER = "OpenStreetMap (*.pbf *.osm);;All files (*)"
PLAN_FILTER = "Plan (*.toml);;All files (*)"
NUMBERS = QgsProcessingParameterNumber


def help_text(parameter: Any, text: str, is_advanced: bool = False) -> Any:
    """Return a parameter with its help, and as an advanced one if wanted."""
    parameter.setHelp(text)
    if is_advanced:
        parameter.setFlags(parameter.flags() | QgsProcessingParameterDefinition.FlagAdvanced)
    return parameter


def file(name: str, label: str, kind: str, text: str, optional: bool = False) -> Any:
    """Return a parameter of an input file."""
    return help_text(QgsProcessingParameterFile(name, label, fileFilter=kind, optional=optional), text)


def feed(name: str = "FEED", label: str = "Feed (GTFS zip or folder)", optional: bool = False) -> Any:
    """Return the parameter of a feed."""
    text = "A GTFS feed: a zip file, or a folder such as the output of Prepare a feed."
    return file(name, label, FEED_FILTER, text, optional)


def streets() -> Any:
    """Return the parameter of the streets."""
    text = "A file of OpenStreetMap, along whose ways people walk. Empty: straight lines times the detour factor."
    return file("STREETS", "Streets", STREETS_FILTER, text, optional=True)


def layer(name: str, label: str, text: str) -> list[Any]:
    """Return the parameters of a layer of places and of its identifier."""
    source = QgsProcessingParameterFeatureSource(name, label, [compat.ANY_GEOMETRY])
    field_name, field_label = f"{name[:-1]}_ID", f"Identifier of {label.lower()}"
    field = QgsProcessingParameterField(field_name, field_label, parentLayerParameterName=name, optional=True)
    return [
        help_text(source, f"{text} Areas count as a point inside them."),
        help_text(field, "A field with a different value for each feature. Empty: the number of the feature."),
    ]


def fields_of(name: str, label: str, parent: str, text: str, multiple: bool = True) -> Any:
    """Return a parameter of numeric fields of a layer."""
    numeric = QgsProcessingParameterField.Numeric
    field = QgsProcessingParameterField(name, label, None, parent, numeric, multiple, True)
    return help_text(field, text)


def date(name: str = "DATE", label: str = "Date", optional: bool = False) -> Any:
    """Return a parameter of a service day."""
    kind = QgsProcessingParameterDateTime.Date
    return help_text(QgsProcessingParameterDateTime(name, label, kind, optional=optional), "The day, YYYY-MM-DD.")


def time(name: str, label: str, hour: int, minute: int, text: str) -> Any:
    """Return a parameter of a time of day."""
    kind = QgsProcessingParameterDateTime.Time
    return help_text(QgsProcessingParameterDateTime(name, label, kind, QTime(hour, minute)), f"{text} HH:MM.")


def text(name: str, label: str, value: str | None, about: str, optional: bool = False, advanced: bool = False) -> Any:
    """Return a parameter of a text."""
    return help_text(QgsProcessingParameterString(name, label, value, optional=optional), about, advanced)


def number(
    name: str, label: str, about: str, value: float | None, low: float, high: float, advanced: bool = True
) -> Any:
    """Return a parameter of a number with decimals; one without a value is optional."""
    parameter = NUMBERS(name, label, NUMBERS.Double, value, value is None, low, high)
    return help_text(parameter, about, advanced)


def whole(name: str, label: str, about: str, value: int, low: int, high: int, advanced: bool = True) -> Any:
    """Return a parameter of a whole number."""
    return help_text(NUMBERS(name, label, NUMBERS.Integer, value, False, low, high), about, advanced)


def flag(name: str, label: str, value: bool, about: str, advanced: bool = True) -> Any:
    """Return a parameter that is on or off."""
    return help_text(QgsProcessingParameterBoolean(name, label, value), about, advanced)


def percentiles() -> Any:
    """Return the parameter of the percentiles."""
    about = "Whole numbers from 1 to 100, such as 25,50,75. 50: the time that at least half of the departures achieve."
    return text("PERCENTILES", "Percentiles", "50", about)


def cutoffs(value: str) -> Any:
    """Return the parameter of the limits."""
    return text("CUTOFFS", "Within (minutes)", value, "Ascending whole numbers of minutes, such as 15,30,45.")


def repairs(advanced: bool = True) -> list[Any]:
    """Return the parameters of repairing a feed."""
    about = "Repairs what the engine would refuse; the log has the number of repairs of each rule."
    loss = "Goes on even if a repair removes more than a tenth of a file."
    return [
        flag("REPAIR", "Repair the feed", True, about, advanced),
        flag("ALLOW_LOSS", "Go on if a repair removes much", False, loss, advanced),
    ]


def window() -> list[Any]:
    """Return the parameters of date and departures."""
    return [
        date(),
        time("FROM", "First departure", 8, 0, "The first minute of departure."),
        time("TO", "Last departure", 8, 59, "The last minute of departure, included."),
    ]


def limits() -> list[Any]:
    """Return the parameters of a journey, and of repairs: those that most users leave as they are come last."""
    days = "Service days {} the date whose trips count."
    return [
        number("MAX_WALK", "Longest walk (minutes)", "The longest walk, also between two rides.", 10, 0, 120, False),
        whole("MAX_RIDES", "Vehicles at most", "The most vehicles of a journey; 0 is on foot.", 4, 0, 8, False),
        number("MAX_TRAVEL", "Longest travel time (minutes)", "A longer one is none. Empty: any.", None, 0.01, 10000),
        number("WALK_KMH", "Walking speed (km/h)", "How fast people walk.", 4.8, 0.1, 20),
        number("DETOUR", "Metres walked for a metre of straight line", "Without streets.", 1.3, 1, 10),
        whole("DAYS_BEFORE", "Service days before that count", days.format("before"), 1, 0, 6),
        whole("DAYS_AFTER", "Service days after that count", days.format("after"), 1, 0, 6),
        *repairs(),
    ]
