"""Rules that repair the texts of fields: names of columns, encodings, numbers, times, dates, and identifiers."""

import math
import re
from collections import Counter
from typing import Callable, Sequence

import numpy as np

from ..core.text import display_text
from ..core.times import as_clock
from ..gtfs import fields
from ..gtfs.columns import used, values_of
from ..gtfs.feeds import Feed, stops_of
from ..gtfs.fields import FILES, Layout, WEEKDAYS, date, number, time
from ..gtfs.identifiers import KINDS, kind_of
from ..gtfs.likely import COMMA, PLACES, renamed_columns
from ..gtfs.tables import Table
from .repair import Repair
from .report import Repaired


NUMBER = re.compile(r"\+?([0-9]+)(?:[.,]([0-9]*))?")
LOOSE_TIME = re.compile(r"([0-9]{1,3}):([0-9]{1,2})(?::([0-9]{1,2})(?:\.[0-9]*)?)?")
LOOSE_DATE = re.compile(r"([0-9]{4})[-/.]([0-9]{1,2})[-/.]([0-9]{1,2})")
YEAR_LAST = re.compile(r"([0-9]{1,2})([-/.])([0-9]{1,2})\2([0-9]{4})")
READINGS = {"-": ("dmy", "mdy"), "/": ("dmy", "mdy"), ".": ("dmy",)}  # by the sign between day, month and year


def mended_number(text: str) -> str | None:
    """1 for 1.0 and +1."""
    found = NUMBER.fullmatch(text.strip())
    return found[1] if found and not (found[2] or "").strip("0") else None


def mended_duration(text: str) -> str | None:
    """The same, and decimals are rounded up."""
    found = NUMBER.fullmatch(text.strip())
    return str(int(found[1][:20]) + (math.ceil(float(f"0.{found[2]}")) if found[2] else 0)) if found else None


def mended_time(text: str) -> str | None:
    """08:05:00 for 8:5:00, 8:05, and 08:05:00.0."""
    found = LOOSE_TIME.fullmatch(text.strip())
    if not found or int(found[2]) > 59 or int(found[3] or 0) > 59:
        return None
    return as_clock(int(found[1]) * 3600 + int(found[2]) * 60 + int(found[3] or 0))


def mended_date(text: str) -> str | None:
    """20260504 for 2026-05-04."""
    found = LOOSE_DATE.fullmatch(text.strip())
    return f"{found[1]}{int(found[2]):02}{int(found[3]):02}" if found else None


def date_of(text: str, reading: str) -> str | None:
    """20261231 for 31.12.2026, read with the day or with the month first."""
    found = YEAR_LAST.fullmatch(text.strip())
    if found is None or reading not in READINGS[found[2]]:
        return None
    day, month = (found[1], found[3]) if reading == "dmy" else (found[3], found[1])
    agreed = f"{found[4]}{int(month):02}{int(day):02}"
    return agreed if date(agreed) >= 0 else None


def agreed_dates(texts_of_dates: Sequence[str]) -> dict[str, str]:
    """Dates with the year last, by the one reading on which all agree; none where there are two or none."""
    loose = [text for text in texts_of_dates if YEAR_LAST.fullmatch(text.strip())]
    readings = [{text: date_of(text, reading) for text in loose} for reading in ("dmy", "mdy")]
    whole = [{text: date for text, date in by.items() if date is not None} for by in readings]
    fitting = [by for by in whole if len(by) == len(set(loose))]
    return fitting[0] if fitting and all(by == fitting[0] for by in fitting) else {}


Mend = tuple[str, Callable[[str], int], Callable[[str], "str | None"]]
A_NUMBER: Mend = ("number", number, mended_number)
A_DURATION: Mend = ("number", number, mended_duration)
A_TIME: Mend = ("time", time, mended_time)
A_DATE: Mend = ("date", date, mended_date)
MENDED: dict[str, Mend] = {
    **{name: A_NUMBER for name in ("location_type", "exception_type", "stop_sequence", "pickup_type", "drop_off_type")},
    **{name: A_NUMBER for name in (*WEEKDAYS, "transfer_type")},
    **{name: A_DURATION for name in ("headway_secs", "min_transfer_time")},
    **{name: A_TIME for name in ("arrival_time", "departure_time", "start_time", "end_time")},
    **{name: A_DATE for name in ("start_date", "end_date", "date")},
}


def mend_columns(repair: Repair, table: Table) -> None:
    """Rule `column`: a column that is read has its name again where only capitals, spaces or signs differ."""
    names = renamed_columns(table)
    for old, new in names.items():
        if old != new:
            repair.changes.append(Repaired(repair.label + table.name, 1, new, old, "column", f"now {new}"))
            table.source = None
    table.fields = {names[name]: column for name, column in table.fields.items()}


def mend_texts(repair: Repair, table: Table) -> None:
    """Rule `text`: what isn't UTF-8, but for identifiers, which are bytes, is read as Windows-1252."""
    for name in table.columns:
        if not name.endswith("_id") and name != "parent_station":
            right = {text: display_text(text) for text in table[name].categories if display_text(text) != text}
            repair.put_for(table, name, "text", right)


def mend_spaces(repair: Repair, table: Table) -> None:
    """Rule `spaces`: identifiers, coordinates, and fields that `ttm` reads lose the spaces around them in all files."""
    layout = FILES.get(table.name, Layout(()))
    if repair.told_apart is None:
        repair.told_apart = told_apart(repair.feed)
    for column in table.columns:
        kind = kind_of(table.name, column)
        if kind or column in (*layout.needed, *layout.taken, *PLACES[:2]):
            kept = repair.told_apart.get(kind or "", set())
            padded = [text for text in table[column].categories if text != text.strip() and text not in kept]
            repair.put_for(table, column, "spaces", {text: text.strip() for text in padded})


def told_apart(feed: Feed) -> dict[str, set[str]]:
    """The identifiers of each kind that differ in spaces alone from another one of the file that gives them."""
    found: dict[str, set[str]] = {}
    for kind, ((name, column), *_) in KINDS.items():
        texts = used(feed.tables[name][column]) if name in feed.tables else []
        counts = Counter(text.strip() for text in texts)
        found[kind] = {text for text in texts if counts[text.strip()] > 1}
    return found


def mend_places(repair: Repair, table: Table) -> None:
    """Rule `comma`: decimal commas of coordinates become points, where the whole column has them."""
    for column in PLACES[:2] if table.name == "stops.txt" else ():
        texts = {text for text in used(table[column]) if text.strip()}
        commas = {text for text in texts if COMMA.fullmatch(text.strip())}
        if commas and all(text in commas or text.strip().lstrip("+-").isdigit() for text in texts):
            repair.put_for(table, column, "comma", {text: text.strip().replace(",", ".") for text in commas})


def mend_fields(repair: Repair, table: Table) -> None:
    """Rules `number`, `time` and `date`; dates with the year last have one reading throughout a file."""
    layout = FILES[table.name]
    names = [name for name in (*layout.needed, *layout.taken) if name in MENDED and name in table]
    agreed = agreed_dates([text for name in names if MENDED[name] is A_DATE for text in used(table[name])])
    for name in names:
        rule, read, mend = MENDED[name]
        wrong = [text for text in table[name].categories if read(text) == fields.NONE]
        right = {text: made_text for text in wrong if (made_text := mend(text)) is not None and read(made_text) >= 0}
        repair.put_for(table, name, rule, {**(agreed if MENDED[name] is A_DATE else {}), **right})


def mend_stations(repair: Repair, table: Table) -> None:
    """Rule `station`: a call at a station or boarding area moves to its stop; a station without stops becomes one."""
    if table.name != "stop_times.txt" or not repair.feed.has_columns("stops.txt"):
        return
    stops = repair.feed.tables["stops.txt"]
    kinds, known = values_of(stops["location_type"], number), set(stops_of(repair.feed) or [])
    identifiers, parents = stops.texts("stop_id"), [text.strip(" ") for text in stops.texts("parent_station")]
    children = {parent: name for name, parent in reversed(list(zip(identifiers, parents))) if name in known}
    called = set(table["stop_id"].categories) - known
    right: dict[str, str] = {}
    for row, (name, parent, kind) in enumerate(zip(identifiers, parents, kinds)):
        if name not in called:
            continue
        if kind == 4 and parent in known:
            right[name] = parent
        elif kind == 1 and name in children:
            right[name] = children[name]
        elif kind == 1:
            repair.put(stops, "location_type", np.array([row]), ["0"], "station")
    repair.put_for(table, "stop_id", "station", right)
