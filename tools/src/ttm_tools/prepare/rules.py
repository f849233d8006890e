"""The rules of `--repair`, each one entry, which `--help` lists; functions are named, so that it needs no package.

Fields are repaired first, in all files; then, file by file in the order of `ttm`, so that what refers to a removed
record is found in turn, identifiers, what is still refused, and whole trips.
"""

import textwrap
from dataclasses import dataclass

OF_FIELDS = tuple(f"field_rules.mend_{name}" for name in ("columns", "texts", "spaces", "places", "fields"))  # first
WIDTHS = 10, 63, 39  # of the columns of --help
DATES = (
    "`2026-05-04`, `2026/5/4`; `31.12.2026` and `31/12/2026`, if all dates of the file agree on the order of day and"
    " month"
)


@dataclass(frozen=True)
class Rule:
    """A rule; several may have one function, which applies them record by record."""

    name: str
    finds: str
    does: str
    apply: str  # a function of a repair and a table


FUNCTIONS = {  # by the name of each function its rules: what each finds, and what it does
    "field_rules.mend_columns": {
        "column": ("a known column's name with other capitals, spaces or signs", "corrects it"),
    },
    "field_rules.mend_texts": {"text": ("a text, not an identifier, that isn't UTF-8", "reads it as Windows-1252")},
    "field_rules.mend_spaces": {
        "spaces": (
            "spaces around an identifier, a coordinate or a field that `ttm` reads, in all files of the feed",
            "removes them, but for identifiers that differ in spaces alone",
        ),
    },
    "field_rules.mend_places": {
        "comma": ("`51,5` as a coordinate, if all of the column have a decimal comma", "writes a point"),
    },
    "field_rules.mend_fields": {
        "number": (
            "`1.0` and `+1`; headways and transfer times with decimals",
            "writes a whole number; decimals of headways and transfer times are rounded up",
        ),
        "time": ("`8:5:00`, `8:05`, `08:05:00.0`", "writes it as `ttm` reads it"),
        "date": (DATES, "writes it as `ttm` reads it"),
    },
    "field_rules.mend_stations": {
        "station": (
            "a call at a station or a boarding area",
            "moves it to the station's first stop or the area's stop; a station without stops becomes a stop",
        ),
    },
    "record_rules.mend_faults": {
        "value": (
            "any other text that is no number, time or date",
            "empties the field if it may be empty, else removes the record",
        ),
        "identifier": ("an empty identifier", "removes the record"),
        "same": ("a repeated record", "removes the later record"),
        "duplicate": ("a repeated identifier (in `stop_times.txt` trip and number)", "removes the later record"),
        "unknown": ("a record that names an unknown stop, route or trip", "removes it"),
        "trip": ("a record of a removed trip", "removes it"),
    },
    "record_rules.mend_trips": {
        "ends": (
            "calls before a trip's first time and after its last one",
            "removes them, and a trip without any time",
        ),
        "midnight": (
            "times that fall by more than half a day along a trip",
            "moves the times from there on by a day",
        ),
        "back": ("other times that go back", "removes the trip"),
    },
    "record_rules.mend_headways": {
        "headway": (
            "an empty row of `frequencies.txt`, or one that begins before another of its trip ends",
            "lets it begin later, or removes it if nothing is left",
        ),
    },
}
RULES = [Rule(name, *texts, apply) for apply, rules in FUNCTIONS.items() for name, texts in rules.items()]


def help_table() -> str:
    """The rules as `--help` lists them."""
    lines = list[str]()
    for rule in RULES:
        columns = [rule.name], *(
            textwrap.wrap(text.replace("`", ""), of) for text, of in zip((rule.finds, rule.does), WIDTHS[1:])
        )
        for row in range(max(map(len, columns))):
            cells = [column[row] if row < len(column) else "" for column in columns]
            lines.append("  " + "  ".join(cell.ljust(width) for cell, width in zip(cells, WIDTHS)).rstrip())
    return "\n".join(lines)
