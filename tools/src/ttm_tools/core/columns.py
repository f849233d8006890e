"""Columns of the tables that commands print, in order, with their descriptions.

Headers of tables come from here, and so do the lists in docs/reference/measures.md. The columns of `Equity`, `Nearness`
and `Service` are fields of these classes.
"""

import itertools
from dataclasses import dataclass
from typing import Iterable, Sequence


@dataclass(frozen=True)
class TableColumn:
    """A column, its description with the unit (none if the name says enough), and the source of its definition."""

    name: str
    what: str = ""
    source: str = ""


def named(*names: str, what: str = "") -> tuple[TableColumn, ...]:
    """Return columns that share a description."""
    return tuple(TableColumn(name, what) for name in names)


def names_of(columns: Iterable[TableColumn]) -> list[str]:
    """Return the header of a table."""
    return [column.name for column in columns]


CHANGE = named("change", what="after minus before")
BY_PAIR = (
    *named("origin", "origin_name", "destination", "destination_name"),
    *named("what", what="cut off, slower, new or faster, by the travel time alone"),
    *named("before", "after", what="seconds in base and scenario"),
    *CHANGE,
)
BY_ORIGIN = (
    *named("origin", "origin_name"),
    *named("access_before", "access_after", what="in base and scenario"),
    *CHANGE,
    *named("percent", what="the same in percent of before"),
    *named("cut_off", "slower", "new", "faster", what="number of such destinations"),
)
OF_PEOPLE = named("opportunity", "percentile", "cutoff", "group", "scenario")  # followed by the columns of a measure
OF_PEOPLE_NEAREST = named(
    "opportunity", "percentile", "nearest", "group", "scenario"
)  # for times to the nearest opportunities
LIMIT = "the limit: opportunities, or minutes to the nearest"
OF_BAND = named("people", "percent", what="those of the group within it")
BANDS = (*OF_PEOPLE, *named("at_least", what=LIMIT), *OF_BAND)
BANDS_OF_NEAREST = (*OF_PEOPLE_NEAREST, *named("within_minutes", what=LIMIT), *OF_BAND)
WHO_GAINS = named(  # followed by the columns of `Gains`
    "scenario", "base", "base_date", "percentile", "opportunity", "minutes", "group", "threshold"
)
ON_FOOT = "on foot, before, between and after rides"
JOURNEYS = (
    *named("scenario", "origin", "destination", "percentile"),
    *named("seconds", "departure", what="the cell, and the first departure that takes so long"),
    *named("access_seconds", what=ON_FOOT),
    *named("wait_seconds", "ride_seconds", "change_seconds"),
    *named("walk_seconds", "egress_seconds", what=ON_FOOT),
    *named("rides", "routes", "trips"),
)
SERVICE = named("scenario", "route", "route_name", "direction", "period")  # followed by the columns of `Service`
SERVICE_OF_STOPS = named("scenario", "stop_id", "stop_name", "period", "departures", "departures_an_hour")
REPAIRS = named("file", "record", "column", "value", "rule", "done")
ERRORS = named("file", "record", "column", "value", "fault", "allowed")
ACCESS = named("id", "opportunity", "percentile", "cutoff", "accessibility")
NEAREST = named("id", "opportunity", "percentile", "nearest", "seconds")
ENDS = (  # behind NEAREST
    *named("to_id", "to_name", what="the destination that completes the number; empty if it isn't reached"),
    *named("ties", what="how many other destinations with this opportunity have the same travel time"),
)
WINDOWS = named("date", "window", "from", "to")  # first columns of a study's tables by window
WINDOW_CHANGES = (  # after WINDOWS, in the table of changes of access
    *named("scenario", "opportunity", "percentile", "cutoff"),
    *named("lose", "cut_off", "gain", "newly_reached", what="number of origins"),
    *named("group"),
    *named("mean_change", what="mean change of access of the group, after minus before"),
)
EXPLAINED = {  # by command; docs/reference/measures.md has a table for each
    "access": ENDS,
    "compare": (*BY_PAIR, *BY_ORIGIN),
    "bands": (*BANDS[:-2], *BANDS_OF_NEAREST),
    "explain": JOURNEYS,
}


def compared(by_pair: bool, has_names: bool) -> list[str]:
    """Return the header of a table of `compare`; without a feed there are no names of stops."""
    return [name for name in names_of(BY_PAIR if by_pair else BY_ORIGIN) if has_names or not name.endswith("_name")]


def explained(columns: Iterable[TableColumn]) -> str:
    """Return a Markdown table of the columns that have a description, one row for each description."""
    each_once = dict.fromkeys(own for own in columns if own.what)
    grouped = itertools.groupby(each_once, lambda own: (own.what, own.source))
    listed = [(what, source, names_of(some)) for (what, source), some in grouped]
    rows = [[", ".join(f"`{name}`" for name in names), what, source] for what, source, names in listed]
    with_source = any(source for _, source, _ in listed)
    return table(["Column", "What it is", *(["Source"] if with_source else [])], rows)


def table(heads: Sequence[str], rows: Iterable[Sequence[str]]) -> str:
    """Return a Markdown table."""
    lines = ["".join(f"| {cell} " if cell else "| " for cell in row[: len(heads)]) + "|" for row in [heads, *rows]]
    return "\n".join([lines[0], "|---" * len(heads) + "|", *lines[1:]])
