"""A feed that is repaired, and what was done to it."""

from dataclasses import dataclass, field
from pkgutil import resolve_name
from typing import Sequence

import numpy as np
import numpy.typing as npt

from ..core.arrays import Mask
from ..core.tables import names_of
from ..gtfs.columns import one_of, texts_at
from ..gtfs.feeds import Feed
from ..gtfs.fields import FILES
from ..gtfs.identifiers import NAMING
from ..gtfs.tables import Table, read_table
from .report import Repaired
from .rules import OF_FIELDS, RULES

Rows = npt.NDArray[np.intp]
SPACES = "spaces"  # the rule that concerns all files of a feed


@dataclass
class Repair:
    """A feed that is repaired, and what was done to it."""

    feed: Feed
    label: str = ""  # before the names of files, where there are several feeds
    changes: list[Repaired] = field(default_factory=list)
    gone: set[str] = field(default_factory=set)  # trips that were removed
    told_apart: dict[str, set[str]] | None = None  # by kind, identifiers whose spaces count

    def note(self, table: Table, rows: Rows, column: str, rule: str, done: Sequence[str]) -> None:
        """Notes what a rule does to some records, while they are as they were."""
        values = texts_at(table[column], table[column].codes[rows]) if column else [""] * len(rows)
        file, records = self.label + table.name, table.records[rows].tolist()
        self.changes += [
            Repaired(file, record, column, value, rule, what) for record, value, what in zip(records, values, done)
        ]

    def put(self, table: Table, column: str, rows: Rows, texts: Sequence[str], rule: str) -> None:
        self.note(table, rows, column, rule, [f"now {text}" if text else "emptied" for text in texts])
        table.put(column, rows, texts)

    def put_for(self, table: Table, column: str, rule: str, right: dict[str, str]) -> None:
        """Replaces texts of a column by others."""
        if right:
            rows = np.flatnonzero(one_of(table[column], right))
            wrong = texts_at(table[column], table[column].codes[rows])
            self.put(table, column, rows, [right[text] for text in wrong], rule)

    def leave_out(self, table: Table, rows: Rows, column: str, rule: str) -> None:
        self.leave_out_both(table, rows, column, np.ones(len(rows), dtype=np.bool_), (rule, rule))

    def leave_out_both(self, table: Table, rows: Rows, column: str, which: Mask, rules: tuple[str, str]) -> None:
        """Removes records, some by one rule and the others by another."""
        for rule, some in zip(rules, (rows[which], rows[~which])):
            self.note(table, some, column, rule, ["record left out"] * len(some))
        kept = np.ones(len(table), dtype=np.bool_)
        kept[rows] = False
        if table.name == "trips.txt":
            self.gone.update(texts_at(table["trip_id"], table["trip_id"].codes[rows]))
            self.gone.difference_update(texts_at(table["trip_id"], table["trip_id"].codes[kept]))
        table.keep(kept)

    def leave_out_trips(self, rule: str, why: dict[str, int]) -> None:
        """Removes trips, each for a record of stop_times.txt, and their stop times; headways follow by themselves."""
        table, times = self.feed.tables["trips.txt"], self.feed.tables["stop_times.txt"]
        names = sorted(why, key=lambda name: why[name])
        rows = np.array([why[name] for name in names], dtype=np.intp)
        self.note(times, rows, "arrival_time", rule, [f"trip {name} left out" for name in names])
        self.gone |= why.keys()
        for part in (table, times):
            part.keep(~one_of(part["trip_id"], why))


def repair(feed: Feed, label: str = "") -> list[Repaired]:
    """Repairs a feed, and gives what was done."""
    repaired = Repair(feed, label)
    for table in feed.tables.values():
        apply(repaired, table, is_of_fields=True)
    if any(change.rule == SPACES for change in repaired.changes):
        trim_others(repaired)
    for name in FILES:
        if feed.has_columns(name):
            apply(repaired, feed.tables[name], is_of_fields=False)
    return repaired.changes


def trim_others(repaired: Repair) -> None:
    """Trims what names stops, routes, trips and the like in the files that `ttm` doesn't read."""
    feed, mend = repaired.feed, resolve_name(f"{__package__}.field_rules.mend_spaces")
    for name in sorted(feed.others):
        if name.endswith(".txt") and set(names_of(feed.others[name])) & NAMING.keys():
            table = read_table(name, feed.others[name])
            mend(repaired, table)
            if table.source is None:
                feed.tables[name] = table
                del feed.others[name]


def apply(repaired: Repair, table: Table, is_of_fields: bool) -> None:
    """Applies all rules of fields, or all others, to a table, in their order; each function once."""
    for name in dict.fromkeys(rule.apply for rule in RULES if (rule.apply in OF_FIELDS) == is_of_fields):
        resolve_name(f"{__package__}.{name}")(repaired, table)
