"""What of a feed's files refers to records that were left out of others, and is left out with them."""

from typing import Iterator, Mapping

import numpy as np

from ..core.arrays import Mask
from ..core.errors import InputError
from ..core.notices import Notice
from ..core.tables import names_of
from ..core.text import quantity
from ..gtfs.columns import one_of, used
from ..gtfs.feeds import Feed
from ..gtfs.identifiers import NAMING, TRANSLATED, ZONES, kind_of
from ..gtfs.tables import Table, read_table

GIVEN = {  # what a feed lacks now, and the file that defined it
    "stop": ("stops.txt", "stop_id"),
    "route": ("routes.txt", "route_id"),
    "trip": ("trips.txt", "trip_id"),
    "service": ("trips.txt", "service_id"),
    "shape": ("trips.txt", "shape_id"),
    "zone": ("stops.txt", "zone_id"),
}
NAMES = (*NAMING, *ZONES, "table_name")
Gone = Mapping[str, set[str]]
There = Mapping[str, set[str]]


def there(feed: Feed) -> There:
    """The identifiers of each kind that a feed has."""
    return {kind: set(used(feed.get(name)[column])) - {""} for kind, (name, column) in GIVEN.items()}


def leave_out_references(feed: Feed, before: There) -> list[str]:
    """Leaves out the records that name what a feed had before and has no more; what, a sentence a line."""
    after = there(feed)
    gone = {kind: names - after[kind] for kind, names in before.items()}
    counts, lines = dict[str, int](), list[str]()
    for name in [*feed.tables, *sorted(feed.others)]:
        table = feed.tables.get(name)
        try:
            if table is None and name.endswith(".txt") and set(names_of(feed.others[name])) & set(NAMES):
                table = read_table(name, feed.others[name])
        except InputError as fault:
            lines.append(Notice(f"{name}: copied as it is, since it can't be read ({fault})", "feed"))
        if table is not None and name not in {file for file, _ in GIVEN.values()} | {"stop_times.txt"}:
            counts[name] = left_out(feed, table, named_still(table, gone, feed))
    counts |= leave_out_fares(feed)
    counts_stated = ", ".join(f"{name} {quantity(count, 'record')}" for name, count in counts.items() if count)
    removed = Notice(f"removed with what they name: {counts_stated}", "left out", sum(counts.values()))
    return [*lines, *([removed] if counts_stated else [])]


def left_out(feed: Feed, table: Table, kept: Mask) -> int:
    """Removes all but some records of a file, which is written again if it loses any; returns how many it loses."""
    lost = len(table) - int(kept.sum())
    table.keep(kept)
    if lost and table.name in feed.others:
        feed.tables[table.name] = table
        del feed.others[table.name]
    return lost


def named_still(table: Table, gone: Gone, feed: Feed) -> Mask:
    """The records of a table that name nothing that is gone."""
    kept: Mask = np.ones(len(table), dtype=np.bool_)
    for column in table.columns:
        kept &= ~one_of(table[column], gone.get(kind_of(table.name, column) or "", ()))
    if table.name == "translations.txt":
        kept &= np.array(list(translated_still(table, gone, feed)) or [True], dtype=np.bool_)[: len(table)]
    return kept


def translated_still(table: Table, gone: Gone, feed: Feed) -> Iterator[bool]:
    """Whether what each record of translations.txt translates is there still; a call by its trip and its number."""
    columns = [table.texts(name) for name in ("table_name", "record_id", "record_sub_id")]
    times = feed.get("stop_times.txt")
    calls = set(zip(times.texts("trip_id"), times.texts("stop_sequence"))) if "stop_times" in columns[0] else set()
    for name, record, part in zip(*columns):
        is_gone = record in gone.get(TRANSLATED.get(name, ""), ())
        yield not is_gone and (name != "stop_times" or not part or (record, part) in calls)


def leave_out_fares(feed: Feed) -> dict[str, int]:
    """Leaves out fares that lost all their rules, as one without a rule would hold everywhere."""
    rules, path = feed.tables.get("fare_rules.txt"), feed.others.get("fare_attributes.txt")
    if rules is None or path is None or rules.source is not None:
        return {}
    column, table = rules["fare_id"], read_table("fare_attributes.txt", path)
    lost = set(column.categories) - set(used(column))
    return {table.name: left_out(feed, table, ~one_of(table["fare_id"], lost))}
