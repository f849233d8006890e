"""Several feeds as one. Where identifiers of a kind collide, those of the later feed get its name as a prefix."""

from pathlib import Path
from typing import Sequence

import numpy as np

from ..core.errors import InputError
from ..core.notices import Notice
from ..core.text import display_text, quantity
from ..gtfs.feeds import Feed
from ..gtfs.fields import FILES, date
from ..gtfs.identifiers import KINDS, identifiers, rename
from ..gtfs.tables import Table, joined, read_table, table_of

ALSO = (  # in addition to what `ttm` reads, files that are merged; all others are left out, and reported
    *("agency.txt", "shapes.txt", "fare_attributes.txt", "fare_rules.txt", "pathways.txt", "levels.txt"),
    *("translations.txt", "attributions.txt", "areas.txt", "stop_areas.txt", "networks.txt", "route_networks.txt"),
)
INFO = "feed_info.txt"
MANY = "mul"  # the language of a feed of several
OF_AGENCIES = ("agency.txt", "routes.txt", "fare_attributes.txt")  # which name an agency where a feed has several
HELP = "--same-clock takes their times as those of one"


def merge(feeds: Sequence[Feed], same_clock: bool = False) -> tuple[Feed, list[str]]:
    """One feed of all, and what was done, a sentence a line."""
    lines = list[str]()
    for feed in feeds:
        feed.tables |= {name: read_table(name, feed.others[name]) for name in ALSO if name in feed.others}
    refuse_clocks(feeds, same_clock)
    others = [f"{feed.name}/{name}" for feed in feeds for name in sorted(feed.others) if name not in (*ALSO, INFO)]
    if others:
        lines.append(Notice(f"left out, since no rule merges them: {', '.join(others)}", "left out", len(others)))
    info = feed_info_of([feed.others.get(INFO) for feed in feeds])
    merged = feeds[0]
    lines += name_agency(merged)
    for feed in feeds[1:]:
        lines += name_agency(feed)
        prefix = f"{free_name(feed.name, merged)}:"
        collided = [kind for kind in KINDS if identifiers(merged, kind) & identifiers(feed, kind) - {""}]
        for kind in collided:
            for table in feed.tables.values():
                rename(table, kind, lambda name: prefix + name)
            lines.append(Notice(f"{feed.name}: the identifiers of all {kind}s begin with {prefix}", "renamed"))
        names = [name for name in (*FILES, *ALSO) if name in merged.tables or name in feed.tables]
        merged = Feed(merged.name, {name: joined(merged.get(name), feed.get(name)) for name in names})
    merged.others = {}
    if info is not None:
        merged.tables[INFO] = info
    return merged, lines


def refuse_clocks(feeds: Sequence[Feed], same_clock: bool) -> None:
    """Refuses feeds of different time zones, whose times aren't those of one clock."""
    zones: dict[str, str] = {}
    for feed in feeds:
        zones |= {text.strip(): feed.name for text in feed.get("agency.txt").texts("agency_timezone") if text.strip()}
    if len(zones) > 1 and not same_clock:
        zones_stated = ", ".join(f"{display_text(zone)} ({name})" for zone, name in zones.items())
        what = f"the feeds have several time zones, {zones_stated}: {HELP}"
        raise InputError("agency.txt", what).noting(column="agency_timezone", allowed="one time zone")


def name_agency(feed: Feed) -> list[str]:
    """Has routes and fares name the only agency of a feed, which needn't; the feed names one without a name."""
    table = feed.get("agency.txt")
    if len(table) != 1:
        return []
    own = table.text("agency_id", 0).strip()
    name, count = own or feed.name, 0
    for file in OF_AGENCIES:
        if file in feed.tables:
            empty = np.array([row for row, text in enumerate(feed.tables[file].texts("agency_id")) if not text.strip()])
            feed.tables[file].put("agency_id", empty.astype(np.intp), [name] * len(empty))
            count += len(empty)
    return [f"{feed.name}: agency {display_text(name)} added to {quantity(count, 'record')}"] if count else []


def free_name(name: str, merged: Feed) -> str:
    """The name of a feed, with a number where identifiers begin with it already."""
    known = [text for kind in KINDS for text in identifiers(merged, kind)]
    names = [name, *(f"{name}{number}" for number in range(2, 2 + len(known)))]
    return next(name for name in names if not any(text.startswith(f"{name}:") for text in known))


def feed_info_of(paths: Sequence[Path | None]) -> Table | None:
    """The publishers of all feeds, the days on which all are complete, and for the rest what the first one says."""
    tables = [read_table(INFO, path) for path in paths if path is not None]
    records = [table.rows()[0] for table in tables if len(table)]
    if not records:
        return None
    info = {name: text for record in reversed(records) for name, text in record.items()}
    publishers = dict.fromkeys(stated for record in records if (stated := record.get("feed_publisher_name")))
    info["feed_publisher_name"] = ", ".join(publishers)
    if len({record.get("feed_lang", "") for record in records}) > 1:
        info["feed_lang"] = MANY
    for name, chosen in (("feed_start_date", max), ("feed_end_date", min)):
        days = [stated for record in records if date(stated := record.get(name, "")) > 0]
        if name in info:
            info[name] = chosen(days) if days else ""
    return table_of(INFO, list(info), [info])
