"""A folder that `ttm` reads, made from published feeds."""

import datetime
from collections import Counter
from dataclasses import dataclass
from pathlib import Path
from typing import Iterator, Sequence

import numpy as np

from ..core.columns import REPAIRS, names_of
from ..core.errors import InputError
from ..core.files import atomic_folder, require_empty
from ..core.limits import MOST_EVENTS, MOST_RUNS, MOST_STOPS, MOST_TRIPS
from ..core.notices import Notice
from ..core.progress import reported
from ..core.tables import write_rows
from ..core.text import quantity
from ..gtfs.check import check
from ..gtfs.columns import positions_of
from ..gtfs.fault_report import refuse
from ..gtfs.feeds import Feed, names_in, read_feed, refuse_planned, write_feed
from ..gtfs.fields import FILES
from ..gtfs.likely import of_days, unclosed
from ..gtfs.service_days import on_days, runs_of_trips
from .clip import Clip, clip, near
from .losses import Hints, counts_of, left, no_runs, refuse_day, refuse_losses
from .merge import merge
from .repair import repair
from .report import Repaired

PREPARED = "prepared.csv"
OF_DAYS = ("trips.txt", "stop_times.txt")  # of which fewer records are left for some days
MOST_RECORDS = {"stops.txt": MOST_STOPS, "trips.txt": MOST_TRIPS, "stop_times.txt": MOST_EVENTS}
ORDER = {name: place for place, name in enumerate(FILES)}


@dataclass(frozen=True)
class PrepareOptions:
    """The feeds to prepare, and how."""

    paths: Sequence[str]  # zip files or folders
    out: str  # the folder that is written
    mends: bool  # by the rules
    clip: Clip = Clip()
    allows_loss: bool = False  # also where a repair takes much of a file, or no trip runs
    day: datetime.date | None = None  # of the departures, on which trips are to run
    same_clock: bool = False  # whether feeds of several time zones are merged
    takes_planned: bool = False  # also the folder of a plan's feed, since scenario files go with it
    hints: Hints = Hints()  # what errors say that you can do


@dataclass(frozen=True)
class Prepared:
    """A folder that was written."""

    lines: list[str]  # what was done, a sentence a line
    feed: Feed
    changes: list[Repaired]


def make(options: PrepareOptions, room: Path) -> list[str]:
    """Writes the folder, and says what was done, a sentence a line."""
    return prepared(options, room).lines


def prepared(options: PrepareOptions, room: Path) -> Prepared:
    """Writes the folder, and gives what is in it."""
    require_empty(Path(options.out))
    changes, lines, feeds = list[Repaired](), list[str](), list[Feed]()
    for number, path in enumerate(reported(options.paths, len(options.paths), "feeds")):
        feed, done, sentences = read_repaired(options, path, room / str(number))
        changes += done
        lines += sentences
        feeds.append(feed)
    feed, merged = merge(feeds, options.same_clock) if len(feeds) > 1 else (feeds[0], [])
    lines += [*merged, *(of_days(feed) if changes else [])]
    which, without_runs = options.paths[0] if len(feeds) == 1 else "the feeds", no_runs(feed, *options.clip.days)
    if not options.allows_loss:
        refuse_day(which, feed, options.day, options.hints)
    if options.clip.is_any:
        lines += clip(feed, options.clip)
        empty = None if options.allows_loss or options.day is None else no_runs(feed, options.day)
        if empty:  # no trip of what was clipped runs on the day of the departures
            raise InputError(options.out, f"no service is left: {empty} ({options.hints.empty})")
    if without_runs and not options.allows_loss:
        raise InputError(which, f"{without_runs} ({options.hints.loss})")
    refuse_limits(feed)
    with atomic_folder(options.out) as folder:
        write_feed(feed, folder)
        with open(folder / PREPARED, "wb") as file:
            write_rows(file, names_of(REPAIRS), [change.row() for change in changes])
    return Prepared([*lines, *run_lines(feed, options.clip.days), counts_stated(options.out, feed)], feed, changes)


def read_repaired(options: PrepareOptions, path: str, room: Path) -> tuple[Feed, list[Repaired], list[str]]:
    """Reads a feed and repairs it, if that is chosen; gives what was done, and sentences on that."""
    if not options.takes_planned:
        refuse_planned(path)
    feed = read_feed(path, room, lambda stops: near(stops, options.clip))
    before = counts_of(feed)
    found = repair(feed, f"{feed.name}/" if len(options.paths) > 1 else "") if options.mends else []
    done = sorted(found, key=lambda fault: (ORDER.get(fault.file.rpartition("/")[2], len(ORDER)), fault.record))
    hint = options.hints.after_repair if options.mends else options.hints.errors
    refuse(path, [fault for fault in check(feed) if not fault.is_limit], hint, unclosed(feed))
    if done and not options.allows_loss:
        refuse_losses(path, before, done, feed, options.hints)
    return feed, done, [*mended_lines(done), *([left(before, feed)] if done else [])]


def counts_stated(out: str, feed: Feed) -> str:
    """How much a folder has of stops, trips and stop times."""
    stops, trips, calls = (len(feed.get(name)) for name in ("stops.txt", "trips.txt", "stop_times.txt"))
    kinds = "stop" if stops == 1 else "stops and stations"
    return f"{out}: {stops:,} {kinds}, {quantity(trips, 'trip')}, {quantity(calls, 'stop time')}"


def refuse_limits(feed: Feed) -> None:
    """Refuses a file that is longer than `ttm` takes."""
    for fault in check(feed):
        name = fault.table.name
        less = "use --box, --area, --routes or --agency" + (", or --date" if name in OF_DAYS else "")
        what = f"{len(feed.tables[name]):,} records; ttm takes {fault.allowed}; {less}"
        raise InputError(name, what, limit=MOST_RECORDS.get(name))


def mended_lines(changes: Sequence[Repaired]) -> list[str]:
    """How often each rule was applied, and what it did."""
    counts = Counter((change.rule, change.file, noun_of(change.done)) for change in changes)
    return [
        Notice(
            f"{rule}: {file}: {quantity(count, noun)} {'repaired' if noun == 'field' else 'removed'}", "repaired", count
        )
        for (rule, file, noun), count in counts.items()
    ]


def noun_of(done: str) -> str:
    """What a rule repaired or removed."""
    return "field" if done.startswith(("now", "emptied")) else "trip" if done.startswith("trip ") else "record"


def run_lines(feed: Feed, days: Sequence[datetime.date]) -> Iterator[str]:
    """The runs on the chosen days, compared with what `ttm` takes."""
    if not days:
        return
    table = feed.tables["stop_times.txt"]
    runs, names = runs_of_trips(feed), names_in(feed, "trips.txt", "trip_id") or []
    calls = np.bincount(positions_of(table["trip_id"], names) + 1, minlength=len(names) + 1)[1:]
    on = np.sum([on_days(feed, [day]) for day in days], axis=0, dtype=np.int64)
    total, events = int(on @ runs), int(on @ (runs * calls))
    sentence = f"runs from {days[0]} to {days[-1]}: {total:,} with {events:,} stop times"
    most = f"{MOST_RUNS:,} and {MOST_EVENTS:,}"
    few = total <= MOST_RUNS and events <= MOST_EVENTS
    help = "use --back 0 --ahead 0, or a smaller region"
    yield sentence if few else Notice(f"{sentence}, of which ttm takes {most}; {help}", "engine", total)
