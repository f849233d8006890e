"""How much of a feed a repair leaves, and whether that is enough."""

import datetime
from collections import Counter
from dataclasses import dataclass
from typing import Iterator, Mapping, Sequence

import numpy as np

from ..core.errors import InputError
from ..core.notices import Notice
from ..core.text import quantity
from ..gtfs import likely
from ..gtfs.check import check
from ..gtfs.feeds import Feed
from ..gtfs.fields import FILES
from ..gtfs.service_days import days_of, on_days, runs_by_day, runs_of_trips
from .repair import repair
from .report import Repaired

MOST_LOST = 0.1  # of a file's records, that one rule may leave out
FEW_LOST = {"transfers.txt": 10}  # records of a file without which all trips run, that may always be left out
CALENDARS = ("calendar.txt", "calendar_dates.txt")
NEEDED = ("stops.txt", "routes.txt", "trips.txt", "stop_times.txt")
AFTER = "after --repair: "
NO_LOSS = "same"  # the rule that leaves out repeated records


@dataclass(frozen=True)
class Hints:
    """What you can do about an error, by the options of `ttm-tools prepare` or the fields of a study."""

    errors: str = "--check lists all, --repair repairs what its rules cover"  # the feed has errors
    after_repair: str = "--check lists all; no rule covers them"  # it has some that a repair leaves
    loss: str = "--allow-loss writes the feed anyway; --check lists all errors"  # a repair takes a lot
    day: str = loss  # no trip runs on the date
    empty: str = "--allow-loss writes the feed anyway"  # or none does of those that are chosen


def counts_of(feed: Feed) -> dict[str, int]:
    return {name: len(feed.tables[name]) for name in FILES if name in feed.tables}


def left(before: Mapping[str, int], feed: Feed) -> str:
    """What is left of each file, compared with what was there."""
    after = counts_of(feed)
    return "records left: " + ", ".join(f"{name} {after[name]:,} of {count:,}" for name, count in before.items())


def losses(before: Mapping[str, int], changes: Sequence[Repaired], feed: Feed) -> Iterator[str]:
    """Why what a repair leaves isn't the feed any more: a file that is empty, or a rule that took a lot of one."""
    lost = [change for change in changes if change.done.endswith("left out") and change.rule != NO_LOSS]
    files = ["trips.txt" if it.done.startswith("trip ") else it.file.rpartition("/")[2] for it in lost]
    for (rule, name), count in Counter(zip((change.rule for change in lost), files)).items():
        if count > max(MOST_LOST * before[name], FEW_LOST.get(name, 0)):
            text = f"rule {rule} removes {count:,} of {quantity(before[name], 'record')} of {name}"
            yield Notice(text, "repaired", count)
    for name in NEEDED:
        if not len(feed.get(name)):
            yield Notice(f"{name} has no records", "repaired")
    if not any(len(feed.get(name)) for name in CALENDARS):
        yield Notice(f"{' and '.join(CALENDARS)} have no records", "repaired")


def no_runs(feed: Feed, *chosen: datetime.date) -> str | None:
    """What is reported where no trip runs: on some days that follow one another, or on any."""
    days = days_of(feed)
    busy = np.flatnonzero(runs_by_day(feed, days)).tolist()
    if not chosen:
        return None if busy else likely.NO_RUNS
    if (on_days(feed, list(chosen)) & (runs_of_trips(feed) > 0)).any():
        return None
    others = f"only from {days.day(busy[0])} to {days.day(busy[-1])}" if busy else "or on any other day"
    span = f"on {chosen[0]}" if len(chosen) == 1 else f"from {chosen[0]} to {chosen[-1]}"
    return f"no trip runs {span}, {others}"


def sentences(feed: Feed, has_faults: bool) -> Iterator[str]:
    """What is reported of a feed in addition to its errors; if it has some, its days are those that a repair leaves."""
    yield from likely.sentences(feed, with_days=not has_faults)
    if not has_faults:
        return
    before = counts_of(feed)
    done = repair(feed)
    if any(not fault.is_limit for fault in check(feed)):
        return
    for line in (*losses(before, done, feed), *likely.of_days(feed)):
        yield line.after(AFTER) if isinstance(line, Notice) else f"{AFTER}{line}"


def refuse_losses(path: str, before: Mapping[str, int], changes: Sequence[Repaired], feed: Feed, hints: Hints) -> None:
    """Ends a repair that takes a lot of a feed, or leaves nothing that runs."""
    sentences = [*losses(before, changes, feed), *filter(None, [no_runs(feed)])]
    if sentences:
        raise InputError(path, f"{'; '.join(sentences)} ({hints.loss})")


def refuse_day(path: str, feed: Feed, day: datetime.date | None, hints: Hints) -> None:
    """Ends where no trip runs on the day of the departures."""
    sentence = no_runs(feed, day) if day is not None else None
    if sentence and day is not None:
        found = {"column": "--date", "value": str(day), "nearest": nearest_day(feed, day)}
        raise InputError(path, f"{sentence} ({hints.day})").noting(**found)


def nearest_day(feed: Feed, day: datetime.date) -> str | None:
    """The day on which a trip runs that is nearest to another one, as ISO 8601 has it; of two the earlier."""
    days = days_of(feed)
    busy = np.flatnonzero(runs_by_day(feed, days))
    if not len(busy):
        return None
    return str(days.day(int(busy[np.argmin(np.abs(days.first + busy - day.toordinal()))])))
