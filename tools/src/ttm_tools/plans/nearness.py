"""Whether walks to new stops bring old stops nearer to one another: then today wouldn't be the feed as it was."""

import os
from typing import Iterator

from ..core.notices import Notice
from ..core.stop_lists import FOOTPATH_COLUMNS
from ..core.tables import rows
from ..core.text import display_text, quantity
from ..gtfs.nearest import reached_from
from ..gtfs.stops import read_stops

NEW_STOPS = "new_stops.csv"
Leaving = dict[int, list[tuple[int, int]]]  # for each stop the stops within a walk, and its seconds


def sentences_on_nearer(folder: str, footpaths: str, walk: int = 0) -> Iterator[str]:
    """A sentence where walks by way of new stops of a folder of scenarios are shorter than all others, within the
    longest of the footpaths or the walk of a run, in seconds.
    """
    names = new_stops_in(folder)
    if not names:
        return
    stops = read_stops(folder)
    new = {stops.places[name] for name in names if name in stops.places}
    walks: Leaving = {}
    for _, (origin, target, text) in rows(footpaths, FOOTPATH_COLUMNS):
        walks.setdefault(stops.places[origin], []).append((stops.places[target], int(text)))
    found = nearer(walks, new, walk)
    if found:
        a, b, seconds, before = found[0]
        ends = f"{display_text(stops.identifiers[a])} and {display_text(stops.identifiers[b])}"
        without = "out of reach" if before is None else before
        times = f"{seconds} seconds apart by way of them, and {without} without them"
        pairs = f"{quantity(len(found), 'pair')} of old stops nearer to each other, so today differs from the feed"
        yield Notice(f"walks to new stops bring {pairs}: {ends}, {times}", "scenario", len(found))


def nearer_by_plan(feed: str | os.PathLike[str], footpaths: str | os.PathLike[str] | None, walk: int) -> list[str]:
    """Return a sentence if walks to a plan's new stops bring old stops nearer to each other.

    Then `today` differs from the feed without the plan. Without footpaths nothing can.
    """
    return [] if footpaths is None else list(sentences_on_nearer(str(feed), str(footpaths), walk))


def new_stops_in(folder: str) -> list[str]:
    """The new stops of a folder of scenarios; none of another feed. An error of their list is raised."""
    path = os.path.join(folder, NEW_STOPS)
    return [stop for _, (stop,) in rows(path, ["stop_id"])] if os.path.isfile(path) else []


def nearer(walks: Leaving, new: set[int], walk: int = 0) -> list[tuple[int, int, int, int | None]]:
    """The pairs of old stops that are nearer by way of new ones, with the seconds of the walk with and without these.

    Walks from stops next to new ones suffice, since all others pass these stops.
    """
    limit = max((seconds for ways in walks.values() for _, seconds in ways), default=walk)
    limit = max(limit, walk)
    old = {a: [(b, seconds) for b, seconds in ways if b not in new] for a, ways in walks.items() if a not in new}
    beside = [a for a, ways in walks.items() if a not in new and any(b in new for b, _ in ways)]
    sentences: list[tuple[int, int, int, int | None]] = []
    for a in beside:
        before = reached_from(a, old, limit)
        for b, seconds in reached_from(a, walks, limit).items():
            if b not in new and seconds < before.get(b, limit + 1):
                sentences.append((a, b, seconds, before.get(b)))
    return sentences
