"""Walks between the stops of a timetable, closed over chains of footpaths, and the change time at each stop."""

from dataclasses import dataclass
from typing import Mapping, Sequence

import numpy as np

from ..core.arrays import Mask, Whole
from ..core.stop_lists import FOOTPATH_COLUMNS
from .columns import Column, is_group_start, texts_of, values_of
from .feeds import used_transfers
from .fields import number
from .reading import columns
from .tables import Table
from .timetable import Timetable

NO_CHANGE = 16_777_216  # seconds: a change time with which no change is possible
AT_ONCE = 1 << 18  # walks that are lengthened at once, about
NO_STOP, SEVERAL = -1, -2
Ends = Mapping[str, Sequence[int]]  # the stops of each place that a stated walk may name


@dataclass(frozen=True)
class Footpaths:
    """One-way walks between stops, each the least sum over chains of footpaths within the limit."""

    begin: Whole
    end: Whole
    seconds: Whole

    def of(self, rows: Whole | Mask) -> "Footpaths":
        return Footpaths(self.begin[rows], self.end[rows], self.seconds[rows])


def read_walks(
    timetable: Timetable, footpaths: str | None, limit: int, start: int | None = None
) -> tuple[Footpaths, Whole]:
    """The closed walks of a feed and a file, and the change times; from a start those that its journeys need."""
    direct, changes = direct_walks(timetable, footpaths, limit)
    begins = np.full(len(changes), start is None, dtype=np.bool_)
    if start is not None:
        begins[timetable.events.stop] = begins[start] = True
    return closed(direct, limit, begins), changes


def direct_walks(timetable: Timetable, footpaths: str | None, limit: int) -> tuple[Footpaths, Whole]:
    """The shortest walk that is stated from one stop to another, in order, and the change time at each stop."""
    ends, count, table = ends_of(timetable), len(timetable.stops), timetable.feed.get("transfers.txt").copy()
    table.keep(used_transfers(table))
    stated = [stated_walks(table["from_stop_id"], table["to_stop_id"], table["min_transfer_time"], ends)]
    if footpaths is not None:
        read = columns(footpaths, FOOTPATH_COLUMNS)
        begins, targets, seconds = (read[name] for name in FOOTPATH_COLUMNS)
        stated.append(stated_walks(begins, targets, seconds, ends))
    every = joined(stated)
    direct, _ = least(every.of((every.begin != every.end) & (every.seconds <= limit)), count)
    return direct, change_times(table, ends, count)


def ends_of(timetable: Timetable) -> Ends:
    """The stops of each place that a walk may name: the stop itself, or those of a station."""
    known, all_stops = {name: place for place, name in enumerate(timetable.stops)}, timetable.all_stops
    ends = {name: [place] for name, place in known.items()}
    stations = {name for name, kind in zip(all_stops.identifiers, all_stops.kinds.tolist()) if kind == 1}
    for name, station in zip(all_stops.identifiers, all_stops.stations):
        if name in known and station in stations:
            ends.setdefault(station, []).append(known[name])
    return ends


def stated_walks(origin: Column, target: Column, seconds: Column, ends: Ends) -> Footpaths:
    """The walks that records state, between the stops of the places that they name."""

    def place_of(text: str) -> int:
        stops = ends.get(text, ())
        return stops[0] if len(stops) == 1 else SEVERAL if stops else NO_STOP

    begin, end = values_of(origin, place_of, NO_STOP), values_of(target, place_of, NO_STOP)
    taken = values_of(seconds, number)
    several = np.flatnonzero((begin == SEVERAL) | (end == SEVERAL))
    lines = zip(texts_of(origin.at(several)), texts_of(target.at(several)), taken[several].tolist())
    more = [(a, b, least) for one, other, least in lines for a in ends.get(one, ()) for b in ends.get(other, ())]
    single = Footpaths(begin, end, taken).of((begin >= 0) & (end >= 0))
    return joined([single, Footpaths(*np.array(more, np.int64).reshape(-1, 3).T)])


def change_times(transfers: Table, ends: Ends, count: int) -> Whole:
    """The seconds of a change at each stop: those from a stop, or station, to itself."""
    times, columns = np.zeros(count, np.int64), [transfers.texts(name) for name in ("from_stop_id", "to_stop_id")]
    kinds, seconds = (values_of(transfers[name], number) for name in ("transfer_type", "min_transfer_time"))
    for origin, target, kind, taken in zip(*columns, kinds.tolist(), seconds.tolist()):
        for stop in ends.get(origin, ()) if origin == target and kind == 2 else ():
            times[stop] = max(times[stop], min(taken, NO_CHANGE))
    return times


def joined(some: Sequence[Footpaths]) -> Footpaths:
    columns = zip(*((walks.begin, walks.end, walks.seconds) for walks in some))
    return Footpaths(*(np.concatenate(column) for column in columns))


def least(walks: Footpaths, count: int) -> tuple[Footpaths, Whole]:
    """The shortest walk between each two stops, by their numbers, and its place among all; of several the first."""
    pairs = walks.begin * count + walks.end
    order = np.lexsort((walks.seconds, pairs))
    chosen = order[is_group_start(pairs[order])]
    return walks.of(chosen), chosen


def closed(direct: Footpaths, limit: int, begins: Mask) -> Footpaths:
    """The shortest walks from some stops over chains of direct ones, which are in order, cut at the limit."""
    firsts = np.searchsorted(direct.begin, np.arange(len(begins) + 1))
    own = direct.of(begins[direct.begin])
    longer = np.cumsum(firsts[own.end + 1] - firsts[own.end])
    ends = np.flatnonzero(np.append(is_group_start(own.begin), True)[1:]) + 1  # of a stop's
    pieces = [0, *ends[np.diff(longer[ends - 1] // AT_ONCE, append=-1) != 0].tolist()]
    pieces_closed = [over_chains(own.of(np.arange(a, b)), direct, firsts, limit) for a, b in zip(pieces, pieces[1:])]
    return joined([own.of(np.arange(0)), *pieces_closed])


def over_chains(own: Footpaths, direct: Footpaths, firsts: Whole, limit: int) -> Footpaths:
    """The shortest walks that begin with some: what became shorter is lengthened, until nothing does."""
    walks = new = own
    while len(new.begin):
        counts = firsts[new.end + 1] - firsts[new.end]
        row = np.repeat(np.arange(len(counts)), counts)
        step = np.arange(len(row)) + np.repeat(firsts[new.end] - np.cumsum(counts) + counts, counts)
        longer = Footpaths(new.begin[row], direct.end[step], new.seconds[row] + direct.seconds[step])
        longer = longer.of((longer.seconds <= limit) & (longer.end != longer.begin))
        known = len(walks.begin)
        walks, chosen = least(joined([walks, longer]), len(firsts) - 1)
        new = walks.of(chosen >= known)
    return walks
