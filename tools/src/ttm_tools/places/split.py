"""A feed in which each stop is two: you board at the one, and alight at the other.

`ttm` chains footpaths, and limits their number (`MOST_FOOTPATHS`). If walks may take hours, the stops of a city alone
have more. In a split feed no footpath ends where another begins, so there are no chains, and
`ttm` gets just the walks that journeys need. A change between vehicles at a stop is a walk that takes its change time.
"""

from dataclasses import dataclass
from pathlib import Path
from typing import Sequence

import numpy as np

from ..core.arrays import Mask, Whole
from ..core.files import copy_file
from ..core.limits import MOST_EVENTS, MOST_FOOTPATHS, MOST_FOOT_SECONDS, MOST_STOPS
from ..core.tables import write_rows
from ..gtfs.columns import Column, clocks, column_of, numbered
from ..gtfs.footpaths import Footpaths, NO_CHANGE
from ..gtfs.tables import Table, write_table
from ..gtfs.timetable import Timetable
from ..streets.counting import TooManyWalks
from ..streets.needed import ends_of_trips
from .folder import stops_with
from .read import Points

REPLACED = ("stops.txt", "stop_times.txt", "transfers.txt")
ALIGHT = " alight"


@dataclass(frozen=True)
class Split:
    """The names of a split feed."""

    stops: list[str]  # at which you board, under the names that they have in the feed
    ending: str  # behind the name of one where you alight

    @property
    def alights(self) -> list[str]:
        return [self.twin(name) for name in self.stops]

    def twin(self, name: str) -> str:
        """The name of the other one of two stops or places."""
        return name + self.ending


def split_of(timetable: Timetable, places: Sequence[str], nodes: int) -> Split:
    """The stops of a timetable, split, if `ttm` takes them with some places, each of which becomes a stop."""
    split, known = Split(timetable.stops, ALIGHT), {*timetable.all_stops.identifiers, *places}
    while not known.isdisjoint(split.twin(name) for name in known):
        split = Split(timetable.stops, split.ending + ALIGHT)
    count = len(timetable.all_stops.identifiers) + len(timetable.stops) + nodes
    if count > MOST_STOPS or 2 * len(timetable.events.stop) > MOST_EVENTS:
        text = "too many walks, and too large a feed to leave out those without use"
        raise TooManyWalks(timetable.folder, text, limit=MOST_FOOTPATHS)
    return split


def write_feed(folder: Path, timetable: Timetable, split: Split, places: Points, names: Sequence[str]) -> None:
    """Writes the feed with split stops and some places, under names of their own."""
    source = Path(timetable.folder)
    folder.mkdir(parents=True)
    for file in sorted(source.glob("*.txt")):
        if file.name not in REPLACED:
            copy_file(file, folder / file.name)
    with open(folder / "stops.txt", "wb") as out:
        write_rows(out, *stops_with(source / "stops.txt", added_stops(timetable, split, places, names)))
    with open(folder / "stop_times.txt", "wb") as out:
        write_table(calls_table(timetable, split), out)


def added_stops(timetable: Timetable, split: Split, places: Points, names: Sequence[str]) -> Points:
    """The stops where you alight, and the places; a stop without coordinates is at 0 and 0, which is none."""
    known = timetable.all_stops.of(timetable.stops)
    north = np.concatenate([np.nan_to_num(known.latitudes), places.latitudes])
    east = np.concatenate([np.nan_to_num(known.longitudes), places.longitudes])
    every = [*split.alights, *names]
    return Points("split", every, every, north, east, np.full(len(every), np.nan), [], np.zeros((len(every), 0)))


def calls_table(timetable: Timetable, split: Split) -> Table:
    """stop_times.txt: an event at which you may alight, then one at which you may board. The first event of a trip
    stays, since headways count from it.
    """
    events, (first, last) = timetable.events, ends_of_trips(timetable.events)
    alights, boards = ~first & (last | events.alight), first | (~last & events.board)
    event = np.concatenate([np.flatnonzero(alights), np.flatnonzero(boards)])
    is_boarding = np.repeat([False, True], [alights.sum(), boards.sum()])
    order = np.lexsort((is_boarding, event))
    event, is_boarding = event[order], is_boarding[order]
    trip = np.repeat(np.arange(len(timetable.trips)), np.diff(events.begins))[event]
    sequence = np.arange(len(event)) - np.searchsorted(event, events.begins[trip])
    time = clocks(np.where(is_boarding, events.depart[event], events.arrive[event]))
    stop = events.stop[event] + np.where(is_boarding, 0, len(split.stops))
    columns = {
        "trip_id": column_of(timetable.trips, trip),
        "arrival_time": time,
        "departure_time": time,
        "stop_id": column_of([*split.stops, *split.alights], stop),
        "stop_sequence": numbered(sequence, str),
        "pickup_type": forbidden(~is_boarding | ~events.board[event]),
        "drop_off_type": forbidden(is_boarding | ~events.alight[event]),
    }
    return Table("stop_times.txt", columns, np.arange(len(event), dtype=np.int64))


def forbidden(not_allowed: Mask) -> Column:
    """A pickup_type or drop_off_type."""
    return column_of(["0", "1"], not_allowed.astype(np.int8))


def refuse_many(path: Path, walks: Sequence[Footpaths]) -> None:
    """Refuses more walks than `ttm` takes."""
    if sum(len(some.seconds) for some in walks) > MOST_FOOTPATHS:
        raise TooManyWalks(path, f"more than the {MOST_FOOTPATHS:,} walks that ttm takes", limit=MOST_FOOTPATHS)


def changes_at(changes: Whole) -> Footpaths:
    """The changes between vehicles as walks; where nobody changes there is none."""
    if ((changes > MOST_FOOT_SECONDS) & (changes < NO_CHANGE)).any():
        text = "too many walks, and a change that takes more than two hours"
        raise TooManyWalks("transfers.txt", text, limit=MOST_FOOTPATHS)
    stop = np.flatnonzero(changes <= MOST_FOOT_SECONDS)
    return Footpaths(stop, stop, changes[stop])
