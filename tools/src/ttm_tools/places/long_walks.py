"""Places among the stops of a feed with walks of hours: `ttm` gets those that journeys need, in a split feed.
Walks from origins to destinations are kept apart from it.
"""

from dataclasses import dataclass
from functools import cached_property
from pathlib import Path
from typing import Sequence

import numpy as np
import numpy.typing as npt

from ..core.stop_lists import write_stops
from ..core.tables import write_rows
from ..core.walking import Walking
from ..gtfs.footpath_file import write_footpaths
from ..gtfs.footpaths import Footpaths, direct_walks, joined
from ..gtfs.stops import Stops, read_stops
from ..gtfs.timetable import Timetable, read_timetable
from ..streets.needed import needed_walks
from ..streets.osm import Streets
from ..streets.router import Endpoints
from ..streets.street_walks import SnappedStops, snap_stops
from ..streets.table import NONE, WalkTable, street_table
from .folder import FEED, FOOTPATHS, PointStudy, prefixes_of, study_of
from .read import Points
from .split import Split, changes_at, refuse_many, split_of, write_feed

MANY = 1_000_000  # walks, with which a run takes twice as long as with those that journeys need
SAMPLE = 64  # stops and origins from which walks are counted
ALIGHTS, DIRECT = "alights.csv", "direct.npy"


@dataclass(frozen=True)
class LongWalks:
    """The walks between the stops of a feed, origins and destinations."""

    feed: str
    files: Sequence[Points]  # origins, and destinations unless these are the same
    streets: Streets
    walking: Walking
    near: float

    @cached_property
    def own(self) -> Stops:
        return read_stops(self.feed)

    @cached_property
    def study(self) -> PointStudy:
        return study_of(self.files, prefixes_of(self.files, self.own))

    @cached_property
    def stops(self) -> Stops:
        return self.own.append(self.study.points.as_stops())

    @cached_property
    def snapped(self) -> SnappedStops:
        return snap_stops(self.stops, self.streets, self.walking, self.near)

    @cached_property
    def endpoints(self) -> Endpoints:
        """Where walks may begin and end: no journey walks to an origin or from a destination."""
        begins, ends, own = self.stops.kinds == 0, self.stops.kinds == 0, len(self.own.identifiers)
        if len(self.files) > 1:
            begins[own:], ends[own:] = self.study.file == 0, self.study.file == 1
        return Endpoints(begins, ends)

    def are_many(self) -> bool:
        """Whether it pays to leave out walks, by the count of those from some stops and origins."""
        begins = np.flatnonzero(self.endpoints.origins)
        if len(begins) * self.endpoints.destinations.sum() <= MANY:
            return False
        some = np.zeros(len(self.endpoints.origins), np.bool_)
        some[np.random.default_rng(0).choice(begins, min(len(begins), SAMPLE), replace=False)] = True
        sample = Endpoints(some, self.endpoints.destinations)
        found = sum(len(a) for a, *_ in self.snapped.walks(sample))
        return found * len(begins) > MANY * int(some.sum())

    def write(self, folder: Path, merges: bool) -> None:
        """Writes a split feed with the places, and the walks that journeys need."""
        timetable = read_timetable(self.own)
        places = self.study.points.identifiers
        folder.mkdir()
        split = split_of(timetable, places, len(places) * (1 if len(self.files) > 1 else 2))
        direct, changes = direct_walks(timetable, None, int(self.walking.max_seconds))
        table = self.table(direct)
        walks = [changes_at(changes)]
        for begins, ends in needed_walks(table, timetable.events, changes, merges):
            walks.append(Footpaths(begins, ends, table.seconds[begins, ends].astype(np.int64)))
            refuse_many(folder, walks)
        self.write_folder(folder, timetable, split, joined(walks))
        seconds = table.seconds[len(split.stops) :, len(split.stops) :]
        if len(self.files) == 1:
            np.fill_diagonal(seconds, 0)
        np.save(folder / DIRECT, seconds)

    def table(self, stated: Footpaths) -> WalkTable:
        """The walks along streets and those that the feed states, and chains of both."""
        table = street_table(self.snapped, self.endpoints)
        stops = np.flatnonzero(self.own.kinds == 0)
        ends = stops[stated.begin].tolist(), stops[stated.end].tolist()
        put = table.put_direct(zip(*ends, stated.seconds.tolist()))
        inside = [station in self.snapped.entrances for station in self.snapped.stations]
        table.chain(put | set(self.snapped.indices[np.array(inside, np.bool_)].tolist()))
        return table

    def write_folder(self, folder: Path, timetable: Timetable, split: Split, walks: Footpaths) -> None:
        """Writes the feed, the footpaths, and the names of origins, destinations and split stops."""
        points, same = self.study.points, len(self.files) == 1
        origins = self.study.of_files([True, False][: len(self.files)])
        destinations = [split.twin(name) for name in origins] if same else self.study.of_files([False, True])
        added = points.only(np.tile(np.arange(len(points.identifiers)), 2)) if same else points
        write_feed(folder / FEED, timetable, split, added, [*origins, *destinations])
        with open(folder / FOOTPATHS, "wb") as out:
            names = [*split.alights, *origins], [*split.stops, *destinations]
            write_footpaths(out, (walks.begin, walks.end), walks.seconds, names)
        for name, stops in (("origins.csv", origins), ("destinations.csv", destinations)):
            with open(folder / name, "wb") as out:
                write_stops(out, stops)
        with open(folder / ALIGHTS, "wb") as out:
            write_rows(out, ["stop_id", "of"], zip(split.alights, split.stops))


def reached_directly(folder: Path) -> npt.NDArray[np.float64] | None:
    """The walks of a folder from its origins to its destinations, NaN where there is none; none if its feed
    isn't split, so that `ttm` has them.
    """
    if not (folder / DIRECT).exists():
        return None
    seconds = np.load(folder / DIRECT)
    return np.where(seconds < NONE, seconds.astype(np.float64), np.nan)
