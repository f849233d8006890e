"""Folders from which the engine answers from door to door: a feed whose stops include the places, and the walks."""

from collections.abc import Sequence
from dataclasses import dataclass, replace
from functools import cached_property, partial
from pathlib import Path
from typing import Protocol

import numpy as np
import numpy.typing as npt

from ..core.cache import cached_entry, key_of
from ..core.files import remove
from ..core.limits import MOST_FOOT_SECONDS
from ..core.stop_lists import write_stops
from ..core.tables import rows, write_rows
from ..core.walking import Walking
from ..gtfs.stops import Stops, read_stops
from ..streets.counting import TooManyWalks
from ..streets.osm import Streets
from ..streets.router import Endpoints
from ..streets.straight import straight_walks
from ..streets.street_walks import street_walks
from ..streets.walks import Walks
from .folder import FEED, FOOTPATHS, PointsOptions, make, refuse_places
from .long_walks import ALIGHTS, LongWalks, reached_directly
from .read import Points

Seconds = npt.NDArray[np.float64]  # NaN where a place isn't reached
BEGINS, ENDS, UNREACHED_FILE = "origins.csv", "destinations.csv", "unreached.csv"
NEAR = 1600.0  # metres to a street that are walked as they are: R5's radius of links


class GivenSide(Protocol):
    """Origins or destinations."""

    @property
    def stops(self) -> tuple[str, ...]:
        """Their identifiers in the feed, if they are stops of it."""

    @property
    def are_stops(self) -> bool:
        """Whether they are stops of the feed."""

    def points(self) -> Points:
        """The places as points of a folder."""

    def content(self) -> bytes:
        """What walks to these places depend on."""


@dataclass(frozen=True)
class PreparedFeed:
    """A feed that the engine reads, with the scenario files that go with it.

    Attributes
    ----------
    key
        The checksum of all that it depends on.
    folder
        The folder of the feed.
    scenarios
        The names of its scenario files, in order; without scenarios, none.
    name
        The names of the files or folders that it was prepared from.
    """

    key: str
    folder: Path
    scenarios: tuple[str, ...] = ()
    name: str = ""

    @property
    def scenario_files(self) -> list[Path]:
        return [self.folder / "scenarios" / name for name in self.scenarios]


@dataclass(frozen=True)
class WalkNetwork:
    """On what, how far and how fast travellers walk.

    Attributes
    ----------
    streets
        The streets; without them, walks are straight lines with a detour.
    key
        The checksum of the file of streets.
    walking
        The longest walk, speed and detour.
    merges
        Whether no journey takes longer than the longest walk, so that walks alone are found apart from the engine.
    """

    streets: Streets | None
    key: str
    walking: Walking
    merges: bool = False

    def walks(self, stops: Stops, first: int | None, only: Endpoints | None = None) -> Walks:
        """Return the walks between all stops, or between the `first` ones and all."""
        if self.streets is None:
            return straight_walks(stops, self.walking, first)
        return street_walks(stops, self.walking, self.streets, NEAR, first, only)


@dataclass(frozen=True)
class DoorToDoorFolder:
    """A folder of places that is complete.

    Attributes
    ----------
    key
        The checksum of all that it depends on.
    walk
        The longest walk in seconds.
    feed
        The feed that has the places as stops.
    """

    folder: Path
    key: str
    walk: int
    feed: PreparedFeed

    @cached_property
    def ends(self) -> tuple[Sequence[str], Sequence[str]]:
        """The stops that are origins, and those that are destinations."""
        return stops_in(self.folder / BEGINS), stops_in(self.folder / ENDS)

    def unreached(self, file: str) -> list[int]:
        """The positions of the origins, or of the destinations, that have no stop in reach."""
        noted = rows(self.folder / UNREACHED_FILE, ["file", "place"])
        return [int(place) for _, (own, place) in noted if own == file]

    @cached_property
    def direct(self) -> Seconds | None:
        """The walks from origins to destinations, where `ttm` doesn't have them."""
        return reached_directly(self.folder)

    @cached_property
    def alights(self) -> dict[str, str]:
        """Of each stop where you alight the one where you board, where these are two."""
        path = self.folder / ALIGHTS
        return {stop: other for _, (stop, other) in rows(path, ["stop_id", "of"])} if path.exists() else {}

    @property
    def footpaths(self) -> Path:
        return self.folder / FOOTPATHS

    @property
    def scenario_files(self) -> list[Path]:
        return self.feed.scenario_files


def folder_of(feed: PreparedFeed, network: WalkNetwork, sides: Sequence[GivenSide]) -> DoorToDoorFolder:
    """Return the folder for origins and destinations, from the cache if it was written before.

    Parameters
    ----------
    sides
        Origins and destinations; one element if they are the same places.

    Raises
    ------
    LimitError
        There are more walks or places than the engine takes.
    """
    content = [side.content() + str(side.stops).encode() for side in sides]
    key = key_of("places", feed.key, feed.scenarios, network.key, network.walking, network.merges, NEAR, *content)
    writer = partial(write_folder, feed=feed, network=network, sides=sides)
    folder = cached_entry("places", key, lambda entry: writer(entry / "places")) / "places"
    own = feed if all(side.are_stops for side in sides) else replace(feed, folder=folder / FEED)
    found = DoorToDoorFolder(folder, key, int(network.walking.max_seconds), own)
    return found if found.direct is None else replace(found, walk=MOST_FOOT_SECONDS)


def write_folder(folder: Path, feed: PreparedFeed, network: WalkNetwork, sides: Sequence[GivenSide]) -> None:
    """Write the folder of some places."""
    files = [side for side in sides if not side.are_stops]
    if not files:
        folder.mkdir()
        with open(folder / FOOTPATHS, "wb") as out:
            network.walks(read_stops(str(feed.folder)), None).write(out)
    elif network.streets is not None and len(files) == len(sides) and not feed.scenarios:
        points = [side.points() for side in files]
        walks = LongWalks(str(feed.folder), points, network.streets, network.walking, NEAR)
        write_doors(folder, walks, network.merges)
    else:
        begins, ends = [side is sides[0] for side in files], [side is sides[-1] for side in files]
        points, limit = [side.points() for side in files], int(network.walking.max_seconds)
        options = PointsOptions(str(feed.folder), str(folder), points, begins, ends, limit, False, NEAR)
        make(options, network.walks)
    for name, side in zip((BEGINS, ENDS), (sides[0], sides[-1])):
        if side.are_stops:
            with open(folder / name, "wb") as out:
                write_stops(out, side.stops)
    write_unreached(folder, (sides[0].are_stops, sides[-1].are_stops))


def write_doors(folder: Path, walks: LongWalks, merges: bool) -> None:
    """Writes the folder, where there are many walks with those alone that journeys need."""
    refuse_places(len(walks.own.identifiers), walks.study, "")
    whole, needed = partial(write_whole, folder, walks), partial(walks.write, folder, merges)
    first, second = (needed, whole) if walks.are_many() else (whole, needed)
    try:
        first()
    except TooManyWalks:
        remove(folder)
        second()


def write_whole(folder: Path, walks: LongWalks) -> None:
    count = len(walks.files)
    begins, ends = ([True], [True]) if count == 1 else ([True, False], [False, True])
    limit, only = int(walks.walking.max_seconds), None if count == 1 else walks.endpoints
    options = PointsOptions(walks.feed, str(folder), walks.files, begins, ends, limit, False, walks.near)
    make(options, lambda stops, first: street_walks(stops, walks.walking, walks.streets, walks.near, first, only))


def write_unreached(folder: Path, are_stops: tuple[bool, bool] = (False, False)) -> None:
    """Notes the origins from which no walk leads to a stop, and the destinations to which none leads from a stop.

    Parameters
    ----------
    are_stops
        Whether origins, and destinations, are stops of the feed itself, which are never noted.
    """
    import pandas

    ends = [stops_in(folder / name) for name in (BEGINS, ENDS)]
    places = {name for own, is_stop in zip(ends, are_stops) if not is_stop for name in own}
    columns = ["from_stop_id", "to_stop_id"]
    walks = pandas.read_csv(folder / FOOTPATHS, usecols=columns, dtype=str, keep_default_na=False)
    is_place = [walks[column].isin(places) for column in columns]
    noted = list[tuple[str, int]]()
    sides = zip((BEGINS, ENDS), ends, are_stops, columns, is_place[::-1])
    for file, own, is_stop, column, is_other_place in sides:
        reached = set(walks[column][~is_other_place])
        noted += [(file, place) for place, name in enumerate(own) if not is_stop and name not in reached]
    with open(folder / UNREACHED_FILE, "wb") as out:
        write_rows(out, ["file", "place"], noted)


def stops_in(path: Path) -> Sequence[str]:
    """The identifiers of a file of stops."""
    return [stop for _, (stop,) in rows(path, ["stop_id"])]
