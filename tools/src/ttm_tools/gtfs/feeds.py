"""Reads a published feed from a zip file or folder, which may have the files in a folder inside, and writes it."""

import os
from dataclasses import dataclass, field
from pathlib import Path, PurePosixPath
from typing import Callable, Iterable, Iterator, Mapping, MutableMapping, Sequence

import numpy as np

from ..core.arrays import Mask, Whole
from ..core.errors import InputError
from ..core.files import copy_file
from ..core.reading import inside
from ..core.tables import names_of
from ..core.zips import Unread, members_of, refuse_size, unpack_member
from .call_numbers import CALLS
from .columns import Texts, distinct, empty, match_values, one_of, values_of
from .fields import EMPTY, FILES, number
from .reading import columns_of, is_long
from .stops import has_file, in_folder
from .tables import Table, no_table, read_table, write_table

Near = Callable[[Table], "set[str] | None"]  # the stops of stops.txt that matter; none where all do
ALONE = {"trips.txt", CALLS}  # files that make a folder a feed
SCENARIOS = "scenarios/today.csv"  # in the folder of a plan's feed
OPTIONAL = ("calendar.txt", "calendar_dates.txt", "frequencies.txt", "transfers.txt")


@dataclass
class Feed:
    """The files of a feed that `ttm` reads, and the paths of all others."""

    name: str  # for people, and for prefixes
    tables: dict[str, Table]
    others: MutableMapping[str, Path] = field(default_factory=dict)
    unread: dict[str, Path] = field(default_factory=dict)  # folders in the places of files

    def get(self, name: str) -> Table:
        """A table, without columns and records where the file isn't there."""
        return self.tables.get(name, no_table(name))

    def has_columns(self, name: str) -> bool:
        """Whether a file is there with the columns that it needs."""
        return name in self.tables and all(column in self.tables[name] for column in FILES[name].needed)


def refuse_planned(path: str | Path) -> None:
    """Refuse the folder of a plan's feed, which has the trips of all scenarios: they never run together."""
    if (Path(path) / SCENARIOS).is_file():
        what = "has the trips of all scenarios of a plan"
        raise InputError(
            path, f"{what}: take the plan's own feed, or that of one scenario, by ttm-tools scenarios --only"
        )


def calls_near(path: Path, stops: set[str]) -> Table:
    """The calls of trips with a call at some stops; a long file is read twice, a million records at a time."""
    known = stops | {stop.strip() for stop in stops}
    trips = set[str]()

    def note(piece: Mapping[str, Texts]) -> Mask:
        called = match_values(piece["stop_id"], lambda stop: stop in known or stop.strip() in known)
        trips.update(distinct(piece["trip_id"], called))
        return np.zeros(len(called), dtype=np.bool_)

    def keep(piece: Mapping[str, Texts]) -> Mask:
        return one_of(piece["trip_id"], trips)

    if not is_long(path):
        table = read_table(CALLS, path)
        piece = {name: table[name] for name in ("trip_id", "stop_id")}
        note(piece)
        table.keep(keep(piece))
        return table
    columns_of(path, ("trip_id", "stop_id"), note)
    return Table(CALLS, *columns_of(path, names_of(path), keep))


def read_feed(path: str | Path, room: Path, near: Near = lambda _: None) -> Feed:
    """A feed from a folder, or a zip file, unpacked in the room; with stops near, the calls alone of trips there."""
    given = Path(path)
    if given.is_dir():
        return read_folder(given, (), near)
    if not given.exists():
        raise InputError(given, "no such file or folder")
    sizes = members_of(given)
    chosen = files_of(given, list(sizes))
    refuse_size(given, [sizes[member] for member in chosen.values()], room)
    read = {name: unpack_member(given, chosen[name], room / name) for name in chosen if name in FILES}
    feed = feed_of(given, read, near)
    feed.others = Unread(given, {name: member for name, member in chosen.items() if name not in FILES}, room)
    return feed


def read_folder(folder: Path, apart: Sequence[str], near: Near = lambda _: None) -> Feed:
    """A feed from a folder; files apart aren't read."""
    files = {str(file.relative_to(folder)): file for file in files_in(folder)}
    held = {name: files[member] for name, member in files_of(folder, list(files)).items()}
    feed = feed_of(folder, {name: member for name, member in held.items() if name not in apart}, near)
    feed.others = {name: inside(folder, path) for name, path in held.items() if name not in FILES}
    within = next(iter(held.values())).parent
    feed.unread.update((name, within / name) for name in FILES if (within / name).is_dir())
    return feed


def files_in(folder: Path) -> Iterator[Path]:
    """The files of a folder and of those inside it, two deep."""
    for pattern in ("*", "*/*", "*/*/*"):
        yield from (path for path in sorted(folder.glob(pattern)) if not path.is_dir())


def files_of(path: Path, members: Sequence[str]) -> dict[str, str]:
    """The files of the feed among those of a zip file or folder, by name.

    They are in one folder: the only one with trips and their stop times or, if none has these, the one with the most
    files of a feed.
    """
    folders: dict[str, dict[str, str]] = {}
    for file in members:
        folder, name = os.path.split(file)
        if not any(part.startswith((".", "__MACOSX")) for part in PurePosixPath(file).parts):
            folders.setdefault(folder, {})[name] = file
    counts = {folder: len(FILES.keys() & names.keys()) for folder, names in folders.items()}
    best = [folder for folder, names in folders.items() if ALONE <= names.keys()]
    best = best or [folder for folder, count in counts.items() if count and count == max(counts.values())]
    if not best:
        zipped = [file for file in members if file.endswith(".zip")]
        hint = f", but {zipped[0]}: unzip it first" if zipped else ""
        raise InputError(path, f"no GTFS in it{hint}")
    if len(best) > 1:
        several = " and ".join(folder or "." for folder in best)
        raise InputError(
            path, f"several feeds in it, {several}: give them one by one, without the others in the folder"
        )
    found = folders[best[0]]
    return {name: file for name, file in found.items() if name in FILES or name.endswith((".txt", ".geojson"))}


def feed_of(path: Path, files: Mapping[str, Path], near: Near) -> Feed:
    tables = {name: read_table(name, files[name]) for name in FILES if name in files and name != CALLS}
    if CALLS in files:
        stops = near(tables["stops.txt"]) if "stops.txt" in tables else None
        is_cut = stops is not None and {"trip_id", "stop_id"}.issubset(names_of(files[CALLS]))
        tables[CALLS] = calls_near(files[CALLS], stops or set()) if is_cut else read_table(CALLS, files[CALLS])
    name = path.stem if path.suffix == ".zip" else path.resolve().name
    return Feed(name, {name: tables[name] for name in FILES if name in tables})


def read_files(folder: str, names: Iterable[str]) -> Feed:
    """Some files of an unpacked feed, with the columns alone that `ttm` reads. It is one that `ttm` takes."""
    there = [name for name in names if name not in OPTIONAL or has_file(folder, name)]
    tables = {name: read_table(name, Path(in_folder(folder, name)), FILES[name]) for name in there}
    return Feed(folder, tables)


def names_in(feed: Feed, file: str, column: str) -> list[str] | None:
    """The identifiers of a file in its order, each once; none where the file can't be read."""
    return distinct(feed.tables[file][column]) if feed.has_columns(file) else None


def stops_of(feed: Feed) -> list[str] | None:
    """The stops of a feed: records of type 0 or empty."""
    if not feed.has_columns("stops.txt"):
        return None
    table = feed.tables["stops.txt"]
    return distinct(table["stop_id"], is_stop(table))


def is_stop(stops: Table) -> Mask:
    """At which records of stops.txt vehicles call."""
    kinds = values_of(stops["location_type"], number)
    return np.asarray((kinds == 0) | (kinds == EMPTY), dtype=np.bool_)


def parents_of(stops: Table) -> Whole:
    """The place of the record of stops.txt that each names as its parent_station, -1 where it names none."""
    places = {name: place for place, name in enumerate(stops.texts("stop_id"))}
    return values_of(stops["parent_station"], lambda text: places.get(text.strip(" "), -1), -1)


def used_transfers(table: Table) -> Mask:
    """The rows of transfers.txt that `ttm` uses: of a type up to 2, two ends and a time, for every route and trip."""
    kinds = values_of(table["transfer_type"], number)
    used = (kinds == EMPTY) | ((kinds >= 0) & (kinds <= 2))
    for name in ("from_route_id", "to_route_id", "from_trip_id", "to_trip_id"):
        used &= empty(table[name])
    for name in ("from_stop_id", "to_stop_id"):
        used &= ~empty(table[name])
    return np.asarray(used & (values_of(table["min_transfer_time"], number) != EMPTY), dtype=np.bool_)


def write_feed(feed: Feed, folder: Path) -> None:
    """Writes the files of a feed: those without a change byte for byte."""
    for name, path in feed.others.items():
        copy_file(path, folder / name)
    for name, table in feed.tables.items():
        if table.source is not None:
            copy_file(table.source, folder / name)
            continue
        with open(folder / name, "wb") as file:
            write_table(table, file)
