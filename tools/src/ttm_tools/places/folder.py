"""A folder with what a run of `ttm` from point to point needs: the feed with the points as stops, and their walks.

A journey from point to point begins and ends with a walk, or is one. Points are stops without trips, and the walks
between points and stops are footpaths, so that `ttm` itself puts walks and rides together, minute by minute.
"""

import itertools
import shlex
from dataclasses import dataclass
from pathlib import Path
from typing import Callable, Iterable, Iterator, Sequence

import numpy as np
import numpy.typing as npt

from ..core.errors import InputError, LimitError
from ..core.filenames import file_names
from ..core.files import atomic_folder, copy_file, require_empty
from ..core.limits import MOST_FOOTPATHS, MOST_NUMBER, MOST_STOPS
from ..core.notices import Notice
from ..core.reading import inside
from ..core.stop_lists import write_stops
from ..core.tables import RoundingCounter, column_positions, records, write_rows
from ..core.text import counted, display_text, first_few, quantity, short_number
from ..gtfs.stops import Stops, read_stops
from ..streets.counting import TooManyWalks
from ..streets.walks import Walks, summary as walks_summary
from .areas import AREAS_FILE, write_areas
from .features import AREAS
from .read import Points

FEED, POINTS, WORDS, LABELS, FOOTPATHS = "feed", "points.csv", "words.txt", "labels.csv", "footpaths.csv"
SCENARIOS, NEW_STOPS = "scenarios", "new_stops.csv"  # of a plan, in its feed's folder
UNREACHED = "without a stop in reach"
HELPS, HELPS_AFTER = "use --leave-out for points without a stop in reach, or ", "take parts of the region"
PLACE = ("stop_name", "stop_lat", "stop_lon")
WalkFinder = Callable[[Stops, int | None], Walks]  # of the first stops with all alone, if their number is given
Flags = npt.NDArray[np.bool_]


class TooManyPlaces(LimitError):
    """More stops and points than `ttm` takes."""


@dataclass(frozen=True)
class PointsOptions:
    """What a folder is made of."""

    feed: str  # the folder of an unpacked feed
    out: str  # the folder that is written
    files: Sequence[Points]
    begins: Sequence[bool]  # of each file, whether journeys begin at its points
    ends: Sequence[bool]  # and whether they end there
    limit: int  # the longest walk, seconds
    leaves_out: bool  # points from which no stop is in reach
    near: float  # metres to a street, for what is reported
    called: str | None = None  # what the arguments of a run call the folder, where that isn't its path


@dataclass(frozen=True)
class PointStudy:
    """All points of a study, one file after the other, under identifiers that no stop has."""

    points: Points
    file: npt.NDArray[np.intp]  # of each point the place of its file

    def of_files(self, chosen: Sequence[bool]) -> list[str]:
        kept = np.array(chosen, dtype=np.bool_)[self.file]
        return [self.points.identifiers[place] for place in np.flatnonzero(kept).tolist()]


@dataclass(frozen=True)
class PointsFolder:
    """A folder that was written."""

    lines: list[str]  # what was done, a sentence a line
    study: PointStudy  # of the points in the folder
    walks: Walks
    unreached: dict[str, list[str]]  # points without a stop in reach: `origins`, `destinations`


def make(options: PointsOptions, walker: WalkFinder) -> list[str]:
    """Writes the folder, and says what was done, a sentence a line."""
    return folder_of(options, walker).lines


def folder_of(options: PointsOptions, walker: WalkFinder) -> PointsFolder:
    """Writes the folder, and gives what is in it."""
    require_empty(Path(options.out))
    refuse_large(options.files)
    stops = read_stops(options.feed)
    prefixes = prefixes_of(options.files, stops)
    study = study_of(options.files, prefixes)
    helps = HELPS_AFTER if options.leaves_out else HELPS + HELPS_AFTER
    if not options.leaves_out:
        refuse_places(len(stops.identifiers), study, helps)
    walks = walker(stops.append(study.points.as_stops()), len(stops.identifiers) if options.leaves_out else None)
    near = in_reach(stops, study, walks)
    sentences = list(sentences_on(options, prefixes, study, near))
    sentences += [walks_summary(walks, "stops", options.near)] if walks.lost or walks.far or walks.apart else []
    unreached = unreached_of(options, study, near)
    if options.leaves_out:
        places = np.flatnonzero(near)
        study = PointStudy(study.points.only(places), study.file[places])
        refuse_places(len(stops.identifiers), study, helps)
        walks = walker(stops.append(study.points.as_stops()), None)
    refuse_walks(walks, study, helps)
    rounded = RoundingCounter()
    with atomic_folder(options.out) as folder:
        write_feed(folder / FEED, options.feed, study.points)
        write_files(folder, options, study, walks, rounded)
    count = f"{quantity(len(study.points.identifiers), 'point')}, {quantity(len(walks.seconds), 'footpath')}"
    whole = f"{quantity(rounded.count, 'number')} with decimals rounded for ttm"
    sentences += [Notice(whole, "rounded", rounded.count)] if rounded.count else []
    sentences += sentences_on_rounded(study.points)
    last = f"{options.out}: {count}; the arguments of a run are in {Path(options.out) / WORDS}"
    return PointsFolder([*sentences, last], study, walks, unreached)


def unreached_of(options: PointsOptions, study: PointStudy, near: Flags) -> dict[str, list[str]]:
    """The points from which no stop is in reach, of those at which journeys begin and of those at which they end."""
    ends = {"origins": options.begins, "destinations": options.ends}
    lost = [(study.points.identifiers[place], int(study.file[place])) for place in np.flatnonzero(~near).tolist()]
    return {name: [own for own, file in lost if chosen[file]] for name, chosen in ends.items()}


def refuse_walks(walks: Walks, study: PointStudy, helps: str) -> None:
    if len(walks.seconds) > MOST_FOOTPATHS:
        what = f"{len(walks.seconds):,} walks are more than the {MOST_FOOTPATHS:,} that ttm takes"
        text = f"{what}: use a shorter --limit, or fewer points; {helps}"
        raise TooManyWalks(study.points.path, text, limit=MOST_FOOTPATHS)


def refuse_large(files: Sequence[Points]) -> None:
    """Refuses the first number that is more than `ttm` takes, by its file and record."""
    for points in files:
        for row, column in np.argwhere(points.numbers > MOST_NUMBER)[:1].tolist():
            header = Path(points.path).suffix.lower() not in AREAS
            name, value = points.columns[column], short_number(float(points.numbers[row, column]))
            allowed = f"a number from 0 to {MOST_NUMBER}"
            record = row + 1 + header
            raise InputError(points.path, "is invalid", record=record, column=name, value=value, allowed=allowed)


def prefixes_of(files: Sequence[Points], stops: Stops) -> list[str]:
    """What identifiers of each file begin with in the feed: its name where one is a stop's or earlier point's."""
    taken, prefixes = set(stops.identifiers), list[str]()
    for points in files:
        prefix = ""
        while not taken.isdisjoint(prefix + own for own in points.identifiers):
            prefix += f"{Path(points.path).stem}:"
        taken.update(prefix + own for own in points.identifiers)
        prefixes.append(prefix)
    return prefixes


def study_of(files: Sequence[Points], prefixes: Sequence[str]) -> PointStudy:
    """The points of all files; those of one have 0 in the columns of another."""
    columns = list(dict.fromkeys(name for points in files for name in points.columns))
    numbers = np.zeros((sum(len(points.identifiers) for points in files), len(columns)))
    begin = 0
    for points in files:
        end = begin + len(points.identifiers)
        numbers[begin:end, [columns.index(name) for name in points.columns]] = points.numbers
        begin = end
    identifiers = [prefix + own for points, prefix in zip(files, prefixes) for own in points.identifiers]
    names = [name for points in files for name in points.names]
    stated = ("latitudes", "longitudes", "widths")
    north, east, wide = (np.concatenate([getattr(points, name) for points in files]) for name in stated)
    high = np.concatenate([points.as_stops().sides()[:, 1] for points in files])
    path = ", ".join(points.path for points in files)
    labels = {name: list[str]() for points in files for name in points.labels}
    for points in files:
        for name, texts in labels.items():
            texts.extend(points.labels.get(name, [""] * len(points.identifiers)))
    areas = {prefix + own: area for points, prefix in zip(files, prefixes) for own, area in points.areas.items()}
    whole = Points(path, identifiers, names, north, east, wide, columns, numbers, labels, high, areas)
    return PointStudy(whole, np.repeat(np.arange(len(files)), [len(points.identifiers) for points in files]))


def in_reach(stops: Stops, study: PointStudy, walks: Walks) -> Flags:
    """From which points one walks to a stop."""
    count = len(stops.identifiers)
    near = np.zeros(count + len(study.file), dtype=np.bool_)
    near[walks.origins[walks.destinations < count]] = True
    return near[count:]


def refuse_places(stops: int, study: PointStudy, helps: str) -> None:
    count = len(study.file)
    if stops + count > MOST_STOPS:
        what = f"{stops:,} locations of the feed and {count:,} points are more than the {MOST_STOPS:,} that ttm takes"
        raise TooManyPlaces(study.points.path, f"{what}: {helps}", limit=MOST_STOPS)


def sentences_on(options: PointsOptions, prefixes: Sequence[str], study: PointStudy, near: Flags) -> Iterator[str]:
    """Columns of texts, the files whose identifiers have a prefix, and the points from which no stop is in reach."""
    for points in options.files:
        yield from points.notes
    for points, prefix in zip(options.files, prefixes):
        if prefix:
            prefixed = f"identifiers begin with {display_text(prefix)} in the feed"
            text = f"{points.path}: {prefixed}, since one of them already exists"
            yield Notice(text, "renamed", len(points.identifiers))
    lost = [display_text(study.points.identifiers[place]) for place in np.flatnonzero(~near).tolist()]
    if lost:
        left_out = ", left out" if options.leaves_out else ""
        text = f"{quantity(len(lost), 'point')} {UNREACHED}{left_out}: {first_few(lost)}"
        yield Notice(text, "unreachable", len(lost))
    sums = zip(study.points.columns, study.points.numbers[~near].sum(axis=0).tolist())
    numbers = [counted(round(number, 6), display_text(name)) for name, number in sums if round(number, 6) > 0]
    if numbers and options.leaves_out:
        text = f"points {UNREACHED}, which are left out, have {', '.join(numbers)}"
        yield Notice(text, "left out", len(lost))


def write_feed(folder: Path, feed: str, points: Points) -> None:
    """Writes the feed with the points, and what is reported of them; where it is that of a plan, with its scenarios."""
    (folder / SCENARIOS).mkdir(parents=True)
    of_plan = [NEW_STOPS, f"{SCENARIOS}/*.csv"]
    for file in sorted(path for form in ("*.txt", *of_plan) for path in Path(feed).glob(form) if path.is_file()):
        if file != Path(feed) / "stops.txt":
            copy_file(inside(Path(feed), file), folder / file.relative_to(feed))
    if not any((folder / SCENARIOS).iterdir()):
        (folder / SCENARIOS).rmdir()
    with open(folder / "stops.txt", "wb") as out:
        write_rows(out, *stops_with(Path(feed) / "stops.txt", points))
    with open(folder / POINTS, "wb") as out:
        sides = ["width", *(["height"] if has_heights(points) else [])]
        write_rows(out, ["id", "name", "lat", "lon", *sides, *points.columns], point_lines(points))
    if points.areas:
        with open(folder / AREAS_FILE, "wb") as out:
            write_areas(out, points.areas)


def stops_with(path: Path, points: Points) -> tuple[list[str], Iterator[list[str]]]:
    """The header and the records of stops.txt with the points behind the feed's own."""
    lines = records(path)
    _, header = next(lines, (1, list[str]()))
    there = column_positions(header, path, ["stop_id"])
    wide = header + [name for name in PLACE if name not in there]
    own = (spread(fields[: len(header)], range(len(header)), len(wide)) for _, fields in lines)
    places = column_positions(wide, path, [])
    chosen = [places[name] for name in ("stop_id", *PLACE)]
    return wide, itertools.chain(own, (spread(line, chosen, len(wide)) for line in lines_of(points)))


def spread(fields: Sequence[str], places: Iterable[int], width: int) -> list[str]:
    """A record with these fields at some places, and nothing elsewhere."""
    cells = [""] * width
    for place, text in zip(places, fields):
        cells[place] = text
    return cells


def lines_of(points: Points) -> Iterator[tuple[str, str, str, str]]:
    """Of each point its identifier, name, latitude and longitude."""
    places = zip(points.latitudes.tolist(), points.longitudes.tolist())
    for identifier, name, (latitude, longitude) in zip(points.identifiers, points.names, places):
        yield identifier, name, repr(latitude), repr(longitude)


def point_lines(points: Points) -> Iterator[list[str]]:
    sides = points.as_stops().sides()[:, : 2 if has_heights(points) else 1]
    for line, own, more in zip(lines_of(points), sides.tolist(), points.numbers.tolist()):
        yield [*line, *map(short_number, own), *map(short_number, more)]


def has_heights(points: Points) -> bool:
    """Whether a cell has another height than width."""
    sides = points.as_stops().sides()
    return bool((sides[:, 0] != sides[:, 1])[~np.isnan(sides[:, 1])].any())


def write_files(
    folder: Path, options: PointsOptions, study: PointStudy, walks: Walks, rounded: RoundingCounter
) -> None:
    labels, files = study.points.labels, list[tuple[str, list[str], Iterable[Sequence[object]]]]()
    for column, name in file_names(study.points.columns).items():
        lines = opportunities(options, study, column, rounded)
        files.append((f"opportunities_{name}.csv", ["stop_id", "opportunities"], lines))
    if labels:
        files.append((LABELS, ["id", *labels], zip(study.points.identifiers, *labels.values())))
    for name, header, rows in files:
        with open(folder / name, "wb") as out:
            write_rows(out, header, rows)
    with open(folder / FOOTPATHS, "wb") as out:
        walks.write(out)
    for name, chosen in (("origins.csv", options.begins), ("destinations.csv", options.ends)):
        with open(folder / name, "wb") as out:
            write_stops(out, study.of_files(chosen))
    with open(folder / WORDS, "wb") as out:
        out.write(arguments_of(options).encode("utf-8", "surrogateescape"))


def opportunities(
    options: PointsOptions, study: PointStudy, column: str, rounded: RoundingCounter
) -> Iterator[list[object]]:
    """The points of the files that have a column, each with its number made whole."""
    place, points = study.points.columns.index(column), study.points
    kept = np.flatnonzero(np.array([column in file.columns for file in options.files])[study.file])
    for point in kept.tolist():
        number = repr(float(points.numbers[point, place]))
        yield [points.identifiers[point], rounded.to_int(number, points.path, point + 2, column, up=False)]


def sentences_on_rounded(points: Points) -> Iterator[str]:
    """By how much the sums of columns change where each of their numbers is made whole for `ttm`."""
    for column, numbers in zip(points.columns, points.numbers.T):
        before, after = float(numbers.sum()), float(np.floor(numbers + 0.5).sum())
        if abs(after - before) > 1e-6:
            change = f"{short_number(after)} {display_text(column)} instead of {short_number(round(before, 6))}"
            text = f"rounded, ttm counts {change}: use ttm-tools access, which counts decimals"
            yield Notice(text, "rounded", int((numbers % 1 != 0).sum()))


def arguments_of(options: PointsOptions) -> str:
    """The arguments of a run, an option a line, as a shell reads them."""
    folder = Path(options.called or options.out)
    paths = {"feed": folder / FEED, "footpaths": folder / FOOTPATHS}
    named = {**paths, "walk": options.limit, "origins": folder / "origins.csv"}
    return "".join(f"--{name} {shlex.quote(str(value))}\n" for name, value in named.items())
