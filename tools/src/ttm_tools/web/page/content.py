"""The content of a page as numbers: places, travel times in minutes, access, and lines."""

import itertools
from dataclasses import dataclass
from typing import Any, Sequence

import numpy as np
import numpy.typing as npt

from ...api.count_files import read_counts
from ...core.arrays import Floats
from ...core.errors import InputError
from ...core.text import display_text
from ...gtfs.stops import Stops
from ...matrices import Matrix, Share, lacking
from ...measures.access import Decay, STEP, nearest
from ...measures.opportunities import Counts
from .parts import Bytes, minutes_of
from .places import in_order
from .settings import PageSettings

MOST_CELLS = 60_000_000  # that a page takes
PageTimes = tuple[Bytes, Floats]


@dataclass(frozen=True)
class PageOptions:
    """What of a matrix a page is to show."""

    settings: PageSettings
    what: str  # stops or points
    scenarios: list[str]  # the base first
    shares: list[Share]
    most_cells: int
    origins: list[str] | None = None  # whose travel times are taken; None for all that there is room for


@dataclass(frozen=True)
class PagePlaces:
    """The places of a page, and the rows and columns of the matrix that they have."""

    places: Stops
    columns: list[str]  # the stops to which travel times are shown, in the order of places
    origins: list[str]  # those from which access is shown
    rows: list[str]  # the origins whose travel times the page has

    def at(self, names: Sequence[str]) -> npt.NDArray[np.int32]:
        return np.array([self.places.places[name] for name in names], dtype=np.int32)


@dataclass(frozen=True)
class PageMeasure:
    """What access counts, and within how many seconds: None where the matrix doesn't say it, and for the nearest."""

    of: str
    short: str
    seconds: int | None
    nearest: float | None = None


@dataclass(frozen=True)
class Content:
    ground: PagePlaces
    counts: Counts  # by place
    people: int  # the number of last columns of counts that are people
    hidden: list[str]  # counts of which a part is at stops that aren't shown
    away: list[str]  # counts of which all is at places where no journeys end
    measures: list[PageMeasure]
    times: list[list[PageTimes]]  # by scenario and share: the cells, and access by origin and measure


def origins_of(matrix: Matrix, options: PageOptions) -> list[str]:
    """The origins, which each scenario and share has."""
    base = options.scenarios[0]
    first = matrix.origins(base, options.shares[0])
    for scenario, share in itertools.product(options.scenarios, options.shares):
        lost = lacking((base, first), (scenario, matrix.origins(scenario, share)))
        if lost is not None:
            raise InputError(matrix.path, lost)
    return first


def ground_of(matrix: Matrix, stops: Stops, options: PageOptions) -> PagePlaces:
    """The places in their order, and the rows that there is room for."""
    origins = origins_of(matrix, options)
    places, among = in_order(stops.of(list(dict.fromkeys([*matrix.stops, *origins])))), set(origins)
    columns = [name for name in places.identifiers if name in matrix.places]
    starts = [name for name in places.identifiers if name in among]
    if np.isnan(places.latitudes).all():
        raise InputError(stops.path, f"none of the {options.what} has coordinates, so there is nothing to show")
    wanted = set(starts if options.origins is None else options.origins)
    rows = [name for name in starts if name in wanted]
    room = options.most_cells // max(1, len(columns) * len(options.scenarios) * len(options.shares))
    if options.origins is None and len(rows) > room:
        drawn = np.random.default_rng(options.settings.seed).choice(len(rows), room, replace=False)
        rows = [rows[place] for place in np.sort(drawn).tolist()]
    return PagePlaces(places, columns, starts, rows)


def counts_of(known: Sequence[str], options: PageOptions) -> tuple[Counts, int]:
    """What is counted, by stop of the matrix, and how many of the columns are people."""
    settings = options.settings
    found = [read_counts(paths, known, "stop of the matrix") for paths in (settings.opportunities, settings.people)]
    both = [name for name in found[1].names if name in found[0].names]
    if both:
        raise InputError(", ".join(settings.people), f"a column {display_text(both[0])} is among the opportunities too")
    names = [display_text(name) for counts in found for name in counts.names]
    return Counts(names, np.concatenate([counts.numbers for counts in found], axis=1)), len(found[1].names)


def measures_of(matrix: Matrix, names: Sequence[str], sought: Sequence[str], options: PageOptions) -> list[PageMeasure]:
    """What access is shown: that of the matrix, of stops (or points) and what is counted; and times to the nearest."""
    settings, unit = options.settings, options.settings.unit
    own = [PageMeasure(f"{unit} (as ttm counted them)", unit, limit) for limit in matrix.layout.limits]
    names = [options.what, *names]
    times = [PageMeasure(f"nearest {name}", name, None, count) for name in sought for count in settings.nearest]
    return own + [PageMeasure(name, name, round(60 * cutoff)) for name in names for cutoff in settings.cutoffs] + times


def content_of(whole: Matrix, matrix: Matrix, stops: Stops, options: PageOptions) -> Content:
    """Reads the content of a page of a matrix, or of its points alone; access counts what is at any stop."""
    return content_with(
        whole, ground_of(matrix, stops, options), *counts_of(whole.stops_and_origins(), options), options
    )


def content_with(whole: Matrix, ground: PagePlaces, counts: Counts, people: int, options: PageOptions) -> Content:
    """Reads a page of what is already counted, by stop of the whole matrix; the people are the last columns."""
    known = whole.stops_and_origins()
    at = {name: number for number, name in enumerate(known)}
    there = counts.numbers[[at[name] for name in ground.places.identifiers]]
    whole_sums, sums = counts.numbers.sum(axis=0), counts.numbers[[at[name] for name in ground.columns]].sum(axis=0)
    ends = counts.numbers[: len(whole.stops)]
    shown_there = np.isin(whole.stops, ground.columns).astype(np.float64)[:, None]
    reached = ends.sum(axis=0) > 0
    sought = reached & (np.arange(len(reached)) < len(reached) - people)
    numbers = np.concatenate([shown_there, ends[:, reached]], axis=1)
    read = Reading(whole, ground, numbers, ends[:, sought], options)
    times = [[read.times(name, share) for share in options.shares] for name in options.scenarios]
    away = [name for name, is_there in zip(counts.names, reached.tolist()) if not is_there]
    hidden = [name for name, lost in zip(counts.names, (whole_sums > sums).tolist()) if lost and name not in away]
    names_sought = [name for name, is_sought in zip(counts.names, sought.tolist()) if is_sought]
    measures = measures_of(whole, [name for name in counts.names if name not in away], names_sought, options)
    return Content(ground, Counts(counts.names, there), people, hidden, away, measures, times)


@dataclass(frozen=True)
class Reading:
    """How a matrix is read for a page."""

    whole: Matrix
    ground: PagePlaces
    numbers: Floats  # a row for each column of the whole matrix, a column for each thing that is counted
    sought: Floats  # the same, a column for each thing of which the nearest are looked for
    options: PageOptions

    def times(self, scenario: str, share: Share) -> PageTimes:
        matrix, ground = self.whole, self.ground
        columns = np.array([matrix.places[name] for name in ground.columns], dtype=np.intp)
        rows = {name: row for row, name in enumerate(ground.rows)}
        cells = np.zeros((len(rows), len(columns)), np.uint8)
        sums = [self.sums(np.zeros((0, len(matrix.stops)), np.float32))]  # of all origins of the matrix
        origins = {name: number for number, name in enumerate(matrix.origins(scenario, share))}
        for block in matrix.tracked(scenario, share):
            sums.append(self.sums(block.seconds))
            taken = np.array([place for place, name in enumerate(block.origins) if name in rows], dtype=np.intp)
            cells[[rows[block.origins[place]] for place in taken]] = minutes_of(block.seconds[taken][:, columns])
        own = matrix.access(scenario, share).astype(np.float64)
        order = np.array([origins[name] for name in ground.origins], dtype=np.intp)
        return cells, np.concatenate([own, np.concatenate(sums)], axis=1)[order]

    def sums(self, seconds: npt.NDArray[np.float32]) -> Floats:
        """What is reached from some origins: of each thing within each cutoff; then the minutes to the nearest."""
        decay, settings = Decay(STEP), self.options.settings
        found = np.stack([decay.weights(seconds, cutoff) @ self.numbers for cutoff in settings.cutoffs], axis=2)
        sums: Floats = flat(found)
        if not settings.nearest or not self.sought.shape[1]:
            return sums
        times = nearest(seconds, self.sought, settings.nearest).astype(np.float32)
        return np.concatenate([sums, minutes_of(flat(times))], axis=1)


def flat(numbers: npt.NDArray[Any]) -> npt.NDArray[Any]:
    """The numbers of each row one after another."""
    return numbers.reshape(len(numbers), numbers.shape[1] * numbers.shape[2])
