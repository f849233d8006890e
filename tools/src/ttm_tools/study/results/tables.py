"""Tables of a study: access, its spread over people, winners and losers. `registry` has all results."""

import functools
from dataclasses import dataclass, field
from typing import Any, Callable, Sequence

import numpy as np

from ...api.access_files import read_access
from ...api.count_files import columns_of, read_counts
from ...core.arrays import Floats
from ...core.filenames import file_names
from ...core.files import atomic_folder, output
from ...core.text import decimal, display_text
from ...gtfs.stops import Stops
from ...matrices import Matrix, capped, open_matrix, pair_of
from ...measures.access import Decay, access
from ...measures.access_table import AccessKind, AccessTable
from ...measures.comparison import compare
from ...measures.opportunities import Counts
from ...places.selection import select_points
from ...views import bands, equity, tables
from ...views.access import ACCESS, Form, Measured, NEAREST, measured, measured_nearest, write_access
from ...views.differences import summary, write_origins, write_pairs
from ...views.nearest_ends import destination_names, nearest_with_ends
from ...views.picture_files import write_picture
from ..counted import COUNTED, PEOPLE
from ..inputs import Inputs
from ..joining import MATRIX
from ..outside import with_outside
from ..settings import Study
from ..stages import Record, Stage

ACCESS_TABLE = "access.csv"
Records = dict[str, Record]
PAIRS = "_pairs"  # behind a scenario's name, the file of its pairs
STOPS, POINTS = "stops", "points"  # what is counted by default
LOSE = 10.0  # percent of the base's access; people who lose this much count as losers


@dataclass(frozen=True)
class StudyMatrix:
    """The matrix of a study, on the disk, and what made it."""

    study: Study
    inputs: Inputs
    sum: str  # of the matrix' file
    scenarios: list[str]
    windows: dict[str, str] = field(default_factory=dict)  # the matrices of the other windows, with their sums
    version: Sequence[str] = ()  # lines of the program's

    def at(self, name: str) -> str:
        return self.inputs.at(name)

    @property
    def others(self) -> dict[str, str]:
        """The scenarios other than the base, and the names of their files."""
        return names_of_scenarios(self.scenarios, self.inputs.base)

    @property
    def unit(self) -> str:
        """What `ttm` counts as access: as the study calls it, or its column."""
        if "opportunities" not in self.inputs.records:
            return self.study.results.unit or (POINTS if self.study.points.all else STOPS)
        return self.study.results.unit or display_text(
            self.study.opportunities.column or columns_of(self.at(COUNTED))[0]
        )

    @property
    def depends(self) -> dict[str, Any]:
        """What every result depends on."""
        known = {"matrix": self.sum, "base": self.inputs.base, "stops": self.inputs.stops_sum}
        return {**known, "share": self.study.share, "within": self.study.within, "most": self.study.results.max_minutes}

    def matrix(self, name: str = MATRIX) -> Matrix:
        """The matrix, or that of another window, up to the greatest travel time that the study names."""
        return capped(open_matrix(self.at(name)), self.study.results.max_minutes)

    def counts(self, matrix: Matrix) -> Counts:
        """What is counted at its stops: each as one where nothing is named."""
        if "counted" in self.inputs.records:
            return read_counts([self.at(COUNTED)], matrix.stops, "stop of the matrix")
        return Counts([STOPS], np.ones((len(matrix.stops), 1)))

    def kind_drawn(self, kinds: Sequence[AccessKind], opportunity: str, of_times: bool = False) -> AccessKind:
        """What is drawn of an opportunity, at the percentile of maps: access within their limit, or the last one where
        there isn't any; of times to the nearest the first.
        """
        own = [
            kind for kind in kinds if kind.opportunity == opportunity and kind.percentile in ("", str(self.study.share))
        ]
        within = None if of_times else decimal(self.study.within / 60)
        return next((kind for kind in own if kind.cutoff == within), own[0 if of_times else -1])

    def open(self, name: str = MATRIX) -> tuple[Matrix, Stops]:
        """The matrix, or that of another window, with names and places of what it shows."""
        matrix, stops = select_points(self.matrix(name), self.at(self.inputs.feed), None)
        assert stops is not None  # a feed was named
        return matrix, stops


def names_of_scenarios(scenarios: Sequence[str], base: str) -> dict[str, str]:
    """The names of the files of the scenarios other than the base."""
    return file_names([name for name in scenarios if name != base], ("", PAIRS))


@dataclass(frozen=True)
class Measurement:
    """What is measured of each matrix of a study: access, or the time to the nearest."""

    kind: str  # access or nearest
    heads: tuple[str, ...]
    limits: Sequence[float]
    options: list[Any]  # of the study's file, on which the numbers depend
    measure: Callable[..., Floats]

    def of(self, matrix: Matrix, counts: Counts, stops: Stops) -> list[Measured]:
        """The numbers of all scenarios; of the nearest with their destinations."""
        measure = functools.partial(matrix.measure, function=functools.partial(self.measure, numbers=counts.numbers))
        if self.heads != NEAREST:
            return [measured(matrix, scenario, matrix.shares, measure) for scenario in matrix.scenarios]
        names = destination_names(matrix.stops, {}, stops)
        return [measured_nearest(matrix, scenario, matrix.shares, measure, names) for scenario in matrix.scenarios]


def measurements_of(study: Study) -> list[Measurement]:
    settings, cutoffs, limits = study.results, study.cutoffs, study.results.nearest
    decay = Decay(settings.decay, settings.decay_value)
    of_access = functools.partial(access, weighting=decay, cutoffs=cutoffs)
    of_nearest = functools.partial(nearest_with_ends, counts=limits)
    options = [decay.kind, decay.value, list(cutoffs)]
    kinds = [Measurement("access", ACCESS, cutoffs, options, of_access)] if settings.access else []
    return kinds + ([Measurement("nearest", NEAREST, limits, [list(limits)], of_nearest)] if limits else [])


def access_stages(results: StudyMatrix, records: Records) -> list[Stage]:
    return [table_stage(results, of) for of in measurements_of(results.study) if of.heads == ACCESS]


def nearest_stages(results: StudyMatrix, records: Records) -> list[Stage]:
    return [table_stage(results, of) for of in measurements_of(results.study) if of.heads == NEAREST]


def table_stage(results: StudyMatrix, of: Measurement) -> Stage:
    """The table of what is measured: all scenarios, shares, opportunities and limits."""
    path = f"{of.kind}.csv"

    def make() -> list[str]:
        matrix, stops = results.open()
        counts = results.counts(matrix)
        found = of.of(matrix, counts, stops)
        with output(results.at(path)) as file:
            write_access(file, found, counts.names, of.limits, Form(of.heads))
        return [f"{path}: {', '.join(map(display_text, counts.names))}"]

    options = [*of.options, results.study.results.max_minutes]
    facts: dict[str, Any] = {"matrix": results.sum, "words": options, "counted": results.inputs.outputs_of("counted")}
    if of.heads == NEAREST:
        facts["stops"] = results.inputs.stops_sum  # their names
    return Stage(of.kind, facts, [path], make)


def people_stages(results: StudyMatrix, records: Records) -> list[Stage]:
    """How access is spread over people, and how many are within bands."""
    return stages_of_people(results, records.get("access"), "", results.study.results.bands)


def nearest_people_stages(results: StudyMatrix, records: Records) -> list[Stage]:
    """How the time to the nearest is spread over people, and how many are within bands."""
    return stages_of_people(results, records.get("nearest"), "_nearest", results.study.results.nearest_bands)


def compare_stages(results: StudyMatrix, records: Records) -> list[Stage]:
    others = results.others.items() if results.study.results.compare else ()
    return [compare_stage(results, scenario, name) for scenario, name in others]


def stages_of_people(results: StudyMatrix, table: Record | None, end: str, limits: Sequence[float]) -> list[Stage]:
    """The stages that count people by a table of access, or of the nearest; what they are called ends alike."""
    if table is None or "people" not in results.inputs.records:
        return []
    (path,) = table.outputs
    own, grid = (results.inputs.outputs_of(stage) for stage in ("people", "grid"))
    depends = {"access": table.outputs, "people": own, "grid": grid}
    stages = [equity_stage(results, path, end, depends)]
    return [*stages, bands_stage(results, path, f"bands{end}", limits, depends)] if limits else stages


def read_people(results: StudyMatrix, path: str) -> tuple[AccessTable, Counts]:
    """A table by origin, and who lives there; also those who live outside all cells, if the study counts them."""
    table = read_access(results.at(path))
    people = read_counts([results.at(PEOPLE)], table.origins, f"origin of {path}")
    return with_outside(results.study, table, people)


def equity_stage(results: StudyMatrix, path: str, end: str, depends: dict[str, Any]) -> Stage:
    """How access, or the time to the nearest, is spread over people."""
    csv, page = f"equity{end}.csv", f"equity{end}.md"

    def make() -> list[str]:
        table, people = read_people(results, path)
        options = equity.EquityOptions(results.inputs.base, LOSE, table.kinds)
        for name, form in ((csv, tables.CSV), (page, tables.MARKDOWN)):
            with output(results.at(name)) as file:
                equity.write_equity(file, equity.measured(table, people, options), form)
        return [f"{csv}: {', '.join(map(display_text, people.names))}"]

    return Stage(f"equity{end}", {**depends, "base": results.inputs.base}, [csv, page], make)


def bands_stage(results: StudyMatrix, path: str, name: str, limits: Sequence[float], depends: dict[str, Any]) -> Stage:
    """How many people are within bands of access, or of the time to the nearest; of each thing a picture, too."""
    csv, pictures = f"{name}.csv", [name] if results.study.results.maps else []

    def make() -> list[str]:
        table, people = read_people(results, path)
        with output(results.at(csv)) as file:
            bands.write_bands(file, table, bands.bands_of(table, table.kinds, people, limits), tables.CSV)
        for folder in pictures:
            draw_bands(results, folder, table, people, limits)
        return [f"{csv}: {', '.join(map(display_text, people.names))}"]

    facts = {**depends, "bands": list(limits), "words": [results.study.share, results.study.within]}
    return Stage(name, facts, [csv, *pictures], make)


def draw_bands(results: StudyMatrix, folder: str, table: AccessTable, people: Counts, limits: Sequence[float]) -> None:
    """Draws the bars of each thing that is counted."""
    names = list(dict.fromkeys(kind.opportunity for kind in table.kinds))
    with atomic_folder(results.at(folder)) as aside:
        for name, file in file_names(names).items():
            figure = bands.figure_of(table, [results.kind_drawn(table.kinds, name, table.of_times)], people, limits)
            write_picture(str(aside / f"{file}.png"), figure)


def compare_stage(results: StudyMatrix, scenario: str, name: str) -> Stage:
    """Winners and losers of a scenario, compared with the base."""
    study, settings = results.study, results.study.results
    by_origin, by_pair = f"compare_{name}.csv", f"compare_{name}{PAIRS}.csv"

    def make() -> list[str]:
        matrix, stops = results.open()
        pair = pair_of(matrix, results.inputs.base, scenario, study.share)
        place = matrix.limit(study.within)[0]
        comparison = compare(pair.blocks(), settings.differs, with_pairs=settings.pairs)
        with output(results.at(by_origin)) as file:
            write_origins(file, pair, place, comparison, stops)
        if settings.pairs:
            with output(results.at(by_pair)) as file:
                write_pairs(file, pair, comparison.changes, stops)
        return summary(pair, comparison, settings.differs, place)

    depends = {**results.depends, "scenario": scenario, "words": [settings.differs, settings.pairs]}
    return Stage(f"compare_{name}", depends, [by_origin, *([by_pair] if settings.pairs else [])], make)
