"""Writes the inputs of `ttm` to the study's folder, one stage after the other: the feed, a plan's scenarios, points,
walks, origins, opportunities. All paths are relative to that folder, in which `ttm` runs.
"""

import shlex
from dataclasses import asdict, dataclass, replace
from pathlib import Path

from ..core.errors import InputError
from ..core.files import atomic_folder, copy_file
from ..core.reading import inside
from ..core.scenarios import BASE, TODAY, base_of, scenario_name
from ..core.stop_lists import origins_in, write_stops
from ..core.text import quantity
from ..engine.arguments import EngineArguments
from ..gtfs.feeds import refuse_planned
from ..gtfs.stops import origins_of_feed
from ..places import folder as points
from ..plans import make as plans
from ..prepare.clip import Clip
from .checks import HINTS, check_origins, check_points, check_runs, check_stops, feed_warnings
from .counted import (
    OPPORTUNITIES,
    ORIGINS,
    columns_or_none,
    counted_columns,
    counts_stage,
    opportunities_stage,
    own_columns,
    people_stage,
    scale_in,
)
from .run import dates_of, days_of, run_of, shown_names
from .settings import Study
from .sources import Sources
from .stages import Folder, Record, Stage, room
from .walking import FOOTPATHS, POINTS, grid_stage, points_stage, walks_stage, with_grid

FEED, PLANNED, SCENARIOS = "inputs/feed", "inputs/planned", "inputs/scenarios"
DESTINATIONS = f"{POINTS}/destinations.csv"


@dataclass(frozen=True)
class Inputs:
    """What a run reads, and the records of the stages that made it."""

    run: EngineArguments
    base: str  # the scenario that others are compared with
    scenarios: tuple[str, ...]  # all scenario files, also of one whose rows are those of the run's base
    shown_as: dict[str, str]  # the scenarios of the matrix, by what they are called in the run; empty for all alike
    destinations: list[str]  # points at which journeys end; none where all stops are shown
    records: dict[str, Record]
    sources: dict[str, str]  # sums of the files from outside, by the paths that the study's file gives
    folder: Path  # the study's

    def at(self, name: str) -> str:
        return str(self.folder / name)

    def origins(self) -> list[str]:
        """Where journeys begin."""
        return origins_in(self.at(str(self.run.files["origins"])))

    @property
    def feed(self) -> str:
        return str(self.run.feed)

    @property
    def edits(self) -> dict[str, str]:
        """The scenario files by the names of their scenarios."""
        return {scenario_name(path): path for path in self.scenarios}

    def outputs_of(self, stage: str) -> dict[str, str]:
        """The checksums of a stage's files; empty if the study has no such stage."""
        return self.records[stage].outputs if stage in self.records else {}

    @property
    def sums(self) -> dict[str, str]:
        """The sums of all files that the run reads, by their names in the folder."""
        named = {*self.scenarios, *map(str, self.run.files.values())}
        known = sums_of(self.records).items()
        return {name: was for name, was in known if name in named or name.startswith(f"{self.feed}/")}

    @property
    def scale(self) -> int:
        """By what the counts were multiplied that `ttm` adds up."""
        return scale_in(self.at(OPPORTUNITIES)) if "opportunities" in self.run.files else 1

    @property
    def stops_sum(self) -> str:
        return sums_of(self.records)[f"{self.feed}/stops.txt"]


def sums_of(records: dict[str, Record], folder: str = "") -> dict[str, str]:
    """The sums of all files that stages made in a folder."""
    known = [sums for record in records.values() for sums in record.outputs.items()]
    return {name: was for name, was in known if name.startswith(folder)}


class Maker:
    """Does the stages before the run, one after the other, and keeps what each has made."""

    def __init__(self, study: Study, folder: Folder) -> None:
        self.study, self.folder = study, folder
        self.feed = FEED
        self.records: dict[str, Record] = {}
        self.files: dict[str, str] = {}
        self.sources: dict[str, str] = {}

    def at(self, name: str) -> str:
        return str(self.folder.at(name))

    def do(self, stage: Stage) -> None:
        self.sources |= {name: was for name, was in stage.stated.items() if name not in self.study.generated}
        self.records[stage.name] = self.folder.do(stage)

    @property
    def feed_sums(self) -> dict[str, str]:
        """The sums of the feed's files as it is by now."""
        return sums_of(self.records, f"{self.feed}/")

    @property
    def stops_sum(self) -> str | None:
        return self.feed_sums.get(f"{self.feed}/stops.txt")

    def scenarios(self) -> list[str]:
        """The scenario files: those of a plan, whose feed has the trips of all, or those that are named."""
        if self.study.scenarios.plan:
            self.do(plan_stage(self))
            self.feed = PLANNED
            words = self.folder.at(f"{PLANNED}/{plans.WORDS}")
            return shlex.split(words.read_text(encoding="utf-8", errors="surrogateescape"))[2:]
        if self.study.scenarios.files:
            self.do(scenarios_stage(self))
        return [f"{SCENARIOS}/{Path(path).name}" for path in self.study.scenarios.files]

    def grid(self) -> None:
        """The cells of a grid, which are points from here on."""
        if self.study.points.grid is not None:
            self.do(grid_stage(self.study, self.at(self.feed), self.stops_sum))
            self.study = with_grid(self.study)
            check_points(self.study)

    def walks(self) -> None:
        """Walks between stops, or between points and stops."""
        if self.study.points.all:
            self.do(points_stage(self))
            self.feed = f"{POINTS}/{points.FEED}"
            self.files["footpaths"] = f"{POINTS}/footpaths.csv"
            self.files["destinations"] = DESTINATIONS
        elif not self.study.walks.none:
            self.do(walks_stage(self))
            self.files["footpaths"] = FOOTPATHS

    def destinations(self) -> list[str]:
        """The points at which journeys end, where there are points."""
        return origins_in(self.at(DESTINATIONS)) if self.study.points.all else []

    def counts(self) -> None:
        """What is counted, by the tools and by `ttm`, and for whom."""
        study, settings, known = self.study, self.study.opportunities, origins_of_feed(self.at(self.feed))
        ends = self.destinations() or known
        path = self.at(f"{self.feed}/{points.POINTS}") if study.points.all else None
        own = own_columns(path, known, ends) if path else []
        tables = [*([path] if path and columns_or_none(path) else []), *map(study.at, settings.files)]
        columns = counted_columns(study, tables, own)
        if columns:
            self.do(counts_stage(study, self.stops_sum, tables, columns, known, ends))
            column = settings.column or (columns[0] if len(columns) == 1 else None)
            if column is not None:
                self.do(opportunities_stage(study.folder, self.records["counted"], column))
                self.files["opportunities"] = OPPORTUNITIES
        if settings.people:
            self.do(people_stage(study, self.records["origins"], study.at(settings.people)))


def make_inputs(study: Study, folder: Folder, program: str) -> Inputs:
    """Does all stages that come before the run, which is by a program."""
    study = replace(study, folder=folder.path)
    maker = Maker(study, folder)
    if study.points.grid is None:
        check_points(study)
    maker.do(feed_stage(maker))
    scenarios = maker.scenarios()
    maker.grid()
    study = maker.study
    if not study.points.all:
        check_stops(study, maker.at(maker.feed))
    maker.walks()
    maker.do(origins_stage(maker))
    maker.files["origins"] = ORIGINS
    maker.counts()
    base = base_of(list(map(scenario_name, scenarios)))
    shown_as = shown_names([*map(maker.at, scenarios)], study.results.csv) if base == TODAY else {}
    own = [path for path in scenarios if shown_as.get(scenario_name(path)) != BASE]
    run = replace(run_of(study, maker.feed, maker.files, own), program=program)
    known = (maker.destinations(), maker.records, maker.sources, folder.path)
    return Inputs(run, base, tuple(scenarios), shown_as, *known)


def feed_stage(maker: Maker) -> Stage:
    """The feed, made ready or as it is."""
    study, settings = maker.study, maker.study.feed
    paths = [study.at(path) for path in settings.files]
    area = study.at(settings.area) if settings.area else None
    dates, days, out = dates_of(study), days_of(study), maker.at(FEED)
    clip = Clip(settings.box, area, settings.routes, settings.agencies, days)

    def make() -> list[str]:
        takes_planned = bool(study.scenarios.files)
        for path in () if takes_planned else paths:
            refuse_planned(path)
        if settings.ready:
            sentences = taken(paths[0], study.folder)
            check_runs(study, out, dates)
            return [*sentences, *feed_warnings(study, out)]
        from ..prepare.make import PrepareOptions, make as make_ready

        with room(study.folder) as folder:
            options = PrepareOptions(
                paths,
                out,
                settings.repair,
                clip,
                settings.allow_loss,
                dates[0],
                settings.same_clock,
                takes_planned,
                HINTS,
            )
            sentences = make_ready(options, folder)
        check_runs(study, out, dates[1:])
        return [*sentences, *feed_warnings(study, out)]

    wish = asdict(replace(settings, files=(), area=None))  # whatever its files are called
    depends = {"wish": wish, "days": [str(day) for day in [*dates, *days]]}
    return Sources(study.at, [*settings.files, settings.area]).stage("feed", depends, [FEED], make)


def taken(path: str, study: Path) -> list[str]:
    """Copies a feed that is ready into a study's folder."""
    if not Path(path).is_dir():
        raise InputError(path, "is not a folder: a feed with ready = true must be one")
    files = sorted(path for path in Path(path).iterdir() if path.suffix in (".txt", ".csv") and path.is_file())
    with atomic_folder(study / FEED) as folder:
        for file in files:
            copy_file(inside(Path(path), file), folder / file.name)
    return [f"{FEED}: {quantity(len(files), 'file')}, unchanged"]


def plan_stage(maker: Maker) -> Stage:
    """The feed that has the trips of all scenarios of a plan, and their files."""
    study, named, feed = maker.study, maker.study.scenarios.plan or "", maker.at(maker.feed)

    def make() -> list[str]:
        return plans.make(feed, study.at(named), maker.at(PLANNED), called=PLANNED)[0]

    return Sources(study.at, [named]).stage("plan", {"feed": maker.feed_sums}, [PLANNED], make)


def origins_stage(maker: Maker) -> Stage:
    """Where journeys begin."""
    study, feed = maker.study, maker.at(maker.feed)
    named = study.at(study.run.origins) if study.run.origins else None
    given = maker.at(f"{POINTS}/origins.csv") if study.points.all else named

    def make() -> list[str]:
        known = origins_of_feed(feed)
        origins = origins_in(given) if given else known
        if not origins:
            raise InputError(given or f"{feed}/stops.txt", "no origins")
        if given:
            check_origins(given, set(known))
        with open(maker.at(ORIGINS), "wb") as file:
            write_stops(file, origins)
        return [f"{ORIGINS}: {quantity(len(origins), 'origin')}"]

    own = maker.records["points"].outputs if study.points.all else {}
    depends = {"stops": maker.stops_sum, "points": own}
    return Sources(study.at, [study.run.origins]).stage("origins", depends, [ORIGINS], make)


def scenarios_stage(maker: Maker) -> Stage:
    """The scenario files, as they are."""
    study = maker.study
    paths = [Path(study.at(path)) for path in study.scenarios.files]
    names = [path.name for path in paths]
    twice = next((name for place, name in enumerate(names) if name in names[:place]), None)
    if twice is not None:
        raise InputError(study.path, f"two scenario files are called {twice}")

    def make() -> list[str]:
        with atomic_folder(maker.at(SCENARIOS)) as folder:
            for path in paths:
                copy_file(path, folder / path.name)
        return [f"{SCENARIOS}: {', '.join(names)}"]

    return Sources(study.at, study.scenarios.files).stage("scenarios", {"names": names}, [SCENARIOS], make)
