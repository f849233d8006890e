"""The journeys behind cells of a matrix, compared with the travel times of `ttm`: an error says where they differ."""

import contextlib
import datetime
import functools
import math
import os
from collections.abc import Iterator, Sequence
from dataclasses import replace
from pathlib import Path

from ..core.arrays import Whole
from ..core.console import say
from ..core.errors import InputError
from ..core.folders import scratch
from ..core.progress import reported
from ..core.reading import regular
from ..core.scenarios import BASE, TODAY, scenario_name
from ..core.tables import RoundingCounter
from ..core.text import display_text
from ..core.times import minutes_of
from ..core.toml_values import nearest_name
from ..engine.arguments import EngineArguments, Pathlike, program_at
from ..engine.inputs import write_inputs
from ..engine.process import EngineProcess
from ..gtfs.footpaths import Footpaths, read_walks
from ..gtfs.stops import Stops, read_stops
from ..gtfs.timetable import DAY, Timetable, read_edits, read_timetable, runs_of
from ..journeys.found import ExplainOptions, Found, describe_question, found_by, refuse_difference
from ..journeys.network import Schedule
from ..matrices import Matrix, open_matrix
from ..plans.nearness import nearer_by_plan

TimesByScenario = dict[str, int | None]  # a travel time for each scenario, seconds; None where there is none
Pairs = Sequence[tuple[str, str]]  # origins and destinations


def all_found(
    task: EngineArguments,
    date: datetime.date,
    pairs: Sequence[tuple[str, str]],
    *,
    program: Pathlike | None,
    matrix: str | None,
    all_options: bool = False,
) -> Iterator[tuple[ExplainOptions, list[Found]]]:
    """What is found for the base and each scenario, of some pairs of an origin and a destination, one after the other.
    The travel times for comparison are those of a matrix, or of one run of the program.
    """
    stops = read_stops(str(task.feed))
    for name in dict.fromkeys(name for pair in pairs for name in pair):
        if name not in stops.places or stops.kinds[stops.places[name]] != 0:
            place = {"column": "stop_id", "value": name, "nearest": nearest_name(name, stops.places)}
            raise InputError(stops.path, f"no stop {display_text(name)} at which vehicles call").noting(**place)
    files = scenarios_of(task.scenarios)
    timetable, cells = read_both(task, stops, list(files), pairs, matrix, program)
    say(*nearer_by_plan(task.feed, task.files.get("footpaths"), task.walk))
    first, last = map(minutes_of, task.window)
    departures = [DAY * task.back + 60 * minute for minute in range(first, last + 1)]
    ends = [(timetable.stops.index(one), timetable.stops.index(other)) for one, other in pairs]
    footpaths = os.fspath(task.files["footpaths"]) if "footpaths" in task.files else None

    @functools.lru_cache(maxsize=1)
    def walks_of(begin: int) -> tuple[Footpaths, Whole]:
        return read_walks(timetable, footpaths, task.walk, begin)

    for pair, (begin, end) in reported(zip(pairs, ends), len(pairs), "pairs"):
        what = ExplainOptions(
            timetable, begin, end, departures, task.back, task.shares[0], describe_question(task, date)
        )
        found = []
        for name, seconds in cells[pair].items():
            walks, changes = walks_of(begin)
            runs = runs_of(timetable, date, (task.back, task.ahead), read_edits(files[name]))
            schedule = Schedule(timetable.events, runs, walks, changes, departures[0])
            found.append(found_by(what, name, task.trips, schedule, all_options))
            refuse_difference(name, found[-1].cell, seconds, *pair)
        yield what, found


def scenarios_of(files: Sequence[Pathlike]) -> dict[str, str | None]:
    """The file of each scenario, none for the base; which is left out where scenarios are those of a plan."""
    paths: dict[str, str | None] = {BASE: None}
    paths |= {scenario_name(path): str(path) for path in files}
    return {name: path for name, path in paths.items() if name != BASE or TODAY not in paths}


def read_both(
    task: EngineArguments,
    stops: Stops,
    names: Sequence[str],
    pairs: Pairs,
    matrix: str | None,
    program: Pathlike | None,
) -> tuple[Timetable, dict[tuple[str, str], TimesByScenario]]:
    """The timetable, and the cells of some pairs and scenarios: of a matrix, or as `ttm` computes them meanwhile."""
    if matrix is not None:
        cells = cells_of(open_matrix(matrix), names, task.shares[0], pairs)
        return read_timetable(stops), cells
    origins, destinations = (list(dict.fromkeys(pair[place] for pair in pairs)) for place in (0, 1))
    with scratch("explain") as folder:
        path = folder / "matrix.csv"
        own = write_inputs(folder, RoundingCounter(), origins=origins, destinations=destinations)
        with running(replace(task, files={**task.files, **own}), path, program):
            timetable = read_timetable(stops)
        return timetable, cells_of(open_matrix(str(path)), names, task.shares[0], pairs)


@contextlib.contextmanager
def running(task: EngineArguments, out: Pathlike, program: Pathlike | None = None) -> Iterator[None]:
    """Run `ttm` while the block does something else, and wait for it at the end of the block.

    If both fail, the error of `ttm` is raised.
    """
    refuse_pipes(task)
    command = [program_at(program), *task.arguments(), "--report"]
    with open(out, "wb") as file, EngineProcess(command, file) as process:
        try:
            yield
        except Exception:
            process.check()
            raise
        process.check()


def refuse_pipes(task: EngineArguments) -> None:
    """Refuses inputs that are no files: `ttm` and the search read each of them, and would wait for a pipe forever."""
    for path in (*sorted(Path(task.feed).glob("*.txt")), *task.scenarios, *task.files.values()):
        if os.path.exists(path):
            regular(str(path))


def cells_of(matrix: Matrix, names: Sequence[str], share: int, pairs: Pairs) -> dict[tuple[str, str], TimesByScenario]:
    """The cells of a matrix for some pairs and scenarios, which it has."""
    chosen = matrix.share(share if matrix.layout.names_share else None)
    cells: dict[tuple[str, str], TimesByScenario] = {}
    for origin, destination in pairs:
        if destination not in matrix.places:
            raise InputError(matrix.path, f"no stop {display_text(destination)}")
        place = matrix.places[destination]
        found = {name: float(matrix.seconds(matrix.scenario(name), chosen, origin)[place]) for name in names}
        cells[origin, destination] = {name: None if math.isnan(cell) else int(cell) for name, cell in found.items()}
    return cells
