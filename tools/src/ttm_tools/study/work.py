"""All of a study, from its file to its folder, in order: what is done isn't done again."""

import re
from dataclasses import replace
from pathlib import Path

from ..core.console import say
from ..core.errors import InputError, needs
from ..core.filenames import sentences_on_names
from ..core.files import remove, sha256_of_file
from ..core.locks import is_locked, lock_file
from ..core.shipped import LEAFLET
from ..engine.version import version_of
from ..gtfs.stops import read_stops
from ..matrices import BASE, TODAY, open_matrix
from ..web.page.document import leaflet_files
from ..web.page.ground import page_ground
from .checks import check_shown
from .executors.remote import ExecutorOptions
from .inputs import Inputs, make_inputs, sums_of
from .joining import MATRIX
from .notes import write_notes
from .parts import FIRST, PARTS, noted_layout, remove_others, remove_parts, study_key, trial
from .report import TOLD, day_shown
from .results.registry import make_results
from .results.tables import StudyMatrix, names_of_scenarios
from .settings import Study
from .stages import Folder, RECORDS, Record, Stage, locked_folder, log, refuse_folder, room
from .ttm import found_program
from .walking import with_grid
from .windows import Machine, make_windows, matrix_stage

OF_ONE_ORIGIN = ("origins: ", "rows: ", "cells: ", "bytes of ")  # what the report of a trial says of itself
RUNS_IN, NO_CHANGE = "runs in scenario ", "warning: this scenario changes nothing on the days of the study"
ASIDE = re.compile(r"\.part\.(?:lock|[0-9]+(?:-[0-9a-f]{8})?)\.(.*)", re.DOTALL)  # as `aside_name` and locks


def make_study(study: Study, out: Path, options: ExecutorOptions) -> None:
    """Makes all of a study's folder that isn't there yet."""
    refuse_folder(out)
    needs(*packages_of(study))
    program = found_program()
    with locked_folder(out):
        folder = Folder(out.resolve(), study.path.parent)
        with folder.shown_in_faults():
            make_in(folder, replace(study, folder=folder.path), program, options)


def make_in(folder: Folder, study: Study, program: str, options: ExecutorOptions) -> None:
    """Makes all of a study in its folder, which is held."""
    path = folder.path
    folder.at(RECORDS).mkdir(exist_ok=True)
    machine = Machine(version_of(program), sha256_of_file(program), options)
    log(path, "command", "began", 0.0)
    sweep(path, inside_parts=False)
    inputs = make_inputs(study, folder, program)
    study = with_grid(study)
    refuse_settings(study, inputs)
    say(*sentences_on_names(names_of_scenarios(list(inputs.edits), inputs.base)))
    records = days_listed(study, inputs, folder, machine.lines)
    records["matrix"] = folder.do(matrix_stage(study, inputs, machine))
    if not study.parts.keep:
        remove_others(path, FIRST)
    windows = make_windows(study, inputs, folder, machine)
    if not study.parts.keep:
        remove_parts(path)
    sum_of_matrix, scenarios = records["matrix"].outputs[MATRIX], open_matrix(inputs.at(MATRIX)).scenarios
    results = StudyMatrix(study, inputs, sum_of_matrix, scenarios, sums_of(windows), machine.lines)
    records = make_results(results, folder, {**records, **windows})
    layout = noted_layout(path)
    write_notes(results, records, machine, layout.parts if layout else 1)
    sweep(path, inside_parts=True)


def packages_of(study: Study) -> list[str]:
    """What the results need, so that a lack is reported before the run."""
    settings = study.results
    pictures = [*(["matplotlib"] if settings.maps else []), *(["jinja2"] if settings.page else [])]
    streets = ["osmium"] if study.walks.streets else []
    points = study.points
    shapes = ["shapely"] if study.feed.area or points.grid_area or settings.isochrones else []
    return ["h5py", "scipy", *pictures, *shapes, *(["geopandas"] if points.grid_area else []), *streets]


def refuse_settings(study: Study, inputs: Inputs) -> None:
    """Refuses before the run what maps and the page couldn't show after it."""
    if study.results.page:
        leaflet_files(LEAFLET)
    if study.results.ground:
        page_ground(study.at(study.results.ground), read_stops(inputs.at(inputs.feed)))
    if not (study.results.maps or study.results.page or study.results.isochrones):
        return
    check_shown(study, set(inputs.origins()), "map_origins", "isochrones")
    if not read_stops(inputs.at(inputs.feed)).placed.any():
        raise InputError(
            f"{inputs.feed}/stops.txt",
            "no stop has stop_lat and stop_lon: say maps = false and page = false in [results]",
        )


def days_listed(study: Study, inputs: Inputs, folder: Folder, version: list[str]) -> dict[str, Record]:
    """What `ttm` says of each day of the study: that of the first one first."""
    records = {"days": folder.do(days_stage(inputs, study_key(inputs, version), "days", TOLD))}
    for date in study.run.dates[1:]:
        own = replace(inputs, run=replace(inputs.run, date=date))
        stage = days_stage(own, study_key(own, version), f"days_{date}", day_shown(date))
        records[stage.name] = folder.do(stage)
    return records


def days_stage(inputs: Inputs, key: str, name: str, path: str) -> Stage:
    """What `ttm` says of the feed, a day and its scenarios: the report of a run of one origin."""

    def make() -> list[str]:
        with room(inputs.folder) as folder:
            _, report = trial(inputs, inputs.origins()[:1], folder)
        lines = beside_today(inputs, [line for line in report.facts if not line.startswith(OF_ONE_ORIGIN)])
        Path(inputs.at(path)).write_text("".join(line + "\n" for line in lines), encoding="utf-8")
        return [line for line in lines if line.startswith(("runs in scenario", "warning"))]

    return Stage(name, {"study": key}, [path], make)


def beside_today(inputs: Inputs, lines: list[str]) -> list[str]:
    """What `ttm` says of a plan's study: it compares scenarios with `base`, which has the trips of all; here they are
    compared with today.
    """
    if inputs.base != TODAY:
        return lines
    sentences, name = list[str](), ""
    whole = next((name_shown for name_shown, own in inputs.shown_as.items() if own == BASE), None)
    for line in lines:
        name = line.removeprefix(RUNS_IN).partition(":")[0] if line.startswith(RUNS_IN) else name
        if line != NO_CHANGE:
            sentences.append(line)
        elif name == TODAY and whole not in (None, TODAY):
            sentence = f"scenario {whole} changes nothing compared with {TODAY} on the days of the study"
            sentences.append(f"warning: {sentence}")
    if whole is not None:
        return [*sentences, f"the rows of {whole} are those of {BASE}, as its file removes nothing"]
    count = len(inputs.run.scenarios) + 1
    return [*sentences, f"{BASE} has the trips of all scenarios; its rows, one in {count} of the run, aren't shown"]


def sweep(folder: Path, inside_parts: bool) -> None:
    """Removes what killed commands of any machine left aside, unless another command has its output locked; what is in
    parts when all are done, since other hosts may be at work on some.
    """
    for path in sorted(folder.rglob(".part.*")):
        found, is_of_parts = ASIDE.fullmatch(path.name), PARTS in path.relative_to(folder).parts
        if found and (inside_parts if is_of_parts else not is_locked(lock_file(path, found[1]))):
            remove(path)
