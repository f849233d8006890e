"""The matrices of a study, one for each of its windows and days: that of the first is the study's own; the others come
from a network that is kept for each day.
"""

import functools
import itertools
from dataclasses import dataclass, replace
from typing import Callable, Sequence

from ..engine.arguments import EngineArguments
from .executors.conversation import KeptNetwork
from .executors.local import Failed, refuse_failed, run_parts
from .executors.remote import ExecutorOptions, run_elsewhere
from .inputs import Inputs
from .joining import CSV, MATRIX, ShownMatrix, join_parts
from .parts import FIRST, PARTS, Part, PartLayout, choose_parts, parts_for, remove_others, remove_windows, study_key
from .settings import DayWindow, Study
from .sources import refuse_other_sums
from .stages import Folder, Record, Stage

WINDOWS = "windows"  # their folder
FORM = 1  # of how the parts are joined: the rows are ttm's, so other tools don't change them
SCALED_FORM = 2  # where sums are divided by a scale
Runner = Callable[[EngineArguments, Sequence[Part], PartLayout], list[Failed]]


def matrix_of(question: DayWindow) -> str:
    """Where the matrix of a window lies that isn't the first."""
    return f"{WINDOWS}/{question.name}.omx"


def inputs_of(inputs: Inputs, question: DayWindow) -> Inputs:
    """The same inputs for a window and its day."""
    window = (question.window.first, question.window.last)
    return replace(inputs, run=replace(inputs.run, date=question.date, window=window))


@dataclass(frozen=True)
class Machine:
    """What computes the matrices of a study: a version of `ttm`, by some means."""

    lines: list[str]  # what the program says of itself
    sum: str  # of its bytes
    options: ExecutorOptions


def make_windows(study: Study, inputs: Inputs, folder: Folder, machine: Machine) -> dict[str, Record]:
    """Does the matrices of all windows but the first, day by day."""
    records = dict[str, Record]()
    remove_windows(folder.path, {question.name for question in study.questions[1:]})
    for _, questions in itertools.groupby(study.questions[1:], lambda question: question.date):
        own = list(questions)
        with KeptNetwork(inputs_of(inputs, own[0]).run, folder.path) as network:
            for question in own:
                stage = matrix_stage(study, inputs, machine, network.run_parts, question)
                records[stage.name] = folder.do(stage)
                if not study.parts.keep:
                    remove_others(folder.path, question.name)
    return records


def run_here(run: EngineArguments, parts: Sequence[Part], layout: PartLayout) -> list[Failed]:
    return run_parts(run, parts, layout.at_once, layout.threads)


def matrix_stage(
    study: Study, inputs: Inputs, machine: Machine, runner: Runner = run_here, question: DayWindow | None = None
) -> Stage:
    """The matrix of a study, or that of another window, by as many parts of the origins."""
    options = machine.options
    task, path = (inputs_of(inputs, question), matrix_of(question)) if question else (inputs, MATRIX)
    with_csv = study.results.csv and question is None
    key = study_key(task, machine.lines)

    def make() -> list[str]:
        layout = choose_parts(study.parts, inputs, study_key(inputs, machine.lines), options.at_once)
        window = question.name if question else FIRST
        parts = parts_for(inputs.origins(), layout.parts, key, window, inputs.folder)
        (inputs.folder / PARTS).mkdir(exist_ok=True)
        remove_others(inputs.folder, FIRST, {part.folder.name for part in parts})
        if options.is_elsewhere:
            failed = run_elsewhere(task.run, parts, key, machine.lines, options)
        else:
            failed = runner(task.run, parts, layout)
        refuse_failed(failed, len(parts))
        shown = ShownMatrix(inputs.shown_as, inputs.destinations, inputs.scale)
        return join_parts(parts, with_csv, shown, options.threads, inputs.at(path))

    depends = {
        "study": key,
        "origins": inputs.outputs_of("origins"),
        "form": FORM if inputs.scale == 1 else SCALED_FORM,
    }
    depends |= {"shown": inputs.destinations, "shown_as": inputs.shown_as}
    depends |= {} if question else {"csv": with_csv}
    name, outputs = f"matrix_{question.name}" if question else "matrix", [path, *([CSV] if with_csv else [])]
    known = {**inputs.sums, str(inputs.run.program): machine.sum}
    same = functools.partial(refuse_other_sums, inputs.folder, known)
    return Stage(name, depends, outputs, make, of_tools=False, keeps_task=True, refuse_changed=same)
