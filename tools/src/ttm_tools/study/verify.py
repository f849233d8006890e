"""Verifies a study: the checksums of all its files, and a random tenth of its rows, which are computed again."""

import itertools
import os
import random
from dataclasses import replace
from pathlib import Path
from typing import Any, Iterator, Sequence

import numpy as np

from ..core.console import say
from ..core.errors import InputError
from ..core.files import sha256_of_file
from ..core.limits import MOST_NUMBER
from ..core.reading import as_one_line
from ..core.scaling import unscaled
from ..core.stop_lists import origins_in, write_stops
from ..core.text import display_text, first_few, quantity
from ..engine.arguments import EngineArguments
from ..engine.process import EngineProcess
from ..engine.version import version_of
from ..matrices import Matrix, open_matrix
from ..matrices.csv_matrix import CsvMatrix
from ..matrices.parts import parts_of
from .counted import scale_in
from .joining import CSV, MATRIX
from .notes import NOTES, read_notes
from .parts import PARTS
from .stages import Folder, LOCK, RECORDS, locked_folder, room
from .ttm import found_program
from .work import sweep

OF_ALL = 10  # one in this many rows is computed again


def verify(folder: Path, seed: int | None, workers: int) -> None:
    """Refuses the first file that isn't as it was, or row that `ttm` computes in another way."""
    notes = read_notes(folder)
    program = found_program()
    with locked_folder(folder):
        study = Folder(folder.resolve())
        sweep(study.path, inside_parts=False)
        with as_one_line(folder / NOTES, "isn't as a study writes it"):
            files = {name: was for stage in notes["stages"].values() for name, was in stage["files"].items()}
            given_from = notes.get("sources_in", "..")
            sources = {os.path.join(given_from, name): was for name, was in notes["sources"].items()}
        with study.shown_in_faults():
            refuse_changed(study, files)
            say(f"checksums: {len(files)} files are as {NOTES} says", *unstated(study, files))
            refuse_changed_sources(study, sources)
            own = version_of(program)
            was = [text for text in (notes["versions"]["ttm"], notes["versions"]["toolchain"]) if text]
            if own != was:
                say(f"ttm here is {', '.join(own)}; that of the study was {', '.join(was)}")
            given = {MATRIX: notes["run"], **(notes.get("windows") or {})}
            how: dict[str, Any] = {"program": program, "workers": workers}
            runs = {name: run_of(study, EngineArguments(**{**facts, **how})) for name, facts in given.items()}
            verify_rows(study, notes, runs, seed)


def verify_rows(study: Folder, notes: dict[str, Any], runs: dict[str, EngineArguments], seed: int | None) -> None:
    """Computes a drawn tenth of the rows again, by the runs of their matrices, and refuses the first that differs."""
    origins = origins_in(str(runs[MATRIX].files["origins"]))
    seed = random.SystemRandom().randrange(MOST_NUMBER + 1) if seed is None else seed
    count = -(-len(origins) // OF_ALL)
    places = sorted(random.Random(seed).sample(range(len(origins)), count))
    drawn = [origins[place] for place in places]
    matrices = {name: [open_matrix(str(study.at(name)))] for name in runs}
    if any(CSV in stage["files"] for stage in notes["stages"].values()):
        matrices[MATRIX].append(CsvMatrix(str(study.at(CSV))))
    few_at_once = parts_of(drawn, -(-count * notes["parts"] // len(origins)))
    for (name, run), few in itertools.product(runs.items(), few_at_once):
        compare_again(study, run, few, matrices[name], notes.get("shown_as") or {})
    of = f"{count:,} of {quantity(len(origins), 'origin')}"
    say(f"rows: those of {of}, chosen with --seed {seed}, have the same bytes")


def run_of(study: Folder, run: EngineArguments) -> EngineArguments:
    """A run in a study's folder by paths that hold from anywhere."""
    files = {name: study.at(str(path)) for name, path in run.files.items()}
    scenarios = [study.at(str(path)) for path in run.scenarios]
    return replace(run, feed=study.at(str(run.feed)), files=files, scenarios=scenarios)


def unstated(study: Folder, files: dict[str, str]) -> Iterator[str]:
    """Reports the files that the study didn't write."""
    own = {NOTES, LOCK, *files}
    for path in sorted(path.relative_to(study.path) for path in study.path.rglob("*") if not path.is_dir()):
        if str(path) not in own and path.parts[0] not in (RECORDS, PARTS):
            yield f"{path}: exists, and {NOTES} doesn't list it"


def refuse_changed_sources(study: Folder, sources: dict[str, str]) -> None:
    """Refuses the first source that isn't as it was read; those that aren't there any more are reported as well."""
    lost = [path for path in sources if not study.at(path).is_file()]
    for path, was in sources.items():
        if path not in lost and sha256_of_file(study.at(path)) != was:
            raise InputError(path, f"has another checksum than {NOTES} says: it was changed since the study read it")
    if lost:
        say(f"sources: {len(lost)} of {quantity(len(sources), 'file')} no longer exist: {first_few(lost)}")


def refuse_changed(study: Folder, files: dict[str, str]) -> None:
    for name, was in files.items():
        if not study.at(name).is_file():
            raise InputError(name, f"no longer exists, and {NOTES} has its checksum")
        if sha256_of_file(study.at(name)) != was:
            raise InputError(name, f"has another checksum than {NOTES} says: it was changed")


def compare_again(
    study: Folder, run: EngineArguments, origins: Sequence[str], kept: Sequence[Matrix], shown_as: dict[str, str]
) -> None:
    """Computes the rows of some origins, and compares them with those that are kept, whatever these are called."""
    with room(study.path) as folder:
        path, out = folder / "origins.csv", folder / "matrix.csv"
        with open(path, "wb") as file:
            write_stops(file, origins)
        command = replace(run, files={**run.files, "origins": str(path)}).command()
        with open(out, "wb") as file, EngineProcess([*command, "--report"], file) as process:
            process.check()
        again = CsvMatrix(str(out))
        for matrix in kept:
            names = shown_as if not isinstance(matrix, CsvMatrix) else {}
            for name, share in itertools.product(matrix.scenarios, matrix.shares):
                scale = 1 if isinstance(matrix, CsvMatrix) else scale_of_run(run)
                refuse_other(matrix, again, ((name, share), (names.get(name, name), share)), origins, scale)


def scale_of_run(run: EngineArguments) -> int:
    """By what the counts of a run were multiplied."""
    return scale_in(str(run.files["opportunities"])) if "opportunities" in run.files else 1


def refuse_other(
    matrix: Matrix, again: CsvMatrix, keys: tuple[Any, Any], origins: Sequence[str], scale: int = 1
) -> None:
    """Refuses the first row whose bytes are others, of a scenario and a share by what they are called in both."""
    key, own = keys
    places = {name: place for place, name in enumerate(matrix.origins(*key))}
    if again.origins(*own) != list(origins):
        raise InputError(matrix.path, f"{display_text(key[0])} isn't what ttm computes now: it has other rows")
    chosen = np.array([places[name] for name in origins], dtype=np.intp)
    sums = matrix.access(*key)[chosen] == unscaled(again.access(*own), scale)
    for row, (origin, place) in enumerate(zip(origins, chosen.tolist())):
        if not sums[row].all() or bytes_of(matrix, key, place) != bytes_of(again, own, row, matrix):
            message = f"share {key[1]}, origin {display_text(origin)} isn't what ttm computes"
            raise InputError(matrix.path, f"the row of {display_text(key[0])}, {message}")


def bytes_of(matrix: Matrix, key: tuple[str, Any], place: int, like: Matrix | None = None) -> bytes:
    """The cells of a row as they lie on the disk: as text, or as numbers of the columns of another matrix."""
    if isinstance(matrix, CsvMatrix) and (like is None or isinstance(like, CsvMatrix)):
        line = matrix.of(*key).lines[place]
        with open(matrix.path, "rb") as file:
            return os.pread(file.fileno(), line.end - line.begin, line.begin)
    cells = matrix.rows(*key, place, place + 1)[0]
    if like is not None and like.stops != matrix.stops:
        cells = cells[[matrix.places[stop] for stop in like.stops]]
    return bytes(cells.astype("<f4").tobytes())
