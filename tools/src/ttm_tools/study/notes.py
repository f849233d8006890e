"""study.json: what was run, from what, by which versions, and when, for a reader who comes back after half a year."""

import importlib.metadata
import json
import os
import platform
from pathlib import Path
from typing import Any, Sequence

from .. import __version__
from ..core.errors import InputError
from ..core.reading import read_json, regular
from .results.tables import StudyMatrix
from .stages import Record, as_text, logged, sum_of_tools, write_durably
from .ttm import facts_of
from .windows import Machine, inputs_of, matrix_of

NOTES, FORM = "study.json", 1
PACKAGES = ("numpy", "pandas", "h5py", "matplotlib", "scipy", "osmium", "jinja2")


def versions(ttm: Sequence[str], program: str) -> dict[str, Any]:
    """What made the folder: with the sum of the program."""
    known: dict[str, Any] = {"ttm": ttm[0], "toolchain": ttm[1] if len(ttm) > 1 else "", "ttm_tools": __version__}
    known |= {"ttm_sha256": program, "ttm_tools_sha256": sum_of_tools()}
    known["python"] = platform.python_version()
    for name in PACKAGES:
        try:
            known[name] = importlib.metadata.version(name)
        except importlib.metadata.PackageNotFoundError:
            continue
    return known


def write_notes(results: StudyMatrix, records: dict[str, Record], machine: Machine, parts: int) -> None:
    """Writes what was done, unless the file already says so."""
    study, inputs = results.study, results.inputs
    all_records = {**inputs.records, **records}
    facts: dict[str, Any] = {
        "form": FORM,
        "title": study.title,
        "question": study.about.question,
        "study_file": study.text,
        "sources": inputs.sources,
        "sources_in": os.path.relpath(study.path.parent, study.folder),
        "words": inputs.run.arguments(),
        "run": facts_of(inputs.run),
        "shown_as": inputs.shown_as,
        "windows": {matrix_of(question): facts_of(inputs_of(inputs, question).run) for question in study.questions[1:]},
        "parts": parts,
        "stages": {
            name: {"key": record.key, "told": record.lines, "files": record.outputs}
            for name, record in all_records.items()
        },
        "versions": versions(machine.lines, machine.sum),
    }
    try:
        there = read_notes(study.folder)
        there.pop("times", None)
    except InputError:
        there = {}
    if there != json.loads(json.dumps(facts)):
        write_durably(study.folder / NOTES, as_text({**facts, "times": times(study.folder)}))


def times(study: Path) -> dict[str, Any]:
    """When the study's commands ran, and how long the stages and parts that ended took."""
    lines = logged(study)
    parts = [line["seconds"] for line in lines if line["kind"] == "part"]
    return {
        "began": lines[0]["at"] if lines else "",
        "ended": lines[-1]["at"] if lines else "",
        "commands": [line["at"] for line in lines if line["kind"] == "command"],
        "seconds": {line["name"]: line["seconds"] for line in lines if line["kind"] == "stage"},
        "seconds_of_parts": round(sum(parts), 3),
    }


def read_notes(folder: Path) -> dict[str, Any]:
    """What a study's folder says of itself."""
    path = folder / NOTES
    try:
        regular(path)
    except InputError as fault:
        raise InputError(path, f"{fault.what}: is it the folder of a finished study?") from None
    notes: dict[str, Any] = read_json(path, "the record of a study")
    if not isinstance(notes, dict) or notes.get("form") != FORM:
        raise InputError(path, f"has another format than {FORM}")
    return notes
