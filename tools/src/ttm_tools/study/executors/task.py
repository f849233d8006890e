"""A part of a study as a task of another machine that shares its folder.

`parts/run.json` has what the task needs to know. `parts/one_part.sh NUMBER` runs `ttm-tools study --part NUMBER` in
that folder, so one place decides what a complete part is.
"""

import os
import shlex
import sys
from dataclasses import replace
from pathlib import Path
from typing import Any, Sequence

from ...core.errors import InputError
from ...core.files import remove
from ...core.stop_lists import origins_in
from ...engine.arguments import EngineArguments, program_at
from ...engine.version import version_of
from ..parts import FIRST, PARTS, Part, parts_for
from ..stages import Folder, PACKAGE, TASK, as_text, facts_in, write_durably
from ..ttm import Running, facts_of, found_program, with_origins

SCRIPT = f"{PARTS}/one_part.sh"


def write_task(run: EngineArguments, parts: Sequence[Part], key: str, version: Sequence[str]) -> None:
    """Writes what a part's machine has to know."""
    study = parts[0].study
    known = {"run": facts_of(run), "parts": len(parts), "window": parts[0].window, "key": key}
    known["version"] = list(version)
    write_durably(study / TASK, as_text(known))
    names = {"PYTHONPATH": str(PACKAGE.parent), "TTM_PROGRAM": os.path.abspath(program_at(run.program))}
    own = " ".join(f"{name}={shlex.quote(value)}" for name, value in names.items())
    command = f"{shlex.quote(sys.executable)} -P -m ttm_tools study --part"  # -P: import nothing from the folder
    text = "#!/bin/sh\n# Computes a part of the study: one_part.sh NUMBER\n"
    text += f"cd {shlex.quote(str(study.resolve()))} || exit 1\n"
    text += f'number=${{1:-$SLURM_ARRAY_TASK_ID}}\nexec env {own} {command} "$number" .\n'
    write_durably(study / SCRIPT, text)
    os.chmod(study / SCRIPT, 0o755)


def one_part(folder: Path, number: int) -> None:
    """Computes a part where a study's folder says so; what goes wrong is noted next to it."""
    if not folder.is_dir():
        raise InputError(folder, "is not the folder of a study")
    study = Folder(folder.resolve())
    with study.shown_in_faults():
        known = facts_in(study.at(TASK))
        if not known:
            raise InputError(folder, f"is not the folder of a study with parts to compute: no {TASK}")
        run = EngineArguments(**known["run"])
        origins, window = origins_in(str(study.at(str(run.files["origins"])))), known.get("window", FIRST)
        parts = parts_for(origins, known["parts"], known["key"], window, study.path)
        if not 1 <= number <= len(parts):
            raise InputError(folder, f"has no part {number}, but 1 to {len(parts)}")
        part = parts[number - 1]
        if part.is_done():
            return
        part.begin()
        threads = int(os.environ.get("SLURM_CPUS_PER_TASK", "1"))
        message = computed(with_origins(run, part.origins_name, threads), part, known)
        if message is not None:
            write_durably(part.errors_file, message + "\n")
            raise InputError(part.folder, message)


def computed(run: EngineArguments, part: Part, known: dict[str, Any]) -> str | None:
    """Runs a part with the version of `ttm` that the study has; gives the line that says why there is no matrix."""
    own = version_of(program := found_program())
    if own != known["version"]:
        return (
            f"{program_at(None)} is {own[0]}, and the study's ttm is another one, or was proved with another toolchain"
        )
    running = Running(replace(run, program=program), part.matrix, part.study)
    try:
        message = running.end()
    except BaseException:
        running.stop()
        raise
    if message is None and facts_in(part.study / TASK) != known:
        remove(part.matrix)
        return "the study's inputs were written again meanwhile"
    if message is None:
        part.finish()
    return message
