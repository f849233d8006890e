"""Runs of `ttm` for a study: the program, reports, and runs of parts."""

import os
import re
import shutil
import time
from dataclasses import dataclass, replace
from pathlib import Path
from typing import Any

from ..core.files import aside_name, remove
from ..engine.arguments import EngineArguments, program_at
from ..engine.process import EngineProcess
from ..engine.refusals import error_line
from .stages import fsync

FACT = re.compile(r"ttm: (?P<name>[^:]+(?:: [^:]+)?): (?P<value>[0-9]+)")
OF_THE_MACHINE = ("bytes that the machine has free", "rows done", "time", "bytes taken at most")


def found_program() -> str:
    """The path of `ttm`, which holds from any folder."""
    found = program_at(None)
    return os.path.abspath(shutil.which(found) or found)


def with_origins(run: EngineArguments, origins: str, threads: int) -> EngineArguments:
    return replace(run, workers=threads, files={**run.files, "origins": origins})


def facts_of(run: EngineArguments) -> dict[str, Any]:
    """The arguments of a run as data, from which `Run(**facts)` makes it again; the program isn't one of them."""
    facts = {**vars(run), "files": {name: str(path) for name, path in run.files.items()}}
    facts.pop("program")
    return facts


@dataclass(frozen=True)
class Report:
    """What `ttm --report` prints."""

    lines: list[str]

    def number(self, name: str) -> int:
        """A fact of the report; 0 where it isn't reported."""
        found = [FACT.fullmatch(line) for line in self.lines]
        return next((int(match["value"]) for match in found if match and match["name"] == name), 0)

    @property
    def facts(self) -> list[str]:
        """The lines that are the same on each machine, without the program's name."""
        lines = [line.removeprefix("ttm: ") for line in self.lines]
        return [line for line in lines if not line.startswith(OF_THE_MACHINE)]


def report_of(run: EngineArguments, folder: Path) -> Report:
    """Run `ttm` in a folder, and return its report; the matrix is discarded."""
    with EngineProcess([*run.command(), "--report"], cwd=folder, dies_with_parent=True) as process:
        return Report(process.check().decode("utf-8", "replace").splitlines())


class Running:
    """A run in a folder. The matrix has a temporary name until `end` finds that the run succeeded."""

    def __init__(self, run: EngineArguments, out: Path, folder: Path) -> None:
        self.out, self.begin = out, time.monotonic()
        self.aside = aside_name(out)
        with open(self.aside, "wb") as matrix:
            self.process = EngineProcess(run.command(), matrix, folder, dies_with_parent=True, own_session=True)

    def is_over(self) -> bool:
        """Return whether the run has ended."""
        return self.process.is_over()

    def end(self) -> str | None:
        """Wait for the end of the run and give the matrix its name; returns the error line if there is none."""
        status = self.process.wait()
        message = error_line(self.process.report(), status) if status != 0 else None
        if message is None:
            fsync(self.aside)
            os.replace(self.aside, self.out)
            fsync(self.out.parent)
        self.stop()
        return message

    def stop(self) -> None:
        """End the run, and remove its temporary file."""
        self.process.stop()
        remove(self.aside)
