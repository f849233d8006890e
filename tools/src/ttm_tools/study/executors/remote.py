"""The parts of a study on other machines that share its folder: begun as an array under Slurm, or on hosts by GNU
parallel, and waited for.
"""

import functools
import signal
import time
from dataclasses import dataclass
from typing import Callable, Iterator, Sequence

from ...core.console import one_line, say
from ...core.files import remove
from ...core.signals import Interrupted
from ...core.threads import processors
from ...engine.arguments import EngineArguments
from ..parts import PARTS, Part
from .hosts import Hosts
from .local import Failed, ends_gently, shown
from .slurm import is_over, job_that_goes_on, submit
from .task import write_task

SECONDS_BETWEEN_LOOKS = 2.0
SECONDS_FOR_FILES = 30.0  # until files of another host are seen here
NO_LINE = "no matrix and no error line: the output of its machine is in "
Chosen = Callable[[Sequence[Part]], list[Part]]


@dataclass(frozen=True)
class ExecutorOptions:
    """How the parts are run: results are the same whichever way."""

    workers: int | None = None  # processes of this machine; None for one on each processor
    slurm: bool = False
    hosts: str | None = None  # as GNU parallel names them
    options: Sequence[str] = ()  # of sbatch, or of parallel

    @property
    def is_elsewhere(self) -> bool:
        return self.slurm or self.hosts is not None

    @property
    def at_once(self) -> int:
        """How many parts share this machine's memory."""
        return 1 if self.is_elsewhere else self.threads

    @property
    def threads(self) -> int:
        """How many threads of this machine put the parts together, wherever they were computed."""
        return self.workers or processors()

    @property
    def arguments(self) -> list[str]:
        """The options for sbatch or parallel, such as --partition=long."""
        return [f"--{option.lstrip('-')}" for option in self.options]


def run_elsewhere(
    run: EngineArguments, parts: Sequence[Part], key: str, version: Sequence[str], options: ExecutorOptions
) -> list[Failed]:
    """Computes the parts that aren't done, and waits until other machines have done so."""
    missing = still(parts)
    if missing:
        write_task(run, parts, key, version)
    job = job_that_goes_on(missing[0].study) if options.slurm and missing else None
    if job is not None:
        say(f"parts: job {job} of this study continues: waiting for it")
        wait(missing, functools.partial(is_over, job))
        missing = still(missing)
    for part in missing:
        remove(part.errors_file)
    if missing and options.slurm:
        wait(missing, functools.partial(is_over, submit(missing, options.arguments)))
    elif missing:
        with Hosts(missing, options.hosts or ":", options.arguments) as work, ends_gently(work.end):
            wait(missing, work.is_over, work.may_come)
        if work.is_ending:
            raise Interrupted(signal.SIGINT)
    failed = [Failed(part, message_of(part)) for part in still(missing)]
    for failure in failed:
        say(f"part {failure.part.number}: {failure.message}")
    return failed


def still(parts: Sequence[Part]) -> list[Part]:
    return [part for part in parts if not part.is_done()]


def wait(missing: Sequence[Part], is_over: Callable[[], bool], may_come: Chosen = list) -> None:
    """Waits for parts, and shows how many are done."""
    for _ in shown(ends_of(missing, is_over, may_come), len(missing)):
        pass


def ends_of(missing: Sequence[Part], is_over: Callable[[], bool], may_come: Chosen) -> Iterator[None]:
    """Something for each part that is done, until all are, or all work is over and no more files are seen here."""
    waiting, end = list(missing), None
    while waiting:
        over = is_over()
        left = still(waiting)
        yield from [None] * (len(waiting) - len(left))
        waiting = left
        if over:
            end, waiting = end or time.monotonic() + SECONDS_FOR_FILES, may_come(waiting)
            if time.monotonic() > end or all(part.errors_file.exists() for part in waiting):
                return
        if waiting:
            time.sleep(SECONDS_BETWEEN_LOOKS)


def message_of(part: Part) -> str:
    try:
        return one_line(part.errors_file.read_text(encoding="utf-8"))
    except OSError:
        return f"{NO_LINE}{PARTS}"
