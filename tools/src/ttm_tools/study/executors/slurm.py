"""The parts of a study as an array under Slurm."""

import subprocess
from itertools import groupby
from pathlib import Path
from typing import Sequence

from ...core.console import one_line, say
from ...core.errors import InputError, needs_program
from ..parts import PARTS, Part
from ..stages import write_durably
from .task import SCRIPT

JOB = f"{PARTS}/job"


def ranges(numbers: Sequence[int]) -> str:
    """Numbers as an array of Slurm has them, such as 1-3,7."""
    ranges_found = []
    for _, group in groupby(enumerate(numbers), lambda pair: pair[1] - pair[0]):
        some = [number for _, number in group]
        ranges_found.append(str(some[0]) if len(some) == 1 else f"{some[0]}-{some[-1]}")
    return ",".join(ranges_found)


def job_that_goes_on(study: Path) -> str | None:
    """The array of this study that a command before submitted, and that still has tasks."""
    needs_program("squeue", "slurm-client")
    job = (study / JOB).read_text(encoding="utf-8").strip() if (study / JOB).is_file() else ""
    return job if job and not is_over(job) else None


def submit(missing: Sequence[Part], options: Sequence[str]) -> str:
    """Submits an array with a task for each part."""
    needs_program("sbatch", "slurm-client")
    array = f"--array={ranges([part.number for part in missing])}"
    own = ["--parsable", "--requeue", array, f"--output={PARTS}/slurm_%a.txt", "--open-mode=append"]
    study = missing[0].study
    ran = subprocess.run(["sbatch", *own, *options, SCRIPT], cwd=study, capture_output=True, text=True)
    if ran.returncode != 0:
        raise InputError("sbatch", one_line(ran.stderr) or f"ended with status {ran.returncode}")
    job = ran.stdout.strip().split(";")[0]
    write_durably(study / JOB, job + "\n")
    say(f"parts: {len(missing)} as job {job}; it continues if this command ends, and the same command waits for it")
    return job


def is_over(job: str) -> bool:
    """Whether a job has no tasks that wait or run; one that Slurm no longer knows has none."""
    ran = subprocess.run(["squeue", "--noheader", f"--jobs={job}"], capture_output=True, text=True)
    if ran.returncode != 0 and "Invalid job id" not in ran.stderr:
        return False  # the controller doesn't answer at the moment
    return not ran.stdout.strip()
