"""Whole jobs, from the start of the program to the end of its matrix: time and memory."""

import csv
from collections.abc import Iterator
from dataclasses import dataclass
from pathlib import Path

from parts.search import RANGE
from setting import Setting, figures_in, stop
from shared import Study, run_into

PERCENTILE = 50
MOST_COMPARED = 500  # origins of a job whose matrix is summed up


@dataclass(frozen=True)
class Job:
    """A run of `ttm`: median travel times to all stops, and access within an hour."""

    feed: str
    origins: int
    minutes: int
    scenarios: int = 1
    threads: int = 1

    @property
    def name(self) -> str:
        return f"{self.origins:,} origins, {self.minutes} minutes, {self.scenarios} scenarios, {self.threads} threads"


QUICK = [Job("city", 1, 1), Job("city", 10, 120), Job("region", 100, 120, threads=4)]
WHOLE = [
    Job("region", 300, 120, threads=4),
    Job("city", 1, 1),
    Job("city", 10, 120, scenarios=2),
    Job("city", 4936, 120, threads=4),
    Job("metropolis", 1, 1),
    Job("metropolis", 12, 120, threads=4),
    Job("metropolis", 1000, 120, threads=4),
]


def total(matrix: Path) -> tuple[int, int]:
    """The number of cells of a matrix with one limit of access, and the sum of their seconds."""
    with open(matrix, newline="", encoding="utf-8") as file:
        rows = csv.reader(file)
        next(rows)
        cells = [int(cell) for row in rows for cell in row[4:] if cell]
    return len(cells), sum(cells)


def by_range_raptor(setting: Setting, job: Job, origins: str, matrix: Path, turn: int) -> None:
    """Does the same job by range RAPTOR, and compares the sums of all cells."""
    command = [setting.raptor, "range", *setting.words(job.feed, origins, job.minutes), str(PERCENTILE)]
    path = setting.room / "raptor.txt"
    setting.record_run("jobs", job.feed, RANGE, job.name, run_into(command, str(path)), turn)
    figures = figures_in(path.read_text())
    theirs = figures[f"percentile {PERCENTILE}, cells"], figures[f"percentile {PERCENTILE}, seconds"]
    if total(matrix) != theirs:
        stop(f"{job.feed}, {job.name}: the cells differ: {total(matrix)}, by range RAPTOR {theirs}")


def scenario_files(setting: Setting, job: Job) -> Iterator[str]:
    """The files of the scenarios besides today's timetable."""
    for name in ("cut.csv", "late.csv")[: job.scenarios - 1]:
        yield str(setting.feeds.folder(job.feed) / name)


def measure(setting: Setting) -> None:
    """Jobs of some sizes; those of one scenario and one thread also by range RAPTOR, which writes no matrix."""
    for turn in setting.each_turn:
        for job in QUICK if setting.quick else WHOLE:
            origins = setting.origins(job.feed, job.origins)
            study = Study(job.minutes, shares=(PERCENTILE,), more=list(scenario_files(setting, job)))
            ran, matrix = setting.run(study, job.feed, origins, job.threads)
            setting.record_run("jobs", job.feed, "ttm", job.name, ran, turn)
            if job.scenarios == 1 and job.origins <= MOST_COMPARED:
                by_range_raptor(setting, job, origins, matrix, turn)
            matrix.unlink()
