"""The setting of a run of the benchmark: its options, its feeds, and the programs that it measures."""

import os
import shutil
import subprocess
import sys
from collections.abc import Sequence
from dataclasses import dataclass
from functools import cached_property
from pathlib import Path
from typing import NoReturn

from feeds import Feeds
from record import ROOT, Recorder
from shared import DATE, Ran, Study, first_origins, run_into, there, write_origins

RAPTOR = ROOT / "bench" / "raptor"


def stop(message: str) -> NoReturn:
    """Ends the benchmark with a line that says why."""
    sys.exit(f"bench/run.py: {message}")


@dataclass(frozen=True)
class Setting:
    """Where feeds and programs are, how often each figure is measured, and where figures go."""

    feeds: Feeds
    recorder: Recorder
    program: Path  # the built ttm
    measure_program: Path  # the built program of crates/measure
    turns: int
    quick: bool
    room: Path  # a temporary folder

    def choose(self, quick: int, whole: int) -> int:
        """A number for a quick run, or for a whole one."""
        return quick if self.quick else whole

    @property
    def each_turn(self) -> range:
        return range(1, self.turns + 1)

    def built(self, program: Path, crate: str) -> str:
        """Returns the path of a program of this repository; ends the benchmark if it isn't built."""
        if not program.is_file():
            stop(f"{program} is not built: run 'rt run' in crates/{crate} first, or name another one")
        return str(program)

    @property
    def ttm(self) -> str:
        return self.built(self.program, "ttm")

    @property
    def measure(self) -> str:
        return self.built(self.measure_program, "measure")

    @cached_property
    def raptor(self) -> str:
        """The program of bench/raptor, which `cargo` builds without a network."""
        cargo = shutil.which("cargo") or str(Path.home() / ".cargo" / "bin" / "cargo")
        if not Path(cargo).exists():
            stop("cargo is missing: install Rust to build bench/raptor (https://rustup.rs)")
        target = os.environ.get("CARGO_TARGET_DIR", str(RAPTOR / "target"))
        environment = {**os.environ, "CARGO_TARGET_DIR": target}
        subprocess.run([cargo, "build", "--release", "--offline", "-q"], cwd=RAPTOR, env=environment, check=True)
        return f"{target}/release/raptor"

    def origins(self, feed: str, count: int) -> str:
        """Writes a file with the first origins of a feed, and returns its path."""
        path = self.room / f"origins_{count}.csv"
        write_origins(str(path), first_origins(str(self.feeds.folder(feed)), count))
        return str(path)

    def words(self, feed: str, origins: str, minutes: int = 120, first: str = "07:00:00") -> list[str]:
        """The arguments that `measure` and `raptor` share: at most 4 rides, walks of 600 seconds."""
        folder = str(self.feeds.folder(feed))
        footpaths = there(folder, "footpaths.csv") or ["-"]
        return [folder, DATE, first, str(minutes), "4", "600", *footpaths, origins]

    def run(self, study: Study, feed: str, origins: str, workers: int = 1) -> tuple[Ran, Path]:
        """Runs `ttm`; returns what that took, and the matrix."""
        matrix = self.room / "matrix.csv"
        arguments = study.arguments(str(self.feeds.folder(feed)), origins, workers)
        return run_into([self.ttm, *arguments], str(matrix)), matrix

    def record_run(self, part: str, feed: str, program: str, measure: str, ran: Ran, turn: int) -> None:
        """Records the seconds and the peak memory of a run."""
        self.recorder.add(part, feed, program, measure, ran.seconds, "s", turn=turn)
        self.recorder.add(part, feed, program, f"{measure}, memory", ran.kilobytes / 1000, "MB", turn=turn)


def figures_in(text: str) -> dict[str, int]:
    """The whole numbers in lines such as `rows: 12`, by the words before the colon."""
    pairs = (line.rpartition(": ") for line in text.splitlines())
    return {what: int(number) for what, _, number in pairs if number.isdecimal()}


def printed(command: Sequence[str]) -> dict[str, int]:
    """Runs a program and returns the whole numbers that it prints."""
    ran = subprocess.run(command, stdout=subprocess.PIPE, text=True)
    if ran.returncode != 0 or "refused: " in ran.stdout:
        stop(f"status {ran.returncode}: {' '.join(command)}\n{ran.stdout}")
    return figures_in(ran.stdout)
