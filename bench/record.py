"""Figures of the benchmark: one row of `results.csv` for each, with the machine and the build that it belongs to."""

import csv
import os
import re
import shutil
import subprocess
from dataclasses import asdict, dataclass, fields
from datetime import datetime, timezone
from pathlib import Path

ROOT = Path(__file__).resolve().parent.parent
RESULTS = Path(__file__).resolve().parent / "results.csv"
MEASURED = ("crates", "tools/src", "bench/raptor")  # folders whose changes make another build than the commit's


@dataclass(frozen=True)
class Row:
    """A figure of one turn. `date` is when the run of the benchmark started; turns are counted from 1."""

    date: str
    commit: str
    toolchain: str
    processor: str
    cores: int
    memory_gb: int
    load: float
    part: str
    feed: str
    program: str
    measure: str
    turn: int
    figure: float
    unit: str

    @property
    def build(self) -> tuple[str, str, int, int]:
        """The commit and the machine: only figures with the same ones are compared."""
        return self.commit, self.processor, self.cores, self.memory_gb


HEADER = [field.name for field in fields(Row)]


def read_results(path: Path = RESULTS) -> list[Row]:
    """Reads all rows of a file of results, in their order; there are none if there is no such file."""
    if not path.exists():
        return []
    with open(path, newline="", encoding="utf-8") as file:
        records = list(csv.DictReader(file))
    kinds = {field.name: field.type for field in fields(Row)}
    return [Row(**{name: kinds[name](text) for name, text in record.items()}) for record in records]


def output_of(*command: str) -> str:
    """The first line that a command prints, or an empty text if it fails or is missing."""
    if shutil.which(command[0]) is None:
        return ""
    ran = subprocess.run(command, cwd=ROOT, stdout=subprocess.PIPE, stderr=subprocess.DEVNULL, text=True)
    return ran.stdout.strip().partition("\n")[0] if ran.returncode == 0 else ""


def commit() -> str:
    """The commit of this clone, marked if measured folders differ from it."""
    changed = output_of("git", "status", "--porcelain", "--", *MEASURED)
    return (output_of("git", "rev-parse", "--short=8", "HEAD") or "unknown") + ("-changed" if changed else "")


def processor() -> str:
    found = re.search(r"model name\s*:\s*(.+)", Path("/proc/cpuinfo").read_text())
    return " ".join(found[1].split()) if found else "unknown"


def memory_gb() -> int:
    """The machine's memory in GB (10^9 bytes)."""
    return round(os.sysconf("SC_PAGE_SIZE") * os.sysconf("SC_PHYS_PAGES") / 1e9)


class Recorder:
    """Appends figures to a file of results as soon as they are measured, and prints them."""

    def __init__(self, path: Path) -> None:
        self.path = path
        self.date = datetime.now(timezone.utc).strftime("%Y-%m-%dT%H:%M:%SZ")
        toolchain = output_of("rt", "version") or "unknown"
        self.build = self.date, commit(), toolchain, processor(), len(os.sched_getaffinity(0)), memory_gb()

    def add(self, part: str, feed: str, program: str, measure: str, figure: float, unit: str, *, turn: int = 1) -> None:
        """Records a figure; all but `turn` and `figure` say what it is of."""
        load = round(os.getloadavg()[0], 1)
        figure = float(f"{figure:.4g}") if abs(figure) < 1000 else round(figure)
        row = Row(*self.build, load, part, feed, program, measure, turn, figure, unit)
        is_new = not self.path.exists()
        with open(self.path, "a", newline="", encoding="utf-8") as file:
            writer = csv.DictWriter(file, HEADER, lineterminator="\n")
            if is_new:
                writer.writeheader()
            writer.writerow(asdict(row))
        print(f"{part}: {feed}, {program}, {measure}: {figure:g} {unit}", flush=True)
