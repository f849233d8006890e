"""What several scripts of this folder do: read and write files of feeds, run and time programs."""
import argparse
import csv
import hashlib
import os
import subprocess
import sys
import time
from dataclasses import dataclass
from pathlib import Path
from typing import Any, Iterable, Sequence

TOOLS = str(Path(__file__).resolve().parent.parent / "tools" / "ttm-tools")
PYTHON = "/usr/bin/python3" if os.path.exists("/usr/bin/python3") else sys.executable  # that of Debian's packages
DATE = "20260504"  # a Monday on which all trips of the made feeds run


def parser_of(text: str | None, *names: str, **numbers: int) -> argparse.ArgumentParser:
    """A parser whose help shows a script's own text as it stands, of words with these names, and of options that are
    numbers, with their usual values.
    """
    parser = argparse.ArgumentParser(description=text, formatter_class=argparse.RawDescriptionHelpFormatter)
    for name in names:
        parser.add_argument(name)
    for name, usual in numbers.items():
        parser.add_argument(f"--{name}", type=int, default=usual, help=f"(default: {usual})")
    return parser


# Files of a feed.


def clock(seconds: int) -> str:
    """A time as GTFS writes it, HH:MM:SS."""
    return f"{seconds // 3600:02}:{seconds // 60 % 60:02}:{seconds % 60:02}"


def write_lines(folder: str, name: str, header: str, rows: Iterable[str]) -> None:
    """Writes a file of a feed: its header, and a line for each row."""
    with open(os.path.join(folder, name), "w", newline="") as file:
        file.write(header + "\n")
        file.writelines(row + "\n" for row in rows)


def records_of(path: str | Path) -> list[dict[str, str]]:
    """The records of a file by its columns; none if the file is missing."""
    if not os.path.exists(path):
        return []
    with open(path, newline="", encoding="utf-8-sig") as file:
        return list(csv.DictReader(file))


def stops_of(path: str) -> list[str]:
    """The stops that a file of origins or of a feed lists, without stations; none if the file is missing."""
    return [row["stop_id"] for row in records_of(path) if (row.get("location_type") or "").strip() in ("", "0")]


def first_origins(folder: str, count: int) -> list[str]:
    """The first of the folder's `origins.csv`, or of its stops if it lists too few."""
    own = stops_of(os.path.join(folder, "origins.csv"))
    return (own if len(own) >= count else stops_of(os.path.join(folder, "stops.txt")))[:count]


def write_origins(path: str, stops: Sequence[str]) -> None:
    with open(path, "w", newline="", encoding="utf-8") as file:
        csv.writer(file, lineterminator="\n").writerows([["stop_id"]] + [[stop] for stop in stops])


def there(folder: str, *names: str) -> list[str]:
    """The paths of those of these files that a folder has."""
    return [path for path in (os.path.join(folder, name) for name in names) if os.path.exists(path)]


# Runs of a program.


@dataclass(frozen=True)
class Study:
    """The settings of a run of `ttm`: departures each minute from 07:00. Origins and workers are given separately."""

    minutes: int = 120
    shares: Sequence[int] = (50,)
    limits: Sequence[int] = (3600,)  # seconds
    more: Sequence[str] = ()  # further arguments

    def arguments(self, folder: str, origins: str, workers: int) -> list[str]:
        """The arguments; the folder's `footpaths.csv` is taken where it has one."""
        hours, minutes = divmod(7 * 60 + self.minutes - 1, 60)
        arguments = ["--feed", folder, "--date", DATE, "--from", "07:00", "--to", f"{hours:02}:{minutes:02}"]
        arguments += ["--trips", "4", "--walk", "600"]
        arguments += ["--share", ",".join(map(str, self.shares)), "--within", ",".join(map(str, self.limits))]
        arguments += ["--back", "0", "--ahead", "0", "--origins", origins, "--workers", str(workers), "--tries", "1"]
        footpaths = [word for path in there(folder, "footpaths.csv") for word in ("--footpaths", path)]
        return [*arguments, *footpaths, *self.more]


@dataclass(frozen=True)
class Ran:
    """How a run of a program ended."""

    status: int  # of the exit; below 0 if a signal ended it
    seconds: float  # from start to end
    busy: float  # seconds of processors
    kilobytes: int  # most memory held


def run(arguments: Sequence[str], **how: Any) -> Ran:
    """Runs a program to its end, with further arguments of `Popen`."""
    began = time.monotonic()
    program = subprocess.Popen(arguments, **how)
    _, status, usage = os.wait4(program.pid, 0)
    program.returncode = os.waitstatus_to_exitcode(status)
    return Ran(program.returncode, time.monotonic() - began, usage.ru_utime + usage.ru_stime, usage.ru_maxrss)


def run_into(arguments: Sequence[str], path: str) -> Ran:
    """Runs a program whose standard output goes into a file; ends the script where it isn't a success."""
    with open(path, "wb") as out:
        ran = run(arguments, stdout=out)
    if ran.status != 0:
        sys.exit(f"status {ran.status}: {' '.join(arguments[1:])}")
    return ran


def sha256_of_file(path: str) -> str:
    """A sum of a file's bytes."""
    with open(path, "rb") as file:
        return hashlib.file_digest(file, "sha256").hexdigest()


def kilobytes(process: int | str, what: str, file: str = "status") -> int:
    """The memory that a file of /proc says of a process, by the word before it; 0 where it says nothing."""
    lines = Path(f"/proc/{process}/{file}").read_text().splitlines()
    return next((int(line.split()[1]) for line in lines if line.startswith(f"{what}:")), 0)
