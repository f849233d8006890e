"""The engine `ttm --ask`: one process for a network, asked for one block of origins after another.

Rows of different origins do not depend on each other, so the blocks together are the matrix of one run.
"""

from __future__ import annotations

import re
import shlex
import time
from dataclasses import dataclass, field
from pathlib import Path
from typing import Any, Iterator, Sequence

from qgis.core import QgsProcessingException

from .children import OUT, Child, Lines
from .programs import Programs, environment
from .tools import Progress, with_help

HEAD = re.compile(rb"answer ([0-9]{1,3}) ([0-9]{1,18})")
LONGEST_HEAD = 64  # bytes
FIRST_BLOCK = 16  # origins for each thread
MOST_BYTES = 64 << 20  # of an answer, estimated from the block before it
FIRST_CELL = 4  # scenario, origin, percentile and access come before
SECONDS = 3.0  # that a block should take: at its end threads wait for the slowest


@dataclass(frozen=True)
class Network:
    """What a process of the engine keeps for all questions."""

    feed: str  # folder
    footpaths: str
    date: str  # YYYYMMDD
    walk: int  # seconds
    back: int  # service days before the date
    ahead: int
    scenarios: Sequence[str] = ()  # scenario files

    def words(self) -> list[str]:
        """Return the command line, without the program. Each question replaces what it needs of it."""
        named: dict[str, object] = {
            "feed": self.feed,
            "footpaths": self.footpaths,
            "date": self.date,
            "walk": self.walk,
        }
        fixed: dict[str, object] = {
            "from": "00:00",
            "to": "00:00",
            "trips": 4,
            "share": 50,
            "within": 1800,
            "workers": 1,
            "tries": 1,
        }
        every: dict[str, object] = {**named, "back": self.back, "ahead": self.ahead, **fixed}
        return [word for name, value in every.items() for word in (f"--{name}", str(value))] + list(self.scenarios)


@dataclass(frozen=True)
class Question:
    """What a question asks of a network."""

    first: str  # departure, HH:MM
    last: str
    rides: int  # at most, 1 to 8
    percentiles: Sequence[int]
    threads: int
    destinations: str  # a file with the column stop_id

    def words(self, origins: str) -> list[str]:
        """Return the words for some origins, which a file lists."""
        numbers: dict[str, object] = {
            "trips": self.rides,
            "share": ",".join(map(str, self.percentiles)),
            "workers": self.threads,
        }
        every: dict[str, object] = {
            "from": self.first,
            "to": self.last,
            **numbers,
            "origins": origins,
            "destinations": self.destinations,
        }
        return [word for name, value in every.items() for word in (f"--{name}", str(value))]


@dataclass
class Matrix:
    """A matrix on the disk: for each scenario the file with its rows, in the order of the origins."""

    folder: Path
    files: dict[str, Path] = field(default_factory=dict)

    def add(self, body: bytes) -> None:
        """Append the rows of an answer to the files of their scenarios, each of which begins with the header."""
        header, _, rows = body.partition(b"\n")
        parts: dict[bytes, list[bytes]] = {}
        for row in rows.splitlines(keepends=True):
            parts.setdefault(row.partition(b",")[0], []).append(row)
        for name, lines in parts.items():
            scenario = name.decode()
            path = self.files.get(scenario)
            if path is None:
                path = self.files[scenario] = self.folder / f"matrix{len(self.files)}.csv"
                path.write_bytes(header + b"\n")
            with path.open("ab") as file:
                file.writelines(lines)

    def destinations(self, scenario: str) -> list[str]:
        """Return the identifiers of the destinations, in the order of a row."""
        with self.files[scenario].open(encoding="utf-8") as file:
            return next(file).rstrip("\n").split(",")[FIRST_CELL:]

    def rows(self, scenario: str, most_seconds: float | None = None) -> Iterator[tuple[str, int, list[int | None]]]:
        """Yield each row of a scenario: origin, percentile, and the seconds to each destination.

        A time above `most_seconds` counts as not reached, which is None.
        """
        limit = float("inf") if most_seconds is None else most_seconds
        with self.files[scenario].open(encoding="utf-8") as file:
            next(file)
            for line in file:
                _, origin, percentile, *rest = line.rstrip("\n").split(",")
                times = [int(cell) if cell else None for cell in rest[FIRST_CELL - 3 :]]
                yield origin, int(percentile), [None if t is None or t > limit else t for t in times]


class Engine:
    """A process of `ttm --ask`. Leaving its context ends it."""

    def __init__(self, programs: Programs, network: Network, feedback: Any) -> None:
        command = [programs.engine, *network.words(), "--report", "--ask"]
        feedback.pushCommandInfo(shlex.join(command))
        self.feedback = feedback
        self.lines, self.last = Lines(), ""
        self.rest = b""  # what has arrived of the next answer
        self.child = Child(command, feedback, environment())

    def __enter__(self) -> "Engine":
        return self

    def __exit__(self, *_: object) -> None:
        self.child.stop()

    def ask(self, words: Sequence[str]) -> bytes:
        """Ask a question, and return the matrix.

        Raises
        ------
        QgsProcessingException
            The question or an input has an error, or the process ended.
        Cancelled
            The user pressed Cancel.
        """
        if any(not word or "\n" in word for word in words):
            raise QgsProcessingException("A path of this run contains a line end; use another folder.")
        self.child.write("".join(f"{word}\n" for word in words).encode("utf-8", "surrogateescape") + b"\n")
        received = bytearray(self.rest)
        while b"\n" not in received[:LONGEST_HEAD]:
            if len(received) > LONGEST_HEAD:
                raise QgsProcessingException(f"ttm gave no answer, but {bytes(received[:LONGEST_HEAD])!r}")
            received += self.next_bytes()
        end = received.index(b"\n")
        head = HEAD.fullmatch(received[:end])
        if head is None:
            raise QgsProcessingException(f"ttm gave no answer, but {bytes(received[:end])!r}")
        length = end + 1 + int(head[2])
        while len(received) < length:
            received += self.next_bytes()
        body, self.rest = bytes(received[end + 1 : length]), bytes(received[length:])
        if int(head[1]):
            raise QgsProcessingException(with_help(body.decode("utf-8", "replace").strip()))
        return body

    def next_bytes(self) -> bytes:
        """Return what the process wrote next to its standard output; its reports go to the log."""
        while True:
            name, block = self.child.next_block()
            if name == OUT and block:
                return block
            for line in self.lines.add(block):
                self.note(line)
            if name == OUT:
                raise QgsProcessingException(self.reason())

    def note(self, line: str) -> None:
        """Show a line of the report, warnings as warnings; a question's own line is for programs."""
        if line.startswith("ttm: question "):
            return
        self.last = line or self.last
        (self.feedback.pushWarning if "warning" in line else self.feedback.pushConsoleInfo)(line)

    def reason(self) -> str:
        """Return why the process ended, by the last line of its standard error."""
        for name, block in self.child.output():
            for line in self.lines.add(block) if name != OUT else ():
                self.note(line)
        status = self.child.status()
        return with_help(self.last or f"ttm ended with status {status}")


def matrix_of(engine: Engine, question: Question, origins: Sequence[str], folder: Path, progress: Progress) -> Matrix:
    """Ask for all origins, in blocks that take a few seconds each, and return the matrix.

    Parameters
    ----------
    origins
        Identifiers of stops in the feed of the network.
    folder
        A folder for the files of the matrix.
    """
    matrix, listed = Matrix(folder), folder / "origins_of_block.csv"
    begin, size = 0, FIRST_BLOCK * question.threads
    while begin < len(origins):
        block = origins[begin : begin + size]
        listed.write_text("stop_id\n" + "".join(f"{name}\n" for name in block), encoding="utf-8")
        started = time.monotonic()
        body = engine.ask(question.words(str(listed)))
        seconds = max(time.monotonic() - started, 0.001)
        matrix.add(body)
        begin += len(block)
        progress.at(begin, len(origins))
        by_time, by_bytes = len(block) * SECONDS / seconds, len(block) * MOST_BYTES / max(len(body), 1)
        size = max(1, min(int(by_time), int(by_bytes), 4 * size))
    return matrix
