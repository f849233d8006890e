"""What the gate says of time: how long it expects to take on this machine, where it is, and which parts took longest.

The expectation is a measured figure, scaled by a short calculation and by the number of processors. `rt ci` works at
several crates at once, so the processor time of each is read from /proc. Standard library only.
"""

from __future__ import annotations

import hashlib
import os
import re
import threading
import time
from pathlib import Path

# measured on four processors of a machine on which `work` took WORK seconds
PROOFS = 8_900  # processor seconds of `rt ci` and of one crate's planted bugs, with nothing kept
SCRIPTS = 450  # seconds of what follows
WORK = 0.5
IN_USE = 0.85  # of the processors, while crates are proved
PAUSE = 60  # seconds between two reports at least
SLOWEST = 10
PROVED = re.compile(r"rt: \w+(: its tests are)? (proved|is kept: .*)")
BEGUN = re.compile(r"rt: \w+: trying its must-fail edits \((\d+)\)")
CRATE = re.compile(r"--crate-name\0(\w+)")


def work() -> float:
    """Processor seconds of a fixed calculation: the least of three runs."""
    took = []
    for _ in range(3):
        began, digest = time.process_time(), b""
        for _ in range(400_000):
            digest = hashlib.md5(digest).digest()
        took.append(time.process_time() - began)
    return min(took)


def minutes(seconds: float) -> str:
    return f"{seconds / 60:.0f} min"


class Progress:
    """Where the gate is: it reads the lines of `rt ci` and says from time to time how far it is."""

    def __init__(self, crates: int, edits: int) -> None:
        self.began = self.reported = time.monotonic()
        self.crates, self.edits = crates, edits
        self.proved = self.begun = 0
        self.expected = 0.0

    def expect(self) -> None:
        """Says how long the gate should take on this machine."""
        processors, speed = len(os.sched_getaffinity(0)), work() / WORK
        scripts = speed * SCRIPTS * max(1.0, 4 / processors) ** 0.5
        self.expected = speed * PROOFS / (IN_USE * processors) + scripts
        alone = f"{minutes(self.expected)} if nothing is kept, {minutes(scripts)} if nothing changed"
        print(f"expected on {processors} processors, if nothing else runs: {alone}", flush=True)

    def read(self, line: str) -> None:
        """Counts what a line of `rt ci` says to be done."""
        self.proved += bool((found := PROVED.fullmatch(line)) and not found[1])
        self.begun += int(begun[1]) if (begun := BEGUN.fullmatch(line)) else 0
        if time.monotonic() - self.reported > PAUSE:
            self.report()

    def report(self, part: str = "") -> None:
        self.reported = time.monotonic()
        part = part or f"{self.proved} of {self.crates} crates proved, {self.begun} of {self.edits} edits begun"
        print(f"-- {minutes(self.reported - self.began)} of {minutes(self.expected)} at most: {part}", flush=True)


class Sampler(threading.Thread):
    """Adds up the processor seconds of this process's descendants, by the crate and what is done to it."""

    def __init__(self) -> None:
        super().__init__(daemon=True)
        self.seen: dict[tuple[str, str], tuple[str, float]] = {}  # by process and its start: what it does, and seconds
        self.ended = threading.Event()

    def run(self) -> None:
        while not self.ended.wait(3):
            self.sample()

    def sample(self) -> None:
        parents: dict[str, tuple[str, str, float]] = {}
        for folder in Path("/proc").glob("[0-9]*"):
            try:
                fields = (folder / "stat").read_text().rpartition(")")[2].split()
            except OSError:
                continue  # it has ended
            parents[folder.name] = fields[1], fields[19], (int(fields[11]) + int(fields[12])) / os.sysconf("SC_CLK_TCK")
        for process, (_, start, seconds) in parents.items():
            label = self.seen[process, start][0] if (process, start) in self.seen else self.label(process, parents)
            if label:
                self.seen[process, start] = label, seconds

    @staticmethod
    def label(process: str, parents: dict[str, tuple[str, str, float]]) -> str:
        """What a descendant that proves a crate is doing; nothing of any other process."""
        at = process
        while at in parents and at != str(os.getpid()):
            at = parents[at][0]
        try:
            words, folder = Path(f"/proc/{process}/cmdline").read_text(), os.readlink(f"/proc/{process}/cwd")
        except OSError:
            return ""
        crate = CRATE.search(words)
        if at not in parents or not crate:
            return ""
        kind = "must-fail edits" if "rt-edit" in folder else "planted bugs" if "ttm-planted" in folder else "proof"
        return f"{crate[1]}: {'tests' if '--test' in words else kind}"

    def slowest(self, others: dict[str, float]) -> list[str]:
        """The parts that took the most processor time, these others among them."""
        self.ended.set()
        found: dict[str, float] = dict(others)
        for label, seconds in self.seen.values():
            found[label] = found.get(label, 0.0) + seconds
        most = sorted(found, key=found.__getitem__, reverse=True)
        return [f"{found[label]:7.0f} s  {label}" for label in most[:SLOWEST]]
