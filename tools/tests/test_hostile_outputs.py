"""Hostile outputs, inputs and streams, drawn by a seed: files of others, pipes and devices in the place of outputs and
inputs; two runs with one output, planted modules, and streams that are closed or full.

It goes on for half as long as `test_hostile`, from the same seed. A case that fails is reported with its number.
"""

import contextlib
import os
import random
import shutil
import signal
import stat
import subprocess
import sys
import time
from pathlib import Path
from types import FrameType
from typing import Iterator

import pytest

from helpers import LAUNCHER, Town
from test_hostile import ALLOWED, SECONDS, SEED, Hostile, contents
from test_study_safety import PLANTED, plant

LONGEST = 120  # seconds for a command on small inputs, even if the machine has other work
KINDS = ("file", "folder", "link", "pipe", "device", "input")
NULL = os.makedev(1, 3)  # the device /dev/null
STREAMS = ("", ">&-", "> /dev/full", "2>&-", "<&-", ">&- 2>&-")
BUSY = "another command writes it at the moment"
CASES = 8  # of processes: each takes seconds


@contextlib.contextmanager
def within_time(what: str) -> Iterator[None]:
    """Fails if the block waits, as for a pipe without a writer."""

    def late(_: int, __: FrameType | None) -> None:
        raise AssertionError(f"{what}: it waits forever")

    before = signal.signal(signal.SIGALRM, late)
    signal.alarm(LONGEST)
    try:
        yield
    finally:
        signal.alarm(0)
        signal.signal(signal.SIGALRM, before)


def put(kind: str, path: Path, mine: Path) -> int | None:
    """Creates another user's file, folder or pipe at an output's path; returns a pipe's open end, to read later."""
    if kind == "file":
        path.write_text("mine\n")
    elif kind == "folder":
        path.mkdir()
        (path / "mine.txt").write_text("mine\n")
    elif kind == "link":
        path.symlink_to(mine)
    elif kind == "device":
        os.mknod(path, stat.S_IFCHR | 0o666, NULL)
    else:
        os.mkfifo(path)
        return os.open(path, os.O_RDWR | os.O_NONBLOCK)
    return None


def kinds_of_files(folder: Path) -> dict[str, int]:
    """What each path is: a file, a folder, a link, a pipe or a device."""
    return {str(path.relative_to(folder)): stat.S_IFMT(path.lstat().st_mode) for path in folder.rglob("*")}


class Case:
    """A command whose output, or one of whose inputs, is something else than it expects."""

    def __init__(self, town: Town, hostile: Hostile, number: int) -> None:
        draw = hostile.draw
        self.town, self.hostile, self.kind = town, hostile, draw.choice(KINDS)
        (town.folder / "outs").mkdir()
        self.arguments = draw.choice(hostile.commands(town.path("outs/made")))
        has_output = "--out" in self.arguments
        self.output = Path(self.arguments[self.arguments.index("--out") + 1]) if has_output else None
        self.input = draw.choice([name for name in sorted(hostile.whole) if hostile.reads(self.arguments, name)])
        self.what = f"seed {SEED}, case {number}: {self.kind}, {self.arguments}"

    def run(self) -> int:
        """Runs it and returns its status; nothing of anybody else has changed, and it has said why it ended."""
        town, end = self.town, None
        if self.kind == "input":
            (self.hostile.folder / self.input).unlink()
            os.mkfifo(self.hostile.folder / self.input)
        elif self.output is not None:
            end = put(self.kind, self.output, town.folder / "mine.txt")
        before, kinds = contents(town.folder), kinds_of_files(town.folder)
        with within_time(self.what):
            _, errors, status = town.ran(*self.arguments)
        after, left = contents(town.folder), kinds_of_files(town.folder)
        self.what += f": {status}: {errors}"
        assert status in ALLOWED and "Traceback" not in errors, self.what
        assert {path: after.get(path) for path in before} == before, self.what
        assert {path: left.get(path) for path in kinds} == kinds, self.what
        assert all(path.startswith("outs/") for path in left.keys() - kinds.keys()), self.what
        assert not status or self.arguments[0] == "study" or set(left) == set(kinds), self.what
        if self.kind in ("file", "link") and self.output is not None:
            assert status, self.what
        if end is not None:
            os.close(end)
        return status

    def mend(self) -> None:
        shutil.rmtree(self.town.folder / "outs")
        (self.hostile.folder / self.input).unlink()
        self.hostile.mend()


@pytest.mark.filterwarnings("ignore")
def test_what_is_of_somebody_else_stays_and_no_command_waits(town: Town, monkeypatch: pytest.MonkeyPatch) -> None:
    if os.geteuid() != 0:
        monkeypatch.setattr("test_hostile_outputs.KINDS", tuple(kind for kind in KINDS if kind != "device"))
    end, number, hostile = time.monotonic() + SECONDS / 2, 0, Hostile(town, random.Random(SEED))
    (town.folder / "mine.txt").write_text("mine\n")
    (town.folder / "tmp").mkdir()
    monkeypatch.setattr("tempfile.tempdir", town.path("tmp"))
    monkeypatch.setenv("TTM_PROGRAM", "/bin/false")
    counts = dict[tuple[str, int], int]()
    while time.monotonic() < end or number < len(KINDS):
        number += 1
        case = Case(town, hostile, number)
        status = case.run()
        counts[case.kind, status] = counts.get((case.kind, status), 0) + 1
        case.mend()
    print(f"seed {SEED}: {number} cases, by kind and status {counts}")


def started(words: list[str], folder: Path, streams: str, by_module: bool) -> "subprocess.Popen[bytes]":
    """A command that a shell starts in a folder, with some streams closed or full."""
    environment = {**os.environ, "PYTHONPATH": str(Path(LAUNCHER).parent / "src")}
    first = [sys.executable, "-m", "ttm_tools"] if by_module else [sys.executable, LAUNCHER]
    shell = ["sh", "-c", f'exec "$@" {streams}', "sh", *first, *words]
    pipe = subprocess.PIPE
    return subprocess.Popen(shell, cwd=folder, env=environment, stdout=pipe, stderr=pipe)


def test_two_runs_planted_modules_and_closed_streams_leave_whole_outputs(town: Town) -> None:
    draw, mark = random.Random(SEED), town.folder / "ran"
    hostile, here = Hostile(town, draw), town.folder / "here"
    here.mkdir()
    plant(here, mark, [name for name in PLANTED if name != "ttm_tools.py"])  # -m itself finds that one
    for number in range(CASES):
        rooms = [town.folder / "outs", town.folder / "once"]
        for room in rooms:
            room.mkdir()
        words = draw.choice(hostile.commands(str(rooms[0] / "made")))
        single = [word.replace(str(rooms[0]), str(rooms[1])) for word in words]
        streams, by_module, twice = draw.choice(STREAMS), draw.random() < 0.5, draw.random() < 0.5
        what = f"seed {SEED}, case {number}: {words} {streams}, {by_module}, {twice}"
        runs = [started(words, here, streams, by_module) for _ in range(1 + twice)]
        ends = [(*run.communicate(timeout=LONGEST), run.returncode) for run in runs]
        wanted = town.ran(*single)[2]
        for out, errors, status in ends:
            assert status in ALLOWED and b"Traceback" not in out + errors, (what, errors)
            assert status in (wanted, 1), (what, errors)
        assert not mark.exists(), (what, mark.read_text())
        busy = [BUSY.encode() in errors for _, errors, _ in ends]
        assert not all(busy), what
        assert streams or all(status == wanted or is_busy for (*_, status), is_busy in zip(ends, busy)), (what, ends)
        made, whole = ({n: data.replace(bytes(room), b"") for n, data in contents(room).items()} for room in rooms)
        assert words[0] == "study" or not made or made == whole, (what, made.keys() ^ whole.keys())
        assert any(status for *_, status in ends) or made.keys() == whole.keys(), what
        for room in rooms:
            shutil.rmtree(room)
