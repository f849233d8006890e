"""Progress as lines of JSON, and commands that end with their standard input."""

import contextlib
import json
import os
import signal
import subprocess
import sys
import time
from pathlib import Path

import pytest

from helpers import LAUNCHER, Room, wait_until
from test_json import DATE, small
from ttm_tools.core import progress

__all__ = ["small"]
WAITS = """
import os, sys, time
sys.path.insert(0, sys.argv[1])
from ttm_tools import cli
from ttm_tools.cli import walks
from ttm_tools.core.files import atomic_path
def run(args):
    with atomic_path(args.out) as aside:
        aside.write_text("half")
        print("waiting", file=sys.stderr, flush=True)
        time.sleep(600)
walks.run = run
del sys.argv[1]
sys.exit(cli.main())
"""
PARENT = """
import subprocess, sys, time
child = subprocess.Popen(sys.argv[1:], stdin=subprocess.PIPE)
print(child.pid, flush=True)
time.sleep(600)
"""


def lines_of(said: str) -> list[tuple[int, int, str]]:
    """The lines of progress among those for people; each has three fields."""
    found = [json.loads(line) for line in said.splitlines() if line.startswith("{")]
    assert all(list(line) == ["done", "total", "what"] for line in found)
    return [(line["done"], line["total"], line["what"]) for line in found]


@pytest.mark.parametrize("arguments", [[], ["--json"]], ids=["text", "json"])
def test_each_step_is_a_line(small: Room, arguments: list[str]) -> None:
    small.write("late.csv", "action,id,seconds", [["remove_route", "R2", ""]])
    words = ["service", str(small.folder), small.path("late.csv"), *DATE, "--progress", "json", *arguments]
    out, said, status = small.ran(*words)
    assert status == 0 and "scenario" in out
    assert lines_of(said) == [(0, 2, "scenarios"), (1, 2, "scenarios"), (2, 2, "scenarios")]


def test_feeds_pairs_and_areas_are_steps(small: Room) -> None:
    found = [small.ran("prepare", "--check", str(small.folder), str(small.folder), "--progress", "json")]
    words = ["explain", str(small.folder), *DATE, *"--from 07:58 --to 08:01 --walk 120 --footpaths".split()]
    words += [small.path("walks.csv"), "--pairs", small.path("pairs.csv"), "--matrix", small.path("matrix.csv")]
    found.append(small.ran(*words, "--progress", "json"))
    assert [status for _, _, status in found] == [0, 0]
    steps = [lines_of(said)[-1] for _, said, _ in found]
    assert steps == [(2, 2, "feeds"), (3, 3, "pairs")]


def test_without_the_option_there_are_no_lines(small: Room) -> None:
    small.ran("service", str(small.folder), *DATE, "--progress", "json")
    _, said, status = small.ran("service", str(small.folder), *DATE)
    assert status == 0 and lines_of(said) == []


def test_a_long_loop_prints_some_lines(capsys: pytest.CaptureFixture[str]) -> None:
    progress.print_json()
    try:
        assert list(progress.track(range(1000), 1000, "rows", "rows")) == list(range(1000))
        assert list(progress.track("abc", 2, "pieces", "MB")) == ["a", "b", "c"]  # a total that was too small
        assert list(progress.track("ab", 5, "pieces", "MB")) == ["a", "b"]
        assert list(progress.track("ab", 1, "pieces", "MB")) == ["a", "b"]
    finally:
        progress.print_json(False)
    found = lines_of(capsys.readouterr().err)
    assert found[:201] == [(done, 1000, "rows") for done in range(0, 1001, 5)]
    counts = [[(0, 2), (1, 2), (2, 2), (3, 3)], [(0, 5), (1, 5), (2, 5), (5, 5)]]
    assert found[201:] == [(done, total, "pieces") for some in counts for done, total in some]


def waiting(room: Room, *more: str) -> list[str]:
    """A command that has written half of its output, and waits."""
    source = str(Path(LAUNCHER).parent / "src")
    return [sys.executable, "-c", WAITS, source, "walks", "--out", room.path("out.csv"), str(room.folder), *more]


@pytest.mark.parametrize("arguments", [[], ["--json"]], ids=["text", "json"])
def test_a_command_ends_with_its_standard_input(room: Room, arguments: list[str]) -> None:
    words, pipe = waiting(room, "--progress", "json", *arguments), subprocess.PIPE
    with subprocess.Popen(words, text=True, stdin=pipe, stdout=pipe, stderr=pipe) as child:
        try:
            assert child.stdin is not None and child.stdout is not None and child.stderr is not None
            assert child.stderr.readline() == "waiting\n"
            child.stdin.write("what is written there is ignored\n")
            child.stdin.flush()
            time.sleep(0.2)
            assert child.poll() is None
            child.stdin.close()
            wait_until(lambda: child.poll() is not None)
            out, said = child.stdout.read(), child.stderr.read()
        finally:
            child.kill()
    assert (child.returncode, said) == (143, "ttm-tools walks: standard input ended\n")
    assert room.names() == set()
    if arguments:
        error = json.loads(out)["error"]
        assert (error["kind"], error["status"], error["line"]) == ("interrupted", 143, "standard input ended")


def test_a_command_ends_with_a_killed_parent(room: Room) -> None:
    words = [sys.executable, "-c", PARENT, *waiting(room, "--progress", "json")]
    with subprocess.Popen(words, stdout=subprocess.PIPE, stderr=subprocess.PIPE, text=True) as parent:
        assert parent.stdout is not None and parent.stderr is not None
        child = int(parent.stdout.readline())
        assert parent.stderr.readline() == "waiting\n"
        assert len(room.names()) > 0
        parent.send_signal(signal.SIGKILL)
    try:
        wait_until(lambda: room.names() == set() and not is_running(child))
    finally:
        with contextlib.suppress(ProcessLookupError):
            os.kill(child, signal.SIGKILL)


def is_running(process: int) -> bool:
    """Whether a process runs; one that waits for its parent to ask for its status does not."""
    try:
        state = Path(f"/proc/{process}/stat").read_text().rpartition(")")[2].split()[0]
    except FileNotFoundError:
        return False
    return state not in "ZX"


def test_without_the_option_standard_input_does_not_matter(room: Room) -> None:
    with subprocess.Popen(waiting(room), stdin=subprocess.DEVNULL, stderr=subprocess.PIPE, text=True) as child:
        assert child.stderr is not None and child.stderr.readline() == "waiting\n"
        time.sleep(0.5)
        assert child.poll() is None
        child.send_signal(signal.SIGTERM)
        assert child.wait() == 143
        assert child.stderr.read() == "ttm-tools walks: ended by SIGTERM\n"


def test_a_command_that_is_done_first_succeeds(small: Room) -> None:
    begin, end = os.pipe()
    words = [sys.executable, LAUNCHER, "service", str(small.folder), *DATE, "--json", "--progress", "json"]
    try:
        ran = subprocess.run(words, stdin=begin, capture_output=True)
    finally:
        os.close(begin)
        os.close(end)
    assert ran.returncode == 0 and json.loads(ran.stdout)["command"] == "service"
