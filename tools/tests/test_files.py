"""Files get their names when they are whole, and nothing stays behind where they don't."""

import os
import random
import signal
import subprocess
import sys
import time
from pathlib import Path

import pytest

from helpers import LAUNCHER, LONGEST_WAIT, Cell, Room, Town, as_in_a_terminal, town_matrix
from ttm_tools.core.files import aside_name, atomic_folder, atomic_path, output, sha256_of_file


def test_a_file_gets_its_name_when_it_is_whole(room: Room) -> None:
    with atomic_path(room.path("a.csv")) as aside:
        aside.write_text("whole")
        assert room.names() == {aside.name, ".part.lock.a.csv"}
    assert (room.names(), (room.folder / "a.csv").read_text()) == ({"a.csv"}, "whole")
    assert sha256_of_file(room.path("a.csv")).startswith("5d57")


def test_a_fault_keeps_what_was_there_before(room: Room) -> None:
    (room.folder / "a.csv").write_text("before")
    with pytest.raises(RuntimeError), output(room.path("a.csv")) as file:
        file.write(b"half")
        raise RuntimeError
    assert (room.names(), (room.folder / "a.csv").read_text()) == ({"a.csv"}, "before")


def test_a_folder_gets_all_of_its_files_or_none(room: Room) -> None:
    with atomic_folder(room.path("new/parts")) as aside:
        (aside / "1").write_text("one")
    assert room.names() == {"new", "new/parts", "new/parts/1"}
    with pytest.raises(RuntimeError), atomic_folder(room.path("other/parts")) as aside:
        (aside / "1").write_text("one")
        raise RuntimeError
    assert room.names() == {"new", "new/parts", "new/parts/1"}


def test_what_a_killed_run_left_is_removed_by_the_next(room: Room) -> None:
    ended = subprocess.Popen([sys.executable, "-c", ""])
    ended.wait()
    left = aside_name(room.folder / "a.csv")
    left.with_name(left.name.replace(str(os.getpid()), str(ended.pid))).write_text("half")
    with atomic_path(room.path("a.csv")) as aside:
        aside.write_text("whole")
    assert room.names() == {"a.csv"}


SLOW = """
import sys, time
sys.path.insert(0, sys.argv[1])
from ttm_tools.core import files, signals
signals.unwind_on_signals()
with files.atomic_path(sys.argv[2]) as made:
    made.write_text("half")
    print("begun", flush=True)
    time.sleep(600)
"""


@pytest.mark.parametrize("name", ["SIGTERM", "SIGINT", "SIGHUP", "SIGQUIT", "SIGUSR1", "SIGXCPU", "SIGALRM"])
def test_a_signal_leaves_nothing_behind(room: Room, name: str) -> None:
    source = str(Path(LAUNCHER).parent / "src")
    arguments = [sys.executable, "-c", SLOW, source, room.path("a.csv")]
    with subprocess.Popen(
        arguments, stdout=subprocess.PIPE, stderr=subprocess.DEVNULL, preexec_fn=as_in_a_terminal
    ) as run:
        assert run.stdout is not None and run.stdout.readline() == b"begun\n"
        run.send_signal(getattr(signal, name))
        assert run.wait(LONGEST_WAIT) != 0
    assert room.names() == set()


WAITING = """
import sys, time
sys.path.insert(0, sys.argv[1])
import ttm_tools.gtfs.stops
from ttm_tools import cli
from ttm_tools.core import signals

def wait(*_):
    print("begun", flush=True)
    time.sleep(600)

ttm_tools.gtfs.stops.read_stops = wait
signals.unwind_on_signals()
sys.exit(cli.main(["walks", sys.argv[2]]))
"""


def test_a_command_that_is_ended_says_so_and_leaves_nothing(room: Room) -> None:
    arguments = [sys.executable, "-c", WAITING, str(Path(LAUNCHER).parent / "src"), str(room.folder)]
    with subprocess.Popen(arguments, stdout=subprocess.PIPE, stderr=subprocess.PIPE) as run:
        assert run.stdout is not None and run.stdout.readline() == b"begun\n"
        run.send_signal(signal.SIGTERM)
        assert run.stderr is not None
        assert (run.wait(LONGEST_WAIT), run.stderr.read()) == (143, b"ttm-tools walks: ended by SIGTERM\n")
    assert room.names() == set()


@pytest.mark.parametrize("command", ["long", "compare", "omx"])
def test_a_command_that_is_ended_at_a_drawn_moment_leaves_the_whole_or_nothing(town: Town, command: str) -> None:
    if command == "omx":
        pytest.importorskip("h5py")
    draw = random.Random(command)
    stops = [f"s{number}" for number in range(250)]
    rows: dict[str, list[Cell]] = {name: [draw.randrange(9999) for _ in stops] for name in stops}
    town.matrix(town_matrix(True, {"base": rows, "cut": dict(zip(stops, reversed(rows.values())))}, stops=stops))
    arguments = [sys.executable, LAUNCHER, command, "--out", town.path("made"), town.file]
    before = town.names()
    assert subprocess.run(arguments, stderr=subprocess.DEVNULL).returncode == 0
    whole = (town.folder / "made").stat().st_size
    for _ in range(6):
        (town.folder / "made").unlink(missing_ok=True)
        with subprocess.Popen(arguments, stderr=subprocess.DEVNULL, preexec_fn=as_in_a_terminal) as run:
            time.sleep(draw.uniform(0.1, 1.2))
            run.send_signal(draw.choice([signal.SIGTERM, signal.SIGINT, signal.SIGHUP]))
        assert town.names() in (before, before | {"made"})
        assert run.returncode != 0 or (town.folder / "made").stat().st_size == whole
