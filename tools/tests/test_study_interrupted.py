"""Ctrl-C in a study: what is done is kept, and the parts that run are kept where they can be, here and on hosts."""

import os
import shlex
import shutil
import signal
import subprocess
import sys
import threading
from pathlib import Path
from typing import Any, Callable

import pytest

from helpers import LAUNCHER, Room, as_in_a_terminal, wait_until
from test_study import STUDY, Place, place  # noqa: F401
from ttm_tools.core.signals import Interrupted
from ttm_tools.engine.arguments import EngineArguments
from ttm_tools.study.executors.local import Pool, log_ending, run_parts
from ttm_tools.study.parts import Part

WAITED_FOR = "interrupted: waiting for the running parts, which will be kept; Ctrl-C again stops at once"


def test_an_interruption_says_that_the_same_command_goes_on(place: Place) -> None:  # noqa: F811
    path = place.lay_out(STUDY.replace("count = 4", "count = 9"))
    ran = subprocess.Popen(
        [sys.executable, LAUNCHER, "study", path], stderr=subprocess.PIPE, preexec_fn=as_in_a_terminal
    )
    wait_until(lambda: (place.folder / "nine" / "inputs").exists() or ran.poll() is not None)
    ran.send_signal(signal.SIGINT)
    errors = ran.communicate()[1].decode().splitlines()
    assert "finished parts are kept: the same command resumes the study" in errors and ran.returncode == 130


def waiting(folder: Path) -> str:
    """Lines of a shell that wait until a file `go` is in a folder, and end with an error where it doesn't come."""
    go = shlex.quote(str(folder / "go"))
    return f"for _ in $(seq 6000); do [ -e {go} ] && break; sleep 0.05; done; [ -e {go} ] || exit 1"


def slow_parts(room: Room, monkeypatch: pytest.MonkeyPatch) -> list[Part]:
    """Three parts for a program that notes that it runs, and waits for a file `go`."""
    program = room.folder / "ttm"
    running = shlex.quote(str(room.folder / "running"))
    program.write_text(f"#!/bin/sh\n: > {running}.$$\n{waiting(room.folder)}\necho whole\n")
    program.chmod(0o755)
    monkeypatch.setenv("TTM_PROGRAM", str(program))
    monkeypatch.chdir(room.folder)
    (room.folder / "stages").mkdir()
    return [Part(number, ["A"], "key") for number in (1, 2, 3)]


def interrupt_when(*conditions: Callable[[], bool]) -> None:
    """Sends Ctrl-C to this process as soon as a condition holds, and again for the next one; a shell lets its
    background jobs ignore it.
    """
    signal.signal(signal.SIGINT, signal.default_int_handler)

    def send() -> None:
        for holds in conditions:
            wait_until(holds)
            os.kill(os.getpid(), signal.SIGINT)

    threading.Thread(target=send, daemon=True).start()


def when_told(monkeypatch: pytest.MonkeyPatch, act: Callable[[], None]) -> None:
    """Calls `act` as soon as the study says that it waits for running parts."""

    def tell(count: int) -> None:
        log_ending(count)
        act()

    monkeypatch.setattr("ttm_tools.study.executors.local.log_ending", tell)


def test_the_parts_that_run_at_ctrl_c_are_kept(room: Room, monkeypatch: pytest.MonkeyPatch) -> None:
    parts = slow_parts(room, monkeypatch)
    when_told(monkeypatch, (room.folder / "go").touch)
    interrupt_when(lambda: len(list(room.folder.glob("running.*"))) == 2)
    with pytest.raises(Interrupted):
        run_parts(EngineArguments("feed", "20260504", ("08:00", "08:00")), parts, 2, 1)
    assert [part.is_done() for part in parts] == [True, True, False]
    assert b"interrupted: waiting for 2 running parts, which will be kept" in room.captured.readouterr()[1]
    assert signal.getsignal(signal.SIGINT) is signal.default_int_handler


def test_a_second_ctrl_c_ends_the_parts_that_run(room: Room, monkeypatch: pytest.MonkeyPatch) -> None:
    parts, printed = slow_parts(room, monkeypatch), threading.Event()
    when_told(monkeypatch, printed.set)
    interrupt_when(lambda: len(list(room.folder.glob("running.*"))) == 2, printed.is_set)
    with pytest.raises(KeyboardInterrupt):
        run_parts(EngineArguments("feed", "20260504", ("08:00", "08:00")), parts, 2, 1)
    assert not any(part.is_done() for part in parts)
    assert not list(room.folder.glob("parts/*/.part.*"))


def test_ctrl_c_in_a_terminal_reaches_no_part(place: Place, program: str) -> None:  # noqa: F811
    """A terminal sends it to all of a study's processes."""
    path, slow = place.lay_out(STUDY), place.folder / "slow"
    slow.write_text(f'#!/bin/sh\ncase "$*" in *parts/0*) {waiting(place.folder)} ;; esac\nexec {program} "$@"\n')
    slow.chmod(0o755)
    how: dict[str, Any] = {"env": {**os.environ, "TTM_PROGRAM": str(slow)}, "start_new_session": True}
    arguments = [sys.executable, LAUNCHER, "study", path, "--workers", "1"]
    ran = subprocess.Popen(arguments, stderr=subprocess.PIPE, preexec_fn=as_in_a_terminal, **how)
    wait_until(lambda: bool(list(place.folder.glob("nine/parts/0001/.part.*"))) or ran.poll() is not None)
    os.killpg(ran.pid, signal.SIGINT)
    printed = lines_until(
        ran, "interrupted: waiting for 1 running part, which will be kept; Ctrl-C again stops at once"
    )
    (place.folder / "go").touch()
    printed += lines_until(ran)
    assert "finished parts are kept: the same command resumes the study" in printed and ran.returncode == 130
    assert [path.parent.name for path in place.folder.glob("nine/parts/*/key")] == ["0001"]


def lines_until(ran: "subprocess.Popen[bytes]", last: str | None = None) -> list[str]:
    """The lines that a command says up to a last one, or to its end."""
    assert ran.stderr is not None
    lines = list[str]()
    while not lines or lines[-1] != last:
        line = ran.stderr.readline()
        if not line:
            ran.wait()
            break
        lines.append(line.decode().rstrip("\n"))
    return lines


def on_hosts(place: Place, program: str) -> "subprocess.Popen[bytes]":  # noqa: F811
    """A study in a terminal of its own, two of whose parts run at once by GNU parallel, and wait for a file `go`."""
    if shutil.which("parallel") is None:
        pytest.skip("without GNU parallel")
    path, slow = place.lay_out(STUDY), place.folder / "slow"
    slow.write_text(f'#!/bin/sh\ncase "$*" in *parts/0*) {waiting(place.folder)} ;; esac\nexec {program} "$@"\n')
    slow.chmod(0o755)
    how: dict[str, Any] = {"env": {**os.environ, "TTM_PROGRAM": str(slow)}, "start_new_session": True}
    arguments = [sys.executable, LAUNCHER, "study", path, "--hosts", "2/:"]
    ran = subprocess.Popen(arguments, stderr=subprocess.PIPE, preexec_fn=as_in_a_terminal, **how)
    wait_until(lambda: len(list(place.folder.glob("nine/parts/*/.part.*"))) == 2 or ran.poll() is not None)
    return ran


def kept(place: Place) -> list[str]:  # noqa: F811
    return sorted(path.parent.name for path in place.folder.glob("nine/parts/*/key"))


def test_the_parts_that_run_on_hosts_at_ctrl_c_are_kept(place: Place, program: str) -> None:  # noqa: F811
    ran = on_hosts(place, program)
    os.killpg(ran.pid, signal.SIGINT)
    printed = lines_until(ran, WAITED_FOR)
    (place.folder / "go").touch()
    printed += lines_until(ran)
    assert WAITED_FOR in printed
    assert "finished parts are kept: the same command resumes the study" in printed and ran.returncode == 130
    assert kept(place) == ["0001", "0002"]
    _, said, status = place.ran("study", place.path("nine.toml"))
    assert status == 0 and "parts: 2 of 4 already done" in said.splitlines()


def test_a_second_ctrl_c_ends_the_parts_on_hosts(place: Place, program: str) -> None:  # noqa: F811
    ran = on_hosts(place, program)
    os.killpg(ran.pid, signal.SIGINT)
    printed = lines_until(ran, WAITED_FOR)
    os.killpg(ran.pid, signal.SIGINT)
    printed += lines_until(ran)
    assert "finished parts are kept: the same command resumes the study" in printed and ran.returncode == 130
    assert kept(place) == []
    wait_until(lambda: not list(place.folder.glob("nine/parts/*/.part.*")))


def test_parts_that_go_on_are_told_where_there_is_no_terminal(
    monkeypatch: pytest.MonkeyPatch, capsys: pytest.CaptureFixture[str]
) -> None:
    monkeypatch.setattr("ttm_tools.study.executors.local.SECONDS_BETWEEN_LINES", -1.0)
    pool = Pool(EngineArguments("feed", "20260504", ("08:00", "08:00")), [], 1, 1)
    assert pool.over() == [] and capsys.readouterr().err == "parts: 0 running, 0 waiting\n"
