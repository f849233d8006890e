"""Cancel and errors: no process, no folder and no layer are left."""

from __future__ import annotations

import os
import signal
import subprocess
import sys
import time
from collections.abc import Callable
from pathlib import Path
from typing import Any

import pytest

from helpers import MONDAY, points, processes_of, refusal, write_feed

SLOW = "import sys, time\nsys.stdin.read() if {reads} else time.sleep({seconds})\n"


class Feedback:
    """A feedback that is cancelled after some seconds."""

    def __init__(self, seconds: float) -> None:
        self.end = time.monotonic() + seconds

    def isCanceled(self) -> bool:  # noqa: N802
        return time.monotonic() > self.end


def wait_for(holds: Callable[[], bool], seconds: float = 10) -> bool:
    """Waits until a condition holds."""
    end = time.monotonic() + seconds
    while not holds() and time.monotonic() < end:
        time.sleep(0.05)
    return holds()


def test_cancel_ends_a_child_and_its_children(tmp_path: Path) -> None:
    from ttm_processing.children import Cancelled, Child

    mark = f"600.{os.getpid()}"
    script = f"sleep {mark} & sleep {mark}"
    started = time.monotonic()
    with pytest.raises(Cancelled), Child(["/bin/sh", "-c", script], Feedback(0.5), dict(os.environ)) as child:
        for _ in child.output():
            pass
    assert time.monotonic() - started < 3
    assert wait_for(lambda: not processes_of(mark))


def test_a_child_that_ignores_sigterm_is_killed() -> None:
    from ttm_processing.children import Cancelled, Child

    script = "import signal, time; signal.signal(signal.SIGTERM, signal.SIG_IGN); time.sleep(600)"
    with pytest.raises(Cancelled), Child([sys.executable, "-c", script], Feedback(2), dict(os.environ)) as child:
        for _ in child.output():
            pass
    assert child.process.returncode == -signal.SIGKILL


def test_both_outputs_are_read_to_their_ends() -> None:
    from ttm_processing.children import ERR, OUT, Child

    script = "import sys; sys.stdout.write('o' * 300000); sys.stderr.write('e' * 300000); sys.exit(3)"
    found = {OUT: b"", ERR: b""}
    with Child([sys.executable, "-c", script], Feedback(60), dict(os.environ)) as child:
        for name, block in child.output():
            found[name] += block
        assert child.status() == 3
    assert {name: len(text) for name, text in found.items()} == {OUT: 300000, ERR: 300000}


def given(tmp_path: Path, **more: Any) -> dict[str, Any]:
    ends = {"ORIGINS": points(["A"]), "ORIGIN_ID": "id", "DESTINATIONS": points(["B", "C"]), "DESTINATION_ID": "id"}
    times = {"DATE": MONDAY, "FROM": "08:00", "TO": "08:00", "OUTPUT": str(tmp_path / "out.gpkg")}
    return {"FEED": str(write_feed(tmp_path / "feed")), **ends, **times, **more}


def temporary_folders() -> list[str]:
    from qgis.core import QgsProcessingUtils

    return [name for name in os.listdir(QgsProcessingUtils.tempFolder()) if name.startswith("ttm-")]


def slow_engine(tmp_path: Path, program: str) -> str:
    """A program like `ttm` that waits before it answers."""
    path = tmp_path / "bin/ttm"
    path.parent.mkdir()
    path.write_text(f'#!/bin/sh\n[ "$1" = --version ] && exec {program} --version\nsleep 600.{os.getpid()}; exit 1\n')
    path.chmod(0o755)
    return str(path)


def test_a_cancelled_task_leaves_nothing(with_program: str, tmp_path: Path, monkeypatch: pytest.MonkeyPatch) -> None:
    from qgis.core import QgsApplication, QgsProcessingAlgRunnerTask, QgsProcessingContext, QgsProcessingFeedback
    from qgis.PyQt.QtCore import QCoreApplication

    monkeypatch.setenv("TTM_PROGRAM", slow_engine(tmp_path, with_program))
    mark = f"600.{os.getpid()}"
    algorithm = QgsApplication.processingRegistry().createAlgorithmById("ttm:traveltimes")
    context, feedback = QgsProcessingContext(), QgsProcessingFeedback(False)
    ended: list[float] = []
    parameters = given(tmp_path)  # has the layers, which the task doesn't own
    task = QgsProcessingAlgRunnerTask(algorithm, parameters, context, feedback)
    task.executed.connect(lambda *_: ended.append(time.monotonic()))
    QgsApplication.taskManager().addTask(task)

    def asked() -> bool:
        QCoreApplication.processEvents()
        return bool(processes_of(mark))

    assert wait_for(asked, 60)
    started = time.monotonic()
    task.cancel()
    assert wait_for(lambda: QCoreApplication.processEvents() or bool(ended) or not processes_of(mark), 10)
    assert wait_for(lambda: not processes_of(mark), 5)
    assert time.monotonic() - started < 1.5
    assert wait_for(lambda: not temporary_folders())
    assert not (tmp_path / "out.gpkg").exists()


def test_an_engine_that_dies_is_an_error_and_leaves_nothing(
    with_program: str, tmp_path: Path, monkeypatch: pytest.MonkeyPatch
) -> None:
    path = tmp_path / "bin/ttm"
    path.parent.mkdir()
    script = f'#!/bin/sh\n[ "$1" = --version ] && exec {with_program} --version\n'
    path.write_text(script + 'echo "ttm: too many footpaths" >&2; exit 2\n')
    path.chmod(0o755)
    monkeypatch.setenv("TTM_PROGRAM", str(path))
    message = refusal("traveltimes", **given(tmp_path))
    assert message == "ttm: too many footpaths. Use a shorter longest walk, or fewer places."
    assert not temporary_folders() and not (tmp_path / "out.gpkg").exists()


def test_the_engine_ends_with_its_parent(with_program: str, tmp_path: Path) -> None:
    write_feed(tmp_path / "feed")
    fixed = "--date 20260504 --from 08:00 --to 08:00 --trips 1 --walk 0 --share 50 --within 1 --workers 1 --tries 1"
    words = [with_program, "--feed", str(tmp_path / "feed"), *fixed.split(), "--ask"]
    script = f"import subprocess, time; subprocess.Popen({words!r}, stdin=subprocess.PIPE); time.sleep(600)"
    parent = subprocess.Popen([sys.executable, "-c", script])
    mark = str(tmp_path / "feed")
    assert wait_for(lambda: len(processes_of(mark)) > 1)
    parent.kill()
    parent.wait()
    assert wait_for(lambda: not processes_of(mark))
