"""How the tests run the built program: in a fresh folder, as nobody where root runs them, and what a run leaves."""

from __future__ import annotations

import os
import subprocess
import tempfile
from collections.abc import Callable, Sequence
from pathlib import Path
from typing import IO, Any

from run_cases import FEED, OWN, Change

NOBODY = 65534
SECONDS = 120

Left = tuple[str, str, int]  # both outputs and the status
Words = Sequence[str | bytes]
Output = int | IO[bytes]


def as_nobody() -> dict[str, Any]:
    """How a process is started so that permissions count: root may read everything."""
    return {"user": NOBODY, "group": NOBODY, "extra_groups": []} if os.geteuid() == 0 else {}


def lay_out(room: Path) -> None:
    """Writes the feed and the own files."""
    for name, text in {**{f"feed/{item}": text for item, text in FEED.items()}, **OWN}.items():
        (room / name).parent.mkdir(exist_ok=True)
        (room / name).write_text(text)


def start(
    program: str, arguments: Words, room: Path, stdout: Output = subprocess.PIPE, stderr: Output = subprocess.PIPE
) -> subprocess.Popen[bytes]:
    """Starts the program in a folder, with these outputs or with pipes."""
    return subprocess.Popen(
        [program, *arguments],
        cwd=room,
        stdin=subprocess.DEVNULL,
        stdout=stdout,
        stderr=stderr,
        env={"LANG": "C.UTF-8"},
        **as_nobody(),
    )


def left(started: subprocess.Popen[bytes]) -> Left:
    """What a program leaves: both outputs and its status; one that takes too long is ended, which its status shows."""
    try:
        out, err = started.communicate(timeout=SECONDS)
    except subprocess.TimeoutExpired:
        started.kill()
        out, err = started.communicate()
    return (out or b"").decode(errors="replace"), (err or b"").decode(errors="replace"), started.returncode


def in_a_room(changes: Sequence[Change], leaves: Callable[[Path], Left]) -> Left:
    """Gives what a run leaves in a fresh folder."""
    with tempfile.TemporaryDirectory(prefix="ttm-runs-") as folder:
        room = Path(folder)
        room.chmod(0o755)
        lay_out(room)
        for change in changes:
            change.make(room)
        try:
            return leaves(room)
        finally:
            for change in changes:
                change.undo(room)


def left_by(program: str, arguments: Words, changes: Sequence[Change] = (), stdout: Output = subprocess.PIPE) -> Left:
    """What a run in a fresh folder leaves, with this output or with a pipe."""
    return in_a_room(changes, lambda room: left(start(program, arguments, room, stdout)))
