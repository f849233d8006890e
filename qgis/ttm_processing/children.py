"""Child processes of an algorithm: threads read their outputs, and Cancel ends them within a tenth of a second."""

from __future__ import annotations

import contextlib
import os
import queue
import signal
import subprocess
import threading
from typing import IO, Any, Iterator

TICK = 0.1  # seconds between two checks of the Cancel button
GRACE = 2.0  # seconds between SIGTERM and SIGKILL
BLOCK = 1 << 20
OUT, ERR = "out", "err"


class Cancelled(Exception):
    """The user pressed Cancel."""


class Child:
    """A process in a session of its own. Leaving its context ends it, with all processes that it started.

    Its standard input is a pipe, so it can notice that QGIS was killed: the pipe closes.

    Parameters
    ----------
    command
        The program and its arguments.
    feedback
        The `QgsProcessingFeedback` that says whether the run was cancelled.
    environment
        The variables that the process gets.
    """

    def __init__(self, command: list[str], feedback: Any, environment: dict[str, str]) -> None:
        self.feedback = feedback
        pipe = subprocess.PIPE
        self.process = subprocess.Popen(
            command, stdin=pipe, stdout=pipe, stderr=pipe, start_new_session=True, env=environment
        )
        self.blocks: queue.Queue[tuple[str, bytes]] = queue.Queue()
        self.ended: set[str] = set()  # outputs
        pipes = {OUT: self.process.stdout, ERR: self.process.stderr}
        self.readers = [
            threading.Thread(target=self.read, args=(name, file), daemon=True) for name, file in pipes.items()
        ]
        for reader in self.readers:
            reader.start()

    def read(self, name: str, pipe: IO[bytes]) -> None:
        """Move a pipe's bytes to the queue; the last block is empty."""
        with contextlib.suppress(OSError, ValueError):
            while block := os.read(pipe.fileno(), BLOCK):
                self.blocks.put((name, block))
        self.blocks.put((name, b""))

    def next_block(self) -> tuple[str, bytes]:
        """Return what the process wrote next, as the name of the output and some bytes: none at an output's end.

        Raises
        ------
        Cancelled
            The user pressed Cancel; the process was ended.
        """
        while True:
            if self.feedback.isCanceled():
                self.stop()
                raise Cancelled
            with contextlib.suppress(queue.Empty):
                name, block = self.blocks.get(timeout=TICK)
                if not block:
                    self.ended.add(name)
                return name, block

    def output(self) -> Iterator[tuple[str, bytes]]:
        """Yield what the process writes, until both outputs have ended."""
        while len(self.ended) < len(self.readers):
            name, block = self.next_block()
            if block:
                yield name, block

    def write(self, data: bytes) -> None:
        """Write to the standard input; that of a process that has ended is ignored, since its outputs say why."""
        assert self.process.stdin is not None
        with contextlib.suppress(OSError, ValueError):
            self.process.stdin.write(data)
            self.process.stdin.flush()

    def close_input(self) -> None:
        """Close the standard input."""
        assert self.process.stdin is not None
        with contextlib.suppress(OSError):
            self.process.stdin.close()

    def status(self) -> int:
        """Wait for the end, and return the exit status."""
        return self.process.wait()

    def stop(self) -> None:
        """End the process and all that it started: by SIGTERM, and after two seconds by SIGKILL."""
        self.close_input()
        for number, seconds in ((signal.SIGTERM, GRACE), (signal.SIGKILL, None)):
            if self.process.poll() is not None:
                break
            with contextlib.suppress(ProcessLookupError, PermissionError):
                os.killpg(self.process.pid, number)
            with contextlib.suppress(subprocess.TimeoutExpired):
                self.process.wait(seconds)
        for reader in self.readers:
            reader.join(GRACE)
        for pipe in (self.process.stdout, self.process.stderr):
            if pipe is not None:
                with contextlib.suppress(OSError):
                    pipe.close()

    def __enter__(self) -> "Child":
        return self

    def __exit__(self, *_: object) -> None:
        self.stop()


class Lines:
    """Splits blocks of bytes into lines of text."""

    def __init__(self) -> None:
        self.rest = b""

    def add(self, block: bytes) -> list[str]:
        """Return the lines that a block completes."""
        *lines, self.rest = (self.rest + block).split(b"\n")
        return [line.decode("utf-8", "replace").rstrip("\r") for line in lines]

    def end(self) -> list[str]:
        """Return the last line, if it has no line end."""
        return [self.rest.decode("utf-8", "replace")] if self.rest else []
