"""A run of `ttm` as a process."""

import ctypes
import signal
import subprocess
import sys
import tempfile
from pathlib import Path
from typing import IO, Any, Sequence

from .refusals import engine_error

PR_SET_PDEATHSIG = 1  # of Linux's prctl


def die_with_parent() -> None:
    """Let the calling process be killed when its parent ends."""
    if sys.platform == "linux":
        ctypes.CDLL(None).prctl(PR_SET_PDEATHSIG, signal.SIGKILL)


class EngineProcess:
    """A process of `ttm`, started by the constructor. Leaving its context kills it if it is still running.

    Parameters
    ----------
    command
        The program and its arguments.
    out
        The file for the matrix; None discards it.
    cwd
        The working directory.
    dies_with_parent
        Kill the process when this one ends, even by SIGKILL. Not for callers with other threads that fork.
    own_session
        Keep Ctrl-C on the terminal away from the process: the caller decides what becomes of it.
    """

    def __init__(
        self,
        command: Sequence[str],
        out: IO[bytes] | None = None,
        cwd: Path | None = None,
        *,
        dies_with_parent: bool = False,
        own_session: bool = False,
    ) -> None:
        self.errors = tempfile.TemporaryFile()
        how: dict[str, Any] = {"cwd": cwd, "start_new_session": own_session}
        if dies_with_parent:
            how["preexec_fn"] = die_with_parent
        try:
            stdout: int | IO[bytes] = subprocess.DEVNULL if out is None else out
            self.process: subprocess.Popen[bytes] = subprocess.Popen(command, stdout=stdout, stderr=self.errors, **how)
        except BaseException:
            self.errors.close()
            raise

    def is_over(self) -> bool:
        """Return whether the process has ended."""
        return self.process.poll() is not None

    def wait(self) -> int:
        """Wait for the end, and return the exit status."""
        return self.process.wait()

    def report(self) -> bytes:
        """Return what the process has printed on standard error."""
        self.errors.seek(0)
        return self.errors.read()

    def check(self) -> bytes:
        """Wait for the end, and return the report.

        Raises
        ------
        EngineError
            The exit status is not 0.
        """
        status = self.wait()
        if status != 0:
            raise engine_error(self.report(), status)
        return self.report()

    def stop(self) -> None:
        """Kill the process if it is still running, and release its report."""
        if not self.is_over():
            self.process.kill()
            self.process.wait()
        self.errors.close()

    def __enter__(self) -> "EngineProcess":
        return self

    def __exit__(self, *_: object) -> None:
        self.stop()
