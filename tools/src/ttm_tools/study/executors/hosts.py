"""The parts of a study on hosts that are reached by ssh, by GNU parallel."""

import contextlib
import csv
import os
import signal
import subprocess
from typing import Any, Sequence

from ...core.console import say
from ...core.errors import needs_program
from ..parts import PARTS, Part
from .task import SCRIPT

LOG = f"{PARTS}/log"


def command(folder: str) -> str:
    """What parallel has a shell do for a part in a folder. The folder's name is written by its bytes, so that neither
    parallel, nor ssh, nor a shell finds anything in it.
    """
    name = "".join(f"\\{byte:03o}" for byte in os.fsencode(f"{folder}/."))
    return f"""sh -c 'cd "$(printf "{name}")" && exec sh {SCRIPT} {{}}'"""


class Hosts(contextlib.AbstractContextManager["Hosts"]):
    """GNU parallel at work on some parts. It has a session of its own, so that Ctrl-C reaches this process alone; what
    runs is ended with the block.
    """

    def __init__(self, missing: Sequence[Part], hosts: str, options: Sequence[str]) -> None:
        needs_program("parallel", "parallel")
        own = ["parallel", "--sshlogin", hosts, "--joblog", LOG, *options]
        study = missing[0].study
        called = [*own, command(str(study.resolve())), ":::", *[str(part.number) for part in missing]]
        self.log, self.missing, self.is_ending, self.has_said_so = study / LOG, missing, False, False
        self.log.unlink(missing_ok=True)
        with open(study / PARTS / "hosts.txt", "wb") as file:
            how: dict[str, Any] = {"cwd": study, "stdin": subprocess.DEVNULL, "stdout": file, "stderr": file}
            self.process = subprocess.Popen(called, **how, start_new_session=True)

    def end(self) -> None:
        """Has no more parts begin; those that run go on."""
        self.is_ending = True
        self.process.send_signal(signal.SIGHUP)

    def is_over(self) -> bool:
        if self.is_ending and not self.has_said_so:
            self.has_said_so = True
            say("interrupted: waiting for the running parts, which will be kept; Ctrl-C again stops at once")
        return self.process.poll() is not None

    def may_come(self, parts: Sequence[Part]) -> list[Part]:
        """The parts whose files may still come from other hosts once parallel is over: after Ctrl-C those that were
        done.
        """
        return [part for part in parts if not self.is_ending or part.number in self.done()]

    def done(self) -> set[int]:
        """The numbers of the parts that are done, by the log of parallel; none if it can't be read."""
        with contextlib.suppress(OSError, KeyError, ValueError, IndexError):
            lines = self.log.read_text(encoding="utf-8", errors="replace").splitlines()
            ended = list(csv.DictReader(lines, delimiter="\t", quoting=csv.QUOTE_NONE))
            return {self.missing[int(row["Seq"]) - 1].number for row in ended if row["Exitval"] == "0"}
        return set()

    def __exit__(self, *_: object) -> None:
        if self.process.poll() is None:
            self.process.terminate()
            self.process.wait()
