"""Runs of `ttm-tools`: one JSON object comes back, progress and warnings go to the log of the algorithm."""

from __future__ import annotations

import json
import shlex
from dataclasses import dataclass
from typing import Any, Mapping

from qgis.core import QgsProcessingException

from .children import ERR, Child, Lines
from .programs import Programs, environment

OWN_WARNINGS = ("unreachable", "repaired")  # the algorithms name the user's places, and the file of repairs
HELPS = {  # what the user can do about an error, by a text in its line
    "walks are more than": "Use a shorter longest walk, or fewer places.",
    "footpaths": "Use a shorter longest walk, or fewer places.",
    "more than 65,535": "Use fewer places, larger cells, or clip the feed with *Prepare a feed*.",
}


@dataclass(frozen=True)
class Progress:
    """A part of the progress bar, in percent."""

    feedback: Any
    low: float
    high: float

    def at(self, done: float, total: float) -> None:
        """Show how much of the part is done."""
        share = min(1.0, done / total) if total else 1.0
        self.feedback.setProgress(self.low + (self.high - self.low) * share)

    def part(self, done: int, total: int) -> "Progress":
        """Return the part of the next of several equal steps."""
        step = (self.high - self.low) / total
        return Progress(self.feedback, self.low + step * done, self.low + step * (done + 1))


class Stages:
    """The progress of a command that counts from 0 in each of its stages, whose number is not known in advance.

    Each stage gets a third of what is left, so the bar never goes back.
    """

    def __init__(self, progress: Progress) -> None:
        self.progress, self.stage = progress, ""
        self.low = self.current = 0.0

    def at(self, step: Mapping[str, Any]) -> None:
        """Show a step, such as {"done": 3, "total": 10, "what": "cubes"}."""
        if step.get("what", "") != self.stage:
            self.stage, self.low = step.get("what", ""), self.current
        share = min(1.0, step["done"] / step["total"]) if step["total"] else 1.0
        self.current = max(self.current, self.low + (1 - self.low) / 3 * share)
        self.progress.at(self.current, 1)


class Tools:
    """The program `ttm-tools`, for one run of an algorithm.

    Parameters
    ----------
    programs
        Both programs; `ttm-tools` runs the engine that stands here, not another one.
    feedback
        The log, the progress and the Cancel button.
    """

    def __init__(self, programs: Programs, feedback: Any) -> None:
        self.programs = programs
        self.feedback = feedback

    def run(self, progress: Progress, *words: object) -> dict[str, Any]:
        """Run a command, and return its JSON object, after its warnings went to the log.

        Raises
        ------
        QgsProcessingException
            The command failed: its line, and what helps.
        Cancelled
            The user pressed Cancel.
        """
        status, out, last = self.printed(progress, *words, "--json", "--progress", "json")
        try:
            found = json.loads(out or b"{}")
        except ValueError:
            raise QgsProcessingException(f"ttm-tools printed no JSON: {last or out[:200]!r}") from None
        if status:
            raise QgsProcessingException(sentence(found.get("error") or {}, last, status))
        self.warn(found)
        return dict(found)

    def warn(self, found: Mapping[str, Any]) -> None:
        """Show the warnings of a command's object, except those for which algorithms have their own."""
        for warning in found.get("warnings") or []:
            if warning.get("kind") not in OWN_WARNINGS:
                self.feedback.pushWarning(warning["text"])

    def command(self, progress: Progress, *words: object) -> None:
        """Run a command that prints no JSON.

        Raises
        ------
        QgsProcessingException, Cancelled
            As `run`.
        """
        status, _, last = self.printed(progress, *words)
        if status:
            raise QgsProcessingException(sentence({}, last, status))
        progress.at(1, 1)

    def printed(self, progress: Progress, *words: object) -> tuple[int, bytes, str]:
        """Run a command; returns its exit status, what it printed, and the last line of its standard error."""
        command = [self.programs.tools, *map(str, words)]
        self.feedback.pushCommandInfo(shlex.join(command))
        out, lines, last, stages = bytearray(), Lines(), "", Stages(progress)
        with Child(command, self.feedback, environment({"TTM_PROGRAM": self.programs.engine})) as child:
            for name, block in child.output():
                if name != ERR:
                    out += block
                    continue
                for line in lines.add(block):
                    last = self.note(stages, line) or last
            for line in lines.end():
                last = self.note(stages, line) or last
            return child.status(), bytes(out), last

    def note(self, stages: Stages, line: str) -> str:
        """Show a line of standard error: progress as progress, another line in the log. Returns the latter."""
        if line.startswith("{"):
            try:
                stages.at(json.loads(line))
                return ""
            except (ValueError, KeyError, TypeError):
                pass
        if line:
            self.feedback.pushConsoleInfo(line)
        return line


def sentence(error: Mapping[str, Any], last: str, status: int) -> str:
    """Return one line for people from the JSON of an error, or from the last line of a command that printed none."""
    line = str(error.get("line") or last or f"ttm-tools ended with status {status}")
    if error.get("file") and error.get("record") and error.get("column"):
        value = f'column {error["column"]} is "{error.get("value") or ""}"'
        line = f'{error["file"]}, record {error["record"]}: {value}'
        line += f'; {error["allowed"]}' if error.get("allowed") else ""
    return with_help(line)


def with_help(line: str) -> str:
    """Add what the user can do to an error's line."""
    for text, help_text in HELPS.items():
        if text in line and help_text not in line:
            return f"{line.rstrip('.')}. {help_text}"
    return line
