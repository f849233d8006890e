"""The parts of windows, computed by a network in memory: `ttm --ask` reads the feed of a day once."""

import contextlib
import os
import time
from concurrent.futures import Future, ThreadPoolExecutor
from dataclasses import dataclass, replace
from pathlib import Path
from typing import Callable, Sequence

from ...core.files import aside_name
from ...engine.arguments import EngineArguments, program_at
from ...engine.conversation import Answer
from ...engine.pool import PLACEHOLDER_WINDOW, ProcessPool, ask_command
from ...engine.refusals import EngineError, error_line
from ..parts import Part, PartLayout
from ..stages import fsync
from ..ttm import with_origins
from .local import Failed, Pool, failed_of, missing_of

OF_THE_NETWORK = ("--feed", "--date", "--walk", "--back", "--ahead", "--footpaths")  # the others are of a question


def kept_arguments(run: EngineArguments) -> list[str]:
    """The words of the network, which all questions of its day share."""
    files = {name: path for name, path in run.files.items() if name == "footpaths"}
    back, ahead, paths = run.back, run.ahead, run.scenarios
    window = PLACEHOLDER_WINDOW
    kept = EngineArguments(
        run.feed, run.date, window, 4, run.walk, scenarios=paths, back=back, ahead=ahead, files=files
    )
    return kept.arguments()


def question_of(run: EngineArguments) -> list[str]:
    arguments = replace(run, scenarios=()).arguments()
    pairs = zip(arguments[::2], arguments[1::2])
    return [word for pair in pairs if pair[0] not in OF_THE_NETWORK for word in pair]


@dataclass(frozen=True)
class PartQuestion:
    part: Part
    arguments: list[str]


class PendingAnswer:
    """A question that a thread asks: the matrix of its answer gets its name at the `end`."""

    def __init__(self, part: Part, future: "Future[Answer]", stop: Callable[[], None]) -> None:
        self.part, self.future, self.stop, self.begin = part, future, stop, time.monotonic()

    def is_over(self) -> bool:
        return self.future.done()

    def end(self) -> str | None:
        """Gives the matrix its final name, and returns None; if there is no matrix, returns the line of the answer."""
        try:
            answer = self.future.result()
        except EngineError as fault:
            answer = Answer(fault.status, fault.line.encode("utf-8", "replace"))
        if answer.status != 0:
            return error_line(answer.body, answer.status)
        aside = aside_name(self.part.matrix)
        aside.write_bytes(answer.body)
        fsync(aside)
        os.replace(aside, self.part.matrix)
        return None


class KeptNetwork(Pool, contextlib.AbstractContextManager["KeptNetwork"]):
    """The network of a day: its processes begin in the study's folder with the first question, and end with the
    block.
    """

    def __init__(self, run: EngineArguments, study: Path) -> None:
        super().__init__(run, (), 1, 1)
        self.study, self.question = study, run
        self.pool: ProcessPool | None = None

    def __exit__(self, *_: object) -> None:
        if self.pool is not None:
            self.pool.close()

    def run_parts(self, run: EngineArguments, parts: Sequence[Part], layout: PartLayout) -> list[Failed]:
        """Asks for the parts of a window that aren't done, as `run_parts` runs them."""
        missing = missing_of(parts)
        if missing and self.pool is None:
            command = ask_command(program_at(self.run.program), kept_arguments(self.run))
            self.pool = ProcessPool(command, layout.at_once, self.study)
        self.question, self.at_once, self.threads = run, layout.at_once, layout.threads
        self.waiting = list(reversed(missing))
        with ThreadPoolExecutor(layout.at_once) as self.executor:
            return failed_of(self)

    def begun(self, part: Part) -> PendingAnswer:
        arguments = question_of(with_origins(self.question, part.origins_name, self.threads))
        return PendingAnswer(part, self.executor.submit(self.ask, PartQuestion(part, arguments)), self.__exit__)

    def ask(self, question: PartQuestion) -> Answer:
        assert self.pool is not None
        return self.pool.ask(question.arguments)

    def tell(self) -> None:
        """Says nothing while parts go on: the network is read already."""
