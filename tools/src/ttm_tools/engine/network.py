"""A network of the engine, kept in memory by `ttm --ask` processes, and the files of its questions."""

import contextlib
import datetime
import os
import shlex
import tempfile
import weakref
from collections.abc import Iterable, Iterator, Mapping, Sequence
from dataclasses import dataclass, field
from pathlib import Path
from typing import Any

from ..core.errors import ArgumentError
from ..core.files import remove
from ..core.logs import logger
from ..core.tables import RoundingCounter
from .arguments import EngineArguments, Pathlike, program_at
from .conversation import Answer
from .inputs import write_inputs
from .pool import PLACEHOLDER_WINDOW, ProcessPool, ask_command
from .refusals import EngineError, refusal_of


@dataclass(frozen=True)
class NetworkFiles:
    """What a network of the engine is read from.

    Attributes
    ----------
    feed
        The folder of an unpacked GTFS feed.
    date
        The service date.
    walk
        The longest walk, in seconds.
    scenarios
        Scenario files, each of which becomes a scenario next to `base`.
    footpaths
        Walking links in addition to those of `transfers.txt`: a file, or triples of two stops and seconds.
    days
        The number of service days before and after `date` whose trips run.
    """

    feed: Pathlike
    date: str | datetime.date
    walk: int
    scenarios: Sequence[Pathlike] = ()
    footpaths: Pathlike | Iterable[tuple[str, str, float]] | None = None
    days: tuple[int, int] = (1, 1)


@dataclass(frozen=True)
class Answered:
    """The answer to a question, as a matrix in a file that lasts as long as the block of `EngineNetwork.ask`."""

    matrix: Path
    warnings: tuple[str, ...]
    rounded: RoundingCounter


@dataclass
class EngineNetwork:
    """Processes that keep one network and answer questions about it. Several threads may share them.

    The first question waits for the feed to be read, so it raises the errors of the feed. The processes end with
    `close`, or with the interpreter; a fork has none of them.

    Raises
    ------
    ArgumentError
        `processes` is below 1.
    MissingDependencyError
        There is no `ttm` executable.
    """

    files: NetworkFiles
    processes: int = 1
    program: Pathlike | None = None
    rounded: RoundingCounter = field(default_factory=RoundingCounter)

    def __post_init__(self) -> None:
        if self.processes < 1:
            raise ArgumentError(f"workers={self.processes}: at least one process is needed")
        executable = program_at(self.program)
        self.folder = Path(tempfile.mkdtemp(prefix=f"ttm-tools-network.{os.getpid()}."))
        try:
            command = ask_command(executable, self.arguments())
            logger.debug("%s", shlex.join(map(str, command)))
            self.pool = ProcessPool(command, self.processes)
        except BaseException:
            remove(self.folder)
            raise
        # A finalizer rather than __del__: it also runs when the interpreter exits.
        self.finalizer = weakref.finalize(self, release, self.pool, self.folder, os.getpid())

    def arguments(self) -> list[str]:
        """Return the arguments of a process, with absolute paths: it keeps its folder when the caller's changes."""
        own = self.files
        given = write_inputs(self.folder, self.rounded, footpaths=own.footpaths)
        return EngineArguments(
            os.path.abspath(own.feed),
            own.date,
            PLACEHOLDER_WINDOW,
            walk=own.walk,
            scenarios=[os.path.abspath(path) for path in own.scenarios],
            back=own.days[0],
            ahead=own.days[1],
            files={option: os.path.abspath(path) for option, path in given.items()},
        ).arguments()

    @contextlib.contextmanager
    def ask(self, options: Mapping[str, object], files: Mapping[str, Any]) -> Iterator[Answered]:
        """Ask a question, and yield its matrix.

        Parameters
        ----------
        options
            Values by the names of `ttm`'s options, without dashes.
        files
            What `write_inputs` takes: origins, destinations, opportunities.

        Raises
        ------
        EngineError
            `ttm` refused the feed or the question.
        ArgumentError
            The network is closed.
        """
        rounded = RoundingCounter()
        with self.question_folder() as folder:
            paths = {name: os.path.abspath(path) for name, path in write_inputs(folder, rounded, **files).items()}
            answer = self.answer({**options, **paths})
            path = folder / "matrix.csv"
            path.write_bytes(answer.body)
            yield Answered(path, answer.warnings, rounded)

    def answer(self, options: Mapping[str, object]) -> Answer:
        """Send the words of a question, and return the answer to it."""
        answer = self.pool.ask([word for name, value in options.items() for word in (f"--{name}", str(value))])
        if answer.status != 0:
            raise EngineError("\n".join(refusal_of(answer.body, answer.status)), answer.status)
        return answer

    @contextlib.contextmanager
    def question_folder(self) -> Iterator[Path]:
        """Create a folder for the files of one question, and remove it afterwards."""
        if not self.finalizer.alive:
            raise ArgumentError("the network is closed")
        try:
            folder = Path(tempfile.mkdtemp(dir=self.folder))
            try:
                yield folder
            finally:
                remove(folder)
        except OSError:
            # Another thread's `close` removes the folder, so its files may be missing.
            if self.finalizer.alive:
                raise
            raise ArgumentError("the network was closed during a question") from None

    def close(self) -> None:
        """End the processes and remove the temporary files. Closing twice is allowed."""
        self.finalizer()


def release(pool: ProcessPool, folder: Path, owner: int) -> None:
    """End the processes of a network and remove its folder.

    Does nothing in a fork of the process that created the network: they belong to the parent (`owner`, its process id).
    """
    if os.getpid() == owner:
        pool.close()
        remove(folder)
