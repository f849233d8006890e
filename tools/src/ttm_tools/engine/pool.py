"""Several `ttm --ask` processes with the same network. `conversation` has the protocol."""

import queue
import threading
from typing import Sequence

from ..core.errors import ArgumentError
from .arguments import Pathlike
from .conversation import Answer, Conversation
from .refusals import EngineError

# `ttm` requires a window on the command line; every question overrides it.
PLACEHOLDER_WINDOW = ("00:00", "00:00")


def ask_command(program: str, arguments: Sequence[str]) -> list[str]:
    """Return the command that starts a `ttm --ask` process."""
    return [program, *arguments, "--report", "--ask"]


class ProcessPool:
    """A fixed number of `ttm --ask` processes with the same network.

    The first process starts with the pool, the others when a question finds no idle one. A process that has ended is
    replaced when its next question comes. After a fork, the child starts processes of its own.

    Parameters
    ----------
    command
        The command that starts a process, see `ask_command`.
    size
        The number of processes, and so of questions that are answered at the same time.
    cwd
        The working directory of the processes; the current one by default.

    Raises
    ------
    OSError
        The first process cannot start.
    """

    def __init__(self, command: Sequence[str], size: int, cwd: Pathlike | None = None) -> None:
        self.cwd, self.command, self.lock, self.closed = cwd, list(command), threading.Lock(), False
        self.running: set[Conversation] = set()
        # One entry per process of the pool; None is a process that has not started. Last in, first out: an idle process
        # is taken before another one starts.
        self.idle: queue.LifoQueue[Conversation | None] = queue.LifoQueue()
        for _ in range(size - 1):
            self.idle.put(None)
        self.idle.put(self.start_process())

    def start_process(self) -> Conversation:
        """Start a process and register it for `close`."""
        with self.lock:
            if self.closed:
                raise ArgumentError("the network is closed")
            process = Conversation(self.command, self.cwd)
            self.running.add(process)
            return process

    def ask(self, arguments: Sequence[str]) -> Answer:
        """Send a question to an idle process and wait for the answer.

        Blocks while all processes are busy. Several threads may call it at once.

        Parameters
        ----------
        arguments
            The question: options and their values, as on the command line of `ttm`.

        Raises
        ------
        EngineError
            The process ended instead of answering, or broke the protocol.
        ArgumentError
            The pool was closed before or during the question, or an argument cannot be sent.
        """
        process = self.idle.get()
        try:
            if process is None or not process.is_usable:
                self.discard(process)
                # If the start fails, `finally` must return an empty entry to the pool, not the dead process.
                process = None
                process = self.start_process()
            return process.ask(arguments)
        except EngineError:
            if self.closed:
                raise ArgumentError("the network was closed during a question") from None
            raise
        finally:
            self.idle.put(process)

    def discard(self, process: Conversation | None) -> None:
        """End a process that cannot answer any more; None is accepted and ignored."""
        if process is not None:
            process.close()
            with self.lock:
                self.running.discard(process)

    def close(self) -> None:
        """End all processes. Questions that are under way fail with `ArgumentError`."""
        with self.lock:
            self.closed, running = True, list(self.running)
            self.running.clear()
        for process in running:
            process.close()
