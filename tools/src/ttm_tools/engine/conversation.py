"""A process of `ttm --ask`: it keeps a network, reads questions from its standard input, and answers each of them.

A question is a block of words, one on each line, ended by an empty line. An answer is a line `answer STATUS LENGTH`
and as many bytes: the matrix where the status is 0, else the line that a run would print.
"""

import contextlib
import os
import re
import signal
import subprocess
import threading
from collections import deque
from dataclasses import dataclass
from typing import IO, Any, Sequence

from ..core.errors import ArgumentError
from .arguments import Pathlike
from .refusals import EngineError, refusal_of, warnings_in

HEAD = re.compile(rb"answer ([0-9]{1,3}) ([0-9]{1,18})\n")
LONGEST_HEAD = 64  # bytes
LAST_LINES = 100  # of the standard error that are kept
SECONDS_TO_LISTEN = 0.05  # for the lines that a process prints before its first answer
SECONDS_TO_END = 1.0  # for a process whose input has ended, before it is killed


@dataclass(frozen=True)
class Answer:
    """What the process answers to a question."""

    status: int  # the exit status of a run with these words
    body: bytes  # the matrix at status 0, else the error line
    warnings: tuple[str, ...] = ()  # what the process has warned of since the answer before it


def block_of(arguments: Sequence[str]) -> bytes:
    """The bytes of a question. A word with a line end, or an empty one, has no place in it."""
    for word in arguments:
        if not word or "\n" in word:
            raise ArgumentError(f"a question has no word {word!r}")
    return b"".join(os.fsencode(word) + b"\n" for word in arguments) + b"\n"


class Conversation:
    """One process, which one thread asks at a time. A process that can't go on is ended, and says why by `EngineError`:
    then it is of no more use.
    """

    def __init__(self, arguments: Sequence[str], folder: Pathlike | None = None) -> None:
        self.owner = os.getpid()
        pipe = subprocess.PIPE
        # a session of its own, so that Ctrl-C reaches this process alone, which decides what becomes of the question
        how: dict[str, Any] = {"cwd": folder, "start_new_session": True}
        self.process = subprocess.Popen(arguments, stdin=pipe, stdout=pipe, stderr=pipe, **how)
        self.lines: deque[bytes] = deque(maxlen=LAST_LINES)
        self.warned, self.has_answered = set[str](), False
        self.listener = threading.Thread(target=listen, args=(self.process.stderr, self.lines), daemon=True)
        self.listener.start()

    @property
    def is_usable(self) -> bool:
        """Whether this process of Python may ask it: a fork of the one that began it may not."""
        return self.owner == os.getpid() and self.process.returncode is None

    def ask(self, arguments: Sequence[str]) -> Answer:
        """Asks a question and waits for its answer."""
        block = block_of(arguments)
        try:
            return self.answer(block)
        except BaseException:
            self.end(0)  # else the next question would get the rest of this answer
            raise

    def answer(self, block: bytes) -> Answer:
        pipe, answered = self.process.stdin, self.process.stdout
        assert pipe is not None and answered is not None
        try:
            pipe.write(block)
            pipe.flush()
            head = answered.readline(LONGEST_HEAD)
        except (OSError, ValueError):  # the pipe is broken, or closed by another thread
            raise self.fault() from None
        found = HEAD.fullmatch(head)
        if found is None and head.endswith(b"\n"):
            raise EngineError(f"ttm: no answer, but {head!r}", 4)
        length = int(found[2]) if found else 1
        body = answered.read(length) if found else b""
        if found is None or len(body) < length:
            raise self.fault()
        return Answer(int(found[1]), body, self.new_warnings())

    def new_warnings(self) -> tuple[str, ...]:
        """The warnings that no answer has had yet; what the process printed before its first answer is waited for."""
        if not self.has_answered:
            self.listener.join(SECONDS_TO_LISTEN)
        self.has_answered = True
        found = warnings_in(b"\n".join(self.lines.copy()))
        new = tuple(line for line in found if line not in self.warned)
        self.warned.update(new)
        return new

    def fault(self) -> EngineError:
        """Why the process ended, by its last lines."""
        status = self.end(SECONDS_TO_END)
        text = b"\n".join(self.lines)
        if status >= 0:
            return EngineError("\n".join(refusal_of(text, status)), status)
        name = signal.Signals(-status).name
        last = refusal_of(text, status)[0] if text else "nothing"
        return EngineError(f"ttm: ended by {name}, last line: {last.removeprefix('ttm: ')}", 128 - status)

    def end(self, seconds: float) -> int:
        """Ends the process, after some seconds by force, and gives its exit status."""
        close(self.process.stdin)
        try:
            status = self.process.wait(seconds) if seconds else self.process.poll()
        except subprocess.TimeoutExpired:
            status = None
        if status is None:
            self.process.kill()
            status = self.process.wait()
        self.listener.join(SECONDS_TO_END)
        return status

    def close(self) -> None:
        """Ends the process and gives back its pipes; of a fork only the pipes."""
        if self.owner == os.getpid():
            self.end(SECONDS_TO_END)
        else:
            close(self.process.stdin)
        close(self.process.stdout)


def close(pipe: IO[bytes] | None) -> None:
    """Closes a pipe, also one whose other end is closed already."""
    if pipe is not None:
        with contextlib.suppress(OSError):
            pipe.close()


def listen(errors: IO[bytes], lines: "deque[bytes]") -> None:
    """Keeps the last lines of a standard error, so that the process never waits for a reader."""
    with errors:
        for line in errors:
            lines.append(line.rstrip(b"\n"))
