"""Signals: they unwind a command, so that unfinished files are removed, and wait while files are renamed."""

import contextlib
import signal
import threading
from types import FrameType
from typing import Iterator, NoReturn

ENDING = [  # signals that end a process by default, and that it can handle
    getattr(signal, name)
    for name in "SIGHUP SIGINT SIGQUIT SIGALRM SIGTERM SIGUSR1 SIGUSR2 SIGVTALRM SIGPROF SIGXCPU SIGIO SIGPWR".split()
    if hasattr(signal, name)
]


_reason: str | None = None


class Interrupted(BaseException):
    """A signal ended the command, or another cause that is reported as one."""

    def __init__(self, number: int, reason: str | None = None) -> None:
        self.number, self.reason = number, reason
        super().__init__(reason or f"ended by {signal.Signals(number).name}")

    def __reduce__(self) -> tuple[type["Interrupted"], tuple[int, str | None]]:
        return Interrupted, (self.number, self.reason)

    @property
    def exit_status(self) -> int:
        return 128 + self.number


def give_reason(reason: str) -> None:
    """Set why the next signal ends this process, which its message says instead of the signal's name."""
    global _reason
    _reason = reason


def unwind_on_signals() -> None:
    """Raise `Interrupted` on the first signal that would end this process, and ignore later ones.

    Signals that are already ignored, such as SIGHUP under nohup, stay ignored.
    """

    def unwind(number: int, _: FrameType | None) -> NoReturn:
        for other in ENDING:
            signal.signal(other, signal.SIG_IGN)
        raise Interrupted(number, _reason)

    for number in ENDING:
        if signal.getsignal(number) is not signal.SIG_IGN:
            signal.signal(number, unwind)


@contextlib.contextmanager
def no_signals() -> Iterator[None]:
    """Block signals while several files get their names; they are delivered when the block ends."""
    if threading.current_thread() is not threading.main_thread():
        yield
        return
    before = signal.pthread_sigmask(signal.SIG_BLOCK, ENDING)
    try:
        yield
    finally:
        signal.pthread_sigmask(signal.SIG_SETMASK, before)
