"""The parts of a study, run by processes of this machine: those that are missing, several at once."""

import contextlib
import itertools
import signal
import sys
import threading
import time
from dataclasses import dataclass
from types import FrameType
from typing import Callable, Generator, Iterator, Protocol, Sequence

from ...core import progress
from ...core.console import say
from ...core.errors import InputError
from ...core.signals import Interrupted
from ...core.text import quantity
from ...engine.arguments import EngineArguments
from ..parts import Part
from ..stages import log
from ..ttm import Running, with_origins

SECONDS_BETWEEN_LOOKS = 0.02
SECONDS_BETWEEN_LINES = 60.0


class PartRun(Protocol):
    """A part that is being computed."""

    begin: float  # of the monotonic clock, seconds

    def is_over(self) -> bool:
        """Whether `end` returns at once."""

    def end(self) -> str | None:
        """Give the matrix its name; returns the error line if there is none."""

    def stop(self) -> None:
        """End the computation and remove what it wrote."""


@dataclass(frozen=True)
class Failed:
    """A part that has no matrix, and why."""

    part: Part
    message: str


def run_parts(run: EngineArguments, parts: Sequence[Part], at_once: int, threads: int) -> list[Failed]:
    """Computes the parts that aren't done; one that fails is reported at once, and the others go on. After the first
    Ctrl-C no more parts begin, and those that run are kept.
    """
    return failed_of(Pool(run, missing_of(parts), at_once, threads))


def failed_of(pool: "Pool") -> list[Failed]:
    """What fails of the parts that wait in a pool, once none of them waits any more."""
    failed, total = list[Failed](), len(pool.waiting)
    with ends_gently(pool.end), contextlib.closing(ends_of(pool)) as ended:
        for outcome in shown(ended, total):
            if outcome is not None:
                failed.append(outcome)
                say(f"part {outcome.part.number}: {outcome.message}")
    if pool.is_ending:
        raise Interrupted(signal.SIGINT)
    return failed


def missing_of(parts: Sequence[Part]) -> list[Part]:
    """The parts that aren't done; where some are, this is reported."""
    missing = [part for part in parts if not part.is_done()]
    if len(parts) > len(missing) > 0:
        say(f"parts: {len(parts) - len(missing)} of {len(parts)} already done")
    return missing


def log_ending(count: int) -> None:
    """Says what Ctrl-C does with the running parts."""
    if count:
        parts = quantity(count, "running part")
        say(f"interrupted: waiting for {parts}, which will be kept; Ctrl-C again stops at once")


class Pool:
    """The runs under way, a fixed number at once, and the parts that wait for theirs."""

    def __init__(self, run: EngineArguments, missing: Sequence[Part], at_once: int, threads: int) -> None:
        self.run, self.at_once, self.threads = run, at_once, threads
        self.waiting = list(reversed(missing))
        self.said = time.monotonic()
        self.running: dict[int, tuple[Part, PartRun]] = {}
        self.is_ending = False  # after Ctrl-C: no more parts begin
        self.has_said_so = False

    @property
    def goes_on(self) -> bool:
        return bool(self.running) or (bool(self.waiting) and not self.is_ending)

    def fill(self) -> None:
        """Begins as many runs as there is room for."""
        while self.waiting and len(self.running) < self.at_once and not self.is_ending:
            part = self.waiting.pop()
            part.begin()
            self.running[part.number] = (part, self.begun(part))
        if self.is_ending and self.running and not self.has_said_so:
            self.has_said_so = True
            log_ending(len(self.running))

    def begun(self, part: Part) -> PartRun:
        return Running(with_origins(self.run, part.origins_name, self.threads), part.matrix, part.study)

    def over(self) -> list[tuple[Part, PartRun]]:
        """The runs that are over, after a while."""
        numbers = [number for number, (_, process) in self.running.items() if process.is_over()]
        if numbers:
            self.said = time.monotonic()
        else:
            time.sleep(SECONDS_BETWEEN_LOOKS)
            self.tell()
        return [self.running.pop(number) for number in numbers]

    def tell(self) -> None:
        """Without a terminal, says once a minute that parts are running, if none has ended since."""
        if not sys.stderr.isatty() and time.monotonic() - self.said > SECONDS_BETWEEN_LINES:
            self.said = time.monotonic()
            say(f"parts: {len(self.running)} running, {len(self.waiting)} waiting")

    def end(self) -> None:
        self.is_ending = True

    def stop(self) -> None:
        for _, process in self.running.values():
            process.stop()


@contextlib.contextmanager
def ends_gently(begin_no_more: Callable[[], None]) -> Iterator[None]:
    """Has the first Ctrl-C begin no more parts, and the second one do what it does elsewhere."""
    before = signal.getsignal(signal.SIGINT)
    if threading.current_thread() is not threading.main_thread() or before is signal.SIG_IGN:
        yield
        return

    def end(_: int, __: FrameType | None) -> None:
        signal.signal(signal.SIGINT, before)
        begin_no_more()

    signal.signal(signal.SIGINT, end)
    try:
        yield
    finally:
        if signal.getsignal(signal.SIGINT) is end:
            signal.signal(signal.SIGINT, before)


def ends_of(pool: Pool) -> Generator[Failed | None, None, None]:
    """Yields the outcome of each part as it ends; if the caller stops early, the running parts are ended."""
    try:
        while pool.goes_on:
            pool.fill()
            yield from itertools.starmap(ended, pool.over())
    finally:
        pool.stop()


def ended(part: Part, running: PartRun) -> Failed | None:
    """Notes a part whose run is over."""
    message = running.end()
    if message is not None:
        return Failed(part, message)
    part.finish()
    log(part.study, "part", part.folder.name, round(time.monotonic() - running.begin, 3))
    return None


def shown(ended: Iterator[Failed | None], total: int) -> Iterator[Failed | None]:
    """Yields the parts as they end, and shows how many are done and how long the others will take.

    A terminal has a progress bar, other outputs at most one line a minute.
    """
    if sys.stderr.isatty():
        yield from progress.track(ended, total, "parts", "parts")
        return
    begin = last = time.monotonic()
    for count, outcome in enumerate(ended, 1):
        yield outcome
        now = time.monotonic()
        if count < total and now - last > SECONDS_BETWEEN_LINES:
            last = now
            left = int((now - begin) / count * (total - count))
            say(f"parts: {count} of {total}, about {left // 3600}:{left // 60 % 60:02}:{left % 60:02} left")


def refuse_failed(failed: Sequence[Failed], parts: int) -> None:
    """Ends a study some of whose parts have no matrix."""
    if failed:
        first = failed[0]
        message = f"{len(failed):,} of {quantity(parts, 'part')} have no matrix; the same command retries them"
        raise InputError(first.part.folder, f"{first.message} ({message})")
