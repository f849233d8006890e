"""Work in parts on any `concurrent.futures.Executor`: a process pool, Dask's, or that of mpi4py."""

import contextlib
from collections import deque
from collections.abc import Callable, Iterator, Sequence
from concurrent.futures import BrokenExecutor, Executor, Future
from typing import TypeVar

from ..core.errors import TtmError
from ..engine.refusals import EngineError

Item = TypeVar("Item")
Made = TypeVar("Made")
AHEAD = 64  # parts that are under way at once
TRIES = 3  # of a part whose worker is lost


def in_parts(executor: Executor, work: Callable[[Item], Made], items: Sequence[Item]) -> Iterator[Made]:
    """Yield `work(item)` for each item, in their order. A part whose worker is lost is tried again.

    Raises
    ------
    TtmError
        What a worker raised about the question itself; it is not tried again.
    EngineError
        A part failed again and again, or all workers are gone.
    """
    waiting: deque[tuple[Item, Future[Made]]] = deque()
    coming = iter(items)
    try:
        for item in coming:
            waiting.append((item, executor.submit(work, item)))
            if len(waiting) == AHEAD:
                break
        while waiting:
            item, future = waiting.popleft()
            yield result_of(executor, work, item, future)
            for item in coming:
                waiting.append((item, executor.submit(work, item)))
                break
    finally:
        for _, future in waiting:
            with contextlib.suppress(Exception):
                future.cancel()


def result_of(executor: Executor, work: Callable[[Item], Made], item: Item, future: "Future[Made]") -> Made:
    """Return the result of a part, tried again if its worker was lost."""
    for attempt in range(1, TRIES + 1):
        try:
            return future.result()
        except TtmError:
            raise
        except BrokenExecutor as error:
            raise EngineError(f"ttm: the executor has lost its workers: {error}", 4) from error
        except Exception as error:  # of whatever kind the executor has for a worker that is gone
            if attempt == TRIES:
                raise EngineError(f"ttm: a part failed {TRIES} times: {type(error).__name__}: {error}", 4) from error
            future = executor.submit(work, item)
    raise AssertionError("unreachable")
