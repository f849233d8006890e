"""Threads for work that releases the interpreter lock, such as checksums and compression."""

import os
from collections import deque
from concurrent.futures import ThreadPoolExecutor
from itertools import islice
from typing import Callable, Iterable, Iterator, TypeVar

Item = TypeVar("Item")
Made = TypeVar("Made")
AHEAD = 2  # results per thread that may wait for the consumer; more would only take memory


def processors() -> int:
    """Return the number of processors that this process may use."""
    return len(os.sched_getaffinity(0))


def map_in_order(work: Callable[[Item], Made], items: Iterable[Item], threads: int) -> Iterator[Made]:
    """Yield `work(item)` for each item, in their order, computed a few items ahead by several threads."""
    coming = iter(items)
    with ThreadPoolExecutor(threads) as pool:
        begun = deque(pool.submit(work, item) for item in islice(coming, AHEAD * threads))
        while begun:
            first = begun.popleft()
            begun.extend(pool.submit(work, item) for item in islice(coming, 1))
            yield first.result()
