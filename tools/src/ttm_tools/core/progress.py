"""Progress, as bars for people or as lines of JSON for programs."""

import importlib.util
import json
import sys
from typing import Iterable, Iterator, TypeVar

Item = TypeVar("Item")
MOST_LINES = 200  # of JSON for one loop
_as_json = False


def print_json(is_on: bool = True) -> None:
    """Choose whether progress is printed as lines of JSON, instead of bars."""
    global _as_json
    _as_json = is_on


def report(done: int, total: int, what: str) -> None:
    """Print that some of all steps are done, if progress is printed as JSON.

    Parameters
    ----------
    done, total
        The number of steps that are done, and of all.
    what
        What is counted, in the plural.
    """
    if _as_json:
        print(json.dumps({"done": done, "total": total, "what": what}), file=sys.stderr, flush=True)


def reported(items: Iterable[Item], total: int, what: str) -> Iterator[Item]:
    """Yield the items; if progress is printed as JSON, print before the first and after each how many are done.

    Of a long loop only some lines are printed. If `total` was estimated, the last line corrects it.
    """
    if not _as_json:
        yield from items
        return
    total = max(total, 1)
    step, count = max(total // MOST_LINES, 1), 0
    report(0, total, what)
    for item in items:
        yield item
        count += 1
        if count == total or count < total and count % step == 0:
            report(count, total, what)
    if count != total:
        report(max(count, total), max(count, total), what)


def track(items: Iterable[Item], total: int, what: str, unit: str) -> Iterator[Item]:
    """Yield the items, with a progress bar on a terminal after the first second, or with lines of JSON.

    Nothing is shown if standard error is not a terminal, or tqdm is not installed; as JSON if there is a single item.
    """
    if _as_json and total > 1:
        yield from reported(items, total, what)
        return
    if _as_json or not sys.stderr.isatty() or importlib.util.find_spec("tqdm") is None:
        yield from items
        return
    from tqdm import tqdm

    yield from tqdm(items, total=total, desc=what, unit=f" {unit}", delay=1, leave=False, dynamic_ncols=True)
