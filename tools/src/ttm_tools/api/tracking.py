"""Progress of work in blocks."""

import sys
from types import TracebackType
from typing import Any

from ..core.settings import Progress, settings


class Tracker:
    """Reports how much of some work is done: to a callback, or by a bar on a terminal.

    Parameters
    ----------
    progress
        As `settings.progress`, which holds if it is None.
    total
        How much there is to do.
    unit
        What is counted.
    """

    def __init__(self, progress: Progress, total: int, unit: str) -> None:
        self.progress = settings.progress if progress is None else progress
        self.total, self.unit, self.done, self.bar = total, unit, 0, None

    def __enter__(self) -> "Tracker":
        if self.progress is True or self.progress is None and sys.stderr.isatty():
            from tqdm.auto import tqdm

            bar: Any = tqdm(total=self.total, unit=f" {self.unit}", delay=1, leave=False)
            self.bar = bar
        return self

    def advance(self, count: int) -> None:
        """Report that some more is done. An exception in a callback ends the work."""
        self.done += count
        if callable(self.progress):
            self.progress(self.done, self.total)
        elif self.bar is not None:
            self.bar.update(count)

    def __exit__(
        self, kind: type[BaseException] | None, error: BaseException | None, traceback: TracebackType | None
    ) -> None:
        if self.bar is not None:
            self.bar.close()
