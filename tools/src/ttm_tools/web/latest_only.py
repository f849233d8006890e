"""One question at a time, and of those that wait in a tab of a browser the latest alone."""

import contextlib
import threading
from collections import OrderedDict
from typing import Iterator

MOST_TABS = 1000  # whose latest question is remembered


class Superseded(Exception):
    """A later question of the same tab came while this one waited."""


class LatestOnly:
    """Lets one question through at a time, and only the latest of each tab."""

    def __init__(self) -> None:
        self.noting, self.passing = threading.Lock(), threading.Lock()
        self.latest: OrderedDict[str, int] = OrderedDict()  # the number of each tab's latest question

    @contextlib.contextmanager
    def turn(self, tab: str, number: int) -> Iterator[None]:
        """Waits for a turn; raises `Superseded` if a later question of the tab came meanwhile."""
        with self.noting:
            self.latest[tab] = max(number, self.latest.pop(tab, number))
            while len(self.latest) > MOST_TABS:
                self.latest.popitem(last=False)
        with self.passing:
            if self.latest.get(tab, number) > number:
                raise Superseded
            yield
