"""The networks of all tabs of a browser. A network gets a number when it is first asked for, and never changes: a tab
that changes something goes on to another number, and the other tabs stay where they are.
"""

import json
import threading
from collections import OrderedDict
from typing import Callable

from ..core.errors import ArgumentError
from .changes import Values
from .latest_only import MOST_TABS
from .live_network import LiveNetwork

MOST_RUNNING = 4  # networks in memory; others begin again when they are asked for
FIRST = 1  # the number of the network without a person's changes
Changes = tuple[list[Values], int]  # the actions of a person, and the longest walk in seconds
Beginner = Callable[[int, list[Values], int], LiveNetwork]


class Networks:
    """Finds the network of a number, and gives up those that no tab needs. `begin` starts that of some changes."""

    def __init__(self, begin: Beginner, walk: int) -> None:
        self.begin = begin
        self.starting, self.noting = threading.Lock(), threading.Lock()  # one start at a time; the fields below
        self.changes: dict[int, Changes] = {FIRST: ([], walk)}
        self.numbers: dict[str, int] = {key_of([], walk): FIRST}
        self.running: OrderedDict[int, LiveNetwork] = OrderedDict()  # the one that answered last is at the end
        self.tabs: OrderedDict[str, tuple[int, int]] = OrderedDict()  # what each tab has, and what it has asked for

    def start(self, number: int, tab: str = "") -> LiveNetwork:
        """The network of a number, which begins where it isn't running."""
        if number not in self.changes:
            raise ArgumentError("the server does not know the network of this page: reload the page")
        with self.noting:
            self.note(tab, number)
            found = self.running.get(number)
        if found is not None:
            return found
        with self.starting:
            found = self.running.get(number)
            if found is None:
                found = self.begin(number, *self.changes[number])
                with self.noting:
                    self.running[number] = found
            return found

    def start_changed(self, tab: str, actions: list[Values], walk: int) -> LiveNetwork:
        """The network of a tab's changes, which the tab will ask next; the same changes have the same network."""
        key = key_of(actions, walk)
        with self.starting:
            number = self.numbers.get(key, len(self.changes) + 1)
            with self.noting:
                found = self.running.get(number)
            if found is None:
                found = self.begin(number, actions, walk)
            with self.noting:
                self.changes[number], self.numbers[key], self.running[number] = (actions, walk), number, found
                if tab:
                    self.tabs[tab] = (self.tabs.get(tab, (number, number))[0], number)
            return found

    def find(self, number: int) -> LiveNetwork | None:
        """The network of a number if it is running."""
        return self.running.get(number)

    def note(self, tab: str, number: int) -> None:
        """Notes that a tab asks a network. Called with `noting`."""
        if tab:
            has, wants = self.tabs.pop(tab, (number, number))
            self.tabs[tab] = (number, wants if has == number else number)
            while len(self.tabs) > MOST_TABS:
                self.tabs.popitem(last=False)

    def give_up(self, tab: str, number: int) -> list[LiveNetwork]:
        """Notes that a network has answered a tab, and takes out those that no tab needs, which the caller ends."""
        with self.noting:
            self.note(tab, number)
            if number in self.running:
                self.running.move_to_end(number)
            needed = {number, *(each for pair in self.tabs.values() for each in pair)}
            idle = [each for each in self.running if each not in needed]
            others = [each for each in self.running if each in needed and each != number]
            idle += others[: max(0, len(others) + 1 - MOST_RUNNING)]
            return [self.running.pop(each) for each in idle]


def key_of(actions: list[Values], walk: int) -> str:
    """A text that two networks share only if they have the same changes."""
    return json.dumps([actions, walk], sort_keys=True)
