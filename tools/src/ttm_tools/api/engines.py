"""What a network of the interface stands on: a feed, streets, and the engine's networks that it keeps."""

import threading
from collections import OrderedDict
from collections.abc import Callable
from dataclasses import dataclass, field
from pathlib import Path

from ..core.errors import ArgumentError
from ..engine.network import EngineNetwork
from ..places.doors import PreparedFeed
from ..streets.osm import Streets

MOST_ENGINES = 4  # that are kept: of different places, dates or longest walks


@dataclass
class Engines:
    """The engine's networks that were used last, which any thread may ask."""

    kept: "OrderedDict[tuple[object, ...], EngineNetwork]" = field(default_factory=OrderedDict)
    lock: threading.Lock = field(default_factory=threading.Lock)
    is_closed: bool = False

    def of(self, key: tuple[object, ...], start: Callable[[], EngineNetwork]) -> EngineNetwork:
        """Return the network of a key, started now unless it is kept."""
        with self.lock:
            if self.is_closed:
                raise ArgumentError("the network is closed")
            if key not in self.kept:
                self.kept[key] = start()
            self.kept.move_to_end(key)
            old = [self.kept.popitem(last=False)[1] for _ in range(len(self.kept) - MOST_ENGINES)]
            found = self.kept[key]
        for engine in old:
            engine.close()
        return found

    def close(self) -> None:
        with self.lock:
            self.is_closed = True
            while self.kept:
                self.kept.popitem()[1].close()


@dataclass
class NetworkState:
    """What answers a network's questions.

    Attributes
    ----------
    feed
        The feed, with the scenario files that go with it.
    streets
        The streets, and the checksum of all that they depend on; None for straight walks.
    engines
        The engine's networks that were used last. A pickled state has none of them.
    program
        The program `ttm`; None takes that of the settings.
    """

    feed: PreparedFeed
    streets: tuple[Streets, str] | None
    engines: Engines = field(default_factory=Engines)
    program: Path | None = None

    def __getstate__(self) -> tuple[object, ...]:
        return self.feed, self.streets, self.program

    def __setstate__(self, state: tuple[PreparedFeed, tuple[Streets, str] | None, Path | None]) -> None:
        (self.feed, self.streets, self.program), self.engines = state, Engines()
