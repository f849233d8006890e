"""Which destination is the nearest, or completes a larger count, from each origin: identifier, name and ties."""

from dataclasses import dataclass
from typing import Mapping, Sequence

import numpy as np

from ..core.arrays import Floats, Narrow, Seconds
from ..core.text import display_text
from ..gtfs.stops import Stops
from ..measures.access import completing


@dataclass(frozen=True)
class DestinationNames:
    """The destinations of a matrix, each with a name for people."""

    identifiers: Sequence[str]
    names: Sequence[str]


@dataclass(frozen=True)
class Ends:
    """The destinations that complete counts, by origin, opportunity and count; -1 where none does."""

    destinations: DestinationNames
    places: Narrow
    ties: Narrow  # how many other destinations have the same travel time

    def fields(self, at: tuple[int, ...]) -> list[object]:
        """Returns to_id, to_name and ties of one entry, empty where the count isn't reached."""
        place = int(self.places[at])
        if place < 0:
            return ["", "", ""]
        return [self.destinations.identifiers[place], self.destinations.names[place], int(self.ties[at])]


def destination_names(identifiers: Sequence[str], named: Mapping[str, str], stops: Stops | None) -> DestinationNames:
    """Names destinations by what names them first: `named`, the stops of a feed, and the identifier.

    Parameters
    ----------
    named
        Names by identifier, such as those in a file of opportunities.
    """
    known = {} if stops is None else dict(zip(stops.identifiers, stops.names))
    names = [named.get(name) or known.get(name) or display_text(name) for name in identifiers]
    return DestinationNames(identifiers, names)


def nearest_with_ends(seconds: Seconds, numbers: Floats, counts: Sequence[float]) -> Floats:
    """Returns seconds, destination and ties along the last axis: see `completing`."""
    places, found, ties = completing(seconds, numbers, counts)
    return np.stack([found, places.astype(np.float64), ties.astype(np.float64)], axis=-1)


def divided(found: Floats, destinations: DestinationNames) -> tuple[Floats, Ends]:
    """Returns the seconds of what `nearest_with_ends` found, and its destinations."""
    places, ties = (found[..., column].astype(np.int32) for column in (1, 2))
    return np.ascontiguousarray(found[..., 0]), Ends(destinations, places, ties)
