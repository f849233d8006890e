"""The streets of a page, for the walks from its stops; `web/assets/map/streets.js` searches them."""

from dataclasses import dataclass
from typing import Iterator

import numpy as np
import numpy.typing as npt

from ...core.walking import Walking
from ...gtfs.stops import Stops
from ...streets.osm import read_streets
from ...streets.router import Router
from ...streets.walks import points_of
from .parts import Element, part
from .places import MICRO, ranks

MOST_NODES = 600_000  # that a page takes, some 6 MB
ASIDE = 50  # metres to both sides of a street that one reaches; the command isochrones has squares of 100
NO_NODE = -1
Numbers = npt.NDArray[np.int32]


@dataclass(frozen=True)
class PageStreets:
    """Nodes of streets, neighbours together, and one-way connections by the nodes at which they begin."""

    degrees: Numbers  # latitude and longitude of each node in millionths of a degree
    begin: Numbers  # of each connection, ascending
    end: Numbers
    at: Numbers  # the node of each place of the page, NO_NODE for none
    beside: npt.NDArray[np.float32]  # metres from each place to its node
    speed: float  # metres a second

    def parts(self) -> Iterator[Element]:
        yield part("street-nodes", np.diff(self.degrees, axis=0, prepend=np.zeros((1, 2), np.int32)))
        yield part("street-counts", np.bincount(self.begin, minlength=len(self.degrees)).astype(np.uint16))
        yield part("street-ends", self.end - self.begin)
        yield part("street-at", self.at)
        yield part("street-beside", self.beside)


def page_streets(path: str, places: Stops, columns: Numbers, walking: Walking, near: float) -> PageStreets | None:
    """The streets within a walk of the columns' places that are drawn as marks; None if no place is."""
    are_areas = np.array([name in places.areas for name in places.identifiers], dtype=np.bool_)
    is_cell = (places.sides()[:, 0] > 0) | are_areas
    bare = [column for column in columns.tolist() if places.placed[column] and not is_cell[column]]
    if not bare:
        return None
    positions = points_of(places.latitudes[bare], places.longitudes[bare])
    return within_walks(Router(read_streets(path), positions, walking, near), places, bare)


def within_walks(router: Router, places: Stops, bare: list[int]) -> PageStreets:
    """The streets that one reaches from some places within the longest walk."""
    walking, graph = router.walking, router.graph
    source, target = graph.source, graph.target
    walked = router.within(np.full(len(bare), walking.max_seconds * walking.speed))[source] > 0
    begin, end = source[walked], target[walked]
    nodes = np.unique(np.concatenate([begin, end]))
    longitudes, latitudes = router.degrees.T
    nodes = nodes[np.argsort(ranks(latitudes[nodes], longitudes[nodes]), kind="stable")]
    number = np.full(len(latitudes), NO_NODE, np.int32)
    number[nodes] = np.arange(len(nodes))
    order = np.lexsort((number[end], number[begin]))
    degrees = np.rint(np.stack([latitudes[nodes], longitudes[nodes]], axis=1) * MICRO)
    at, beside = np.full(len(places.names), NO_NODE, np.int32), np.zeros(len(places.names), np.float32)
    at[bare] = number[router.first :]
    beside[bare] = router.connectors
    return PageStreets(degrees.astype(np.int32), number[begin][order], number[end][order], at, beside, walking.speed)
