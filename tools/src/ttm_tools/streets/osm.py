"""Ways that may be walked, of a file of OpenStreetMap (.osm.pbf, .osm, .osm.bz2 ..).

A way counts where its `highway` is one of WALKED (or it is a platform or a pier), or where `foot` lets one walk on
another road; motorways never count. It doesn't count where `foot` is no, private or use_sidepath, nor where `access` is
no or private and `foot` doesn't allow it. Steps are ways like others. One walks in both directions, but where
`oneway:foot`, `foot:forward` or `foot:backward` say otherwise: `oneway` alone is for vehicles. Of an area the outline
is walked. Barriers don't count, nor do ferries.
"""

from dataclasses import dataclass
from typing import Any, Mapping

import numpy as np
import numpy.typing as npt

from ..core.arrays import Floats
from ..core.errors import InputError, needs
from ..core.reading import as_one_line, regular
from ..gtfs.columns import is_group_start

Flags = npt.NDArray[np.bool_]
Numbers = npt.NDArray[np.int64]

WALKED = set(
    "primary primary_link secondary secondary_link tertiary tertiary_link unclassified residential living_street "
    "service road track path footway pedestrian steps corridor platform crossing elevator".split()
)
ALLOWED_ROADS = {"trunk", "trunk_link", "cycleway", "bridleway", "busway"}  # where `foot` or a pavement lets one walk
ALLOWED = {"yes", "designated", "permissive", "official", "destination", "customers"}
FORBIDDEN = {"no", "private", "use_sidepath"}
CLOSED = {"no", "private"}
NO_PAVEMENT = {"", "no", "none", "separate"}
KINDS = ("highway", "railway", "public_transport", "man_made")
KEYS = (*KINDS, "foot", "access", "motorroad", "sidewalk", "oneway:foot", "foot:forward", "foot:backward")
BOTH, ALONG, AGAINST = (True, True), (True, False), (False, True)


@dataclass(frozen=True)
class Streets:
    """Nodes, and pieces of ways between two of them that follow one another."""

    path: str
    latitudes: Floats  # of the nodes, degrees
    longitudes: Floats
    begin: Numbers  # of each piece the places of its nodes
    end: Numbers
    forward: Flags  # whether one may walk from `begin` to `end`
    backward: Flags


def is_walked(tags: Mapping[str, str]) -> bool:
    """Whether one may walk on a way of these tags ("" where there is none)."""
    road, foot = tags["highway"], tags["foot"]
    if road.startswith("motorway") or foot in FORBIDDEN:
        return False
    if foot not in ALLOWED and (tags["access"] in CLOSED or tags["motorroad"] == "yes"):
        return False
    if road in WALKED:
        return True
    if road in ALLOWED_ROADS:
        return foot in ALLOWED or road.startswith("trunk") and tags["sidewalk"] not in NO_PAVEMENT
    if road:
        return False
    return tags["railway"] == "platform" or tags["public_transport"] == "platform" or tags["man_made"] == "pier"


def directions_of(tags: Mapping[str, str]) -> tuple[bool, bool]:
    """Whether one may walk along a way, and against its direction."""
    one_way = tags["oneway:foot"]
    if one_way in ("yes", "1", "true"):
        return ALONG
    if one_way in ("-1", "reverse"):
        return AGAINST
    return tags["foot:forward"] not in FORBIDDEN, tags["foot:backward"] not in FORBIDDEN


class Collector:
    """Takes ways one after the other."""

    def __init__(self) -> None:
        self.nodes: list[int] = []  # identifiers, way after way
        self.degrees: list[tuple[float, float]] = []  # longitudes and latitudes
        self.lengths: list[int] = []  # how many nodes of each stretch follow one another
        self.directions: list[tuple[bool, bool]] = []

    def take(self, way: Any) -> None:
        """Takes a way of pyosmium, where one may walk on it."""
        if not any(key in way.tags for key in KINDS):
            return
        tags = {key: way.tags.get(key, "") for key in KEYS}
        if not is_walked(tags):
            return
        begin = len(self.nodes)
        for node in way.nodes:
            if node.location.valid():
                self.nodes.append(node.ref)
                self.degrees.append((node.lon, node.lat))
            else:  # cut off at the edge of the file
                self.cut(begin, tags)
                begin = len(self.nodes)
        self.cut(begin, tags)

    def cut(self, begin: int, tags: Mapping[str, str]) -> None:
        if len(self.nodes) > begin:
            self.lengths.append(len(self.nodes) - begin)
            self.directions.append(directions_of(tags))

    def streets(self, path: str) -> Streets:
        """All that was taken; a node that several ways share is one."""
        nodes, first, places = np.unique(np.array(self.nodes, dtype=np.int64), return_index=True, return_inverse=True)
        degrees = np.array(self.degrees, dtype=np.float64).reshape(-1, 2)[first]
        stretch = np.repeat(np.arange(len(self.lengths)), self.lengths)
        follows = np.flatnonzero(stretch[1:] == stretch[:-1])
        ways = np.array(self.directions, dtype=np.bool_).reshape(-1, 2)[stretch[follows]]
        begin, end = places[follows].astype(np.int64), places[follows + 1].astype(np.int64)
        return Streets(path, degrees[:, 1], degrees[:, 0], *each_once(begin, end, ways[:, 0], ways[:, 1]))


def each_once(begin: Numbers, end: Numbers, forward: Flags, backward: Flags) -> tuple[Numbers, Numbers, Flags, Flags]:
    """The pieces, each once where several ways have it: one may walk on it as on any of them."""
    turned, low, high = begin > end, np.minimum(begin, end), np.maximum(begin, end)
    up, down = np.where(turned, backward, forward), np.where(turned, forward, backward)
    order = np.lexsort((high, low))
    low, high = low[order], high[order]
    first = np.flatnonzero(is_group_start(low, high))
    if not len(first):
        return low, high, up, down
    up, down = (np.logical_or.reduceat(there[order], first) for there in (up, down))
    low, high = low[first], high[first]
    kept = (low != high) & (up | down)
    return low[kept], high[kept], up[kept], down[kept]


def read_streets(path: str) -> Streets:
    """The ways of a file that may be walked."""
    needs("osmium")
    import osmium

    regular(path)
    collector = Collector()
    with as_one_line(path, "not read as OpenStreetMap"):
        osmium.make_simple_handler(way=collector.take).apply_file(path, locations=True)
    found = collector.streets(path)
    if not len(found.begin):
        raise InputError(path, "no way that may be walked")
    return found
