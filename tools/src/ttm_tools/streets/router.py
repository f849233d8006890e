"""Shortest walks along streets.

`Router` joins places to their nearest streets and finds the walks between them: `walks` all those within the limit,
`seconds` a table of times, `path` the way from one place to another, and `within` how far the places reach.

`walks` divides space into cubes at least as wide as the limit, so that a walk from one cube ends in it or in an
adjacent one. Each search therefore needs only the streets of 27 cubes.

Positions are as in `graph`: Cartesian coordinates in metres, arrays of shape (n, 3).
"""

from dataclasses import dataclass
from functools import cached_property
from typing import Any, Iterator

import numpy as np
import numpy.typing as npt

from ..core import progress
from ..core.arrays import Floats
from ..core.walking import Walking
from .counting import Ways
from .cubes import cubes_of
from .graph import Graph, Snaps, build_graph, matrix_of, snap, subgraph
from .osm import Flags, Streets

MIN_CUBE_SIDE = 300.0  # metres
MAX_DISTANCES = 20_000_000  # entries of one distance matrix: 160 MB


@dataclass(frozen=True)
class Endpoints:
    """Which places may be origins of walks, and which destinations.

    Attributes
    ----------
    origins, destinations
        Boolean masks of shape (n,), one entry for each place.
    """

    origins: Flags
    destinations: Flags


@dataclass(frozen=True)
class Router:
    """Streets with n places on them.

    Attributes
    ----------
    positions
        Position of each place, shape (n, 3).
    walking
        The walking limit and speed; its detour factor applies only off the streets.
    near
        See `Snaps.connectors`.
    inside
        Metres of straight line from each place to its position, shape (n,): the way in a station to its entrance.
    """

    streets: Streets
    positions: Floats
    walking: Walking
    near: float
    inside: Floats | float = 0.0

    @cached_property
    def snaps(self) -> Snaps:
        """The nearest street of each place."""
        return snap(self.streets, self.positions)

    @cached_property
    def graph(self) -> Graph:
        """The streets; the nodes from `first` on are the places."""
        return build_graph(self.streets, self.snaps)

    @cached_property
    def edges(self) -> Any:
        """The edges of the graph as a matrix of scipy."""
        return matrix_of(self.graph.length, self.graph.target, self.graph.indptr)

    @property
    def first(self) -> int:
        """The node of the first place."""
        return len(self.graph.positions) - len(self.positions)

    @cached_property
    def connectors(self) -> Floats:
        """Metres from each position to its street, shape (n,)."""
        return self.snaps.connectors(self.near, self.walking)

    @property
    def approaches(self) -> Floats:
        """Metres from each place to its street, shape (n,): its connector, and the way inside with its detour."""
        return self.connectors + self.inside * self.walking.detour

    @property
    def limit(self) -> float:
        """The longest walk in metres."""
        return self.walking.max_metres

    def walks(self, only: Endpoints) -> Iterator[Ways]:
        """Find the shortest walks within the limit.

        Parameters
        ----------
        only
            Which places are origins, and which destinations.

        Yields
        ------
        tuple of arrays
            Origin, destination and metres of some walks. A walk from a place to itself is included.
        """
        if only.destinations.sum() >= only.origins.sum():
            yield from self._searched(only)
        else:
            turned = Endpoints(only.destinations, only.origins)
            yield from ((origin, end, metres) for end, origin, metres in self._searched(turned, is_turned=True))

    def _searched(self, only: Endpoints, is_turned: bool = False) -> Iterator[Ways]:
        """Search from each origin; if the searches are turned, against the direction of walks."""
        first, limit, approaches, positions = self.first, self.limit, self.approaches, self.graph.positions
        cubes = cubes_of(positions, max(limit, MIN_CUBE_SIDE))
        local = np.full(len(positions), -1, dtype=np.int64)
        origins = first + np.flatnonzero((approaches <= limit) & only.origins)
        origins = origins[np.argsort(cubes.key[origins], kind="stable")]
        keys, counts = np.unique(cubes.key[origins], return_counts=True)
        groups = np.split(origins, np.cumsum(counts)[:-1]) if len(keys) else []
        for key, group in progress.track(zip(keys.tolist(), groups), len(keys), "streets", "cubes"):
            # The box around the group's own origins is often much smaller than the 27 cubes.
            nodes = cubes.around(key)
            low, high = positions[group].min(axis=0) - limit, positions[group].max(axis=0) + limit
            nodes = nodes[((positions[nodes] >= low) & (positions[nodes] <= high)).all(axis=1)]
            ends = nodes[nodes >= first]
            ends = ends[(approaches[ends - first] <= limit) & only.destinations[ends - first]]
            if not len(ends):
                continue
            edges = subgraph(self.graph, nodes, local)
            edges = edges.T.tocsr() if is_turned else edges
            local[nodes] = np.arange(len(nodes))
            begin, end = local[group], local[ends]
            local[nodes] = -1
            for batch in np.array_split(np.arange(len(group)), -(-len(group) * len(nodes) // MAX_DISTANCES)):
                found = search(edges, begin[batch], limit)[:, end]
                own = group[batch] - first
                metres = found + approaches[own][:, None] + approaches[ends - first]
                row, column = np.nonzero(metres <= limit)
                yield own[row], ends[column] - first, metres[row, column]

    def seconds(self, origins: int) -> Floats:
        """Compute the times of walks from the first places, which are `origins` in number, to the others.

        Returns
        -------
        array of shape (origins, n - origins)
            Whole seconds; NaN if there is no walk within the limit.
        """
        is_origin = np.arange(len(self.positions)) < origins
        found: Floats = np.full((origins, len(self.positions) - origins), np.nan)
        for origin, destination, metres in self.walks(Endpoints(is_origin, ~is_origin)):
            found[origin, destination - origins] = self.walking.seconds(metres)
        return np.where(found <= self.walking.max_seconds, found, np.nan)

    def path(self, origin: int, destination: int) -> tuple[Floats, float]:
        """Find the shortest walk from one place to another.

        Returns
        -------
        array of shape (k, 3)
            The positions along the walk; none if there is no walk within the limit.
        float
            Its metres; NaN for none.
        """
        source, target = self.first + origin, self.first + destination
        found, before = search(self.edges, source, self.limit, return_predecessors=True)
        if not np.isfinite(found[target]):
            return np.zeros((0, 3)), float("nan")
        nodes = [target]
        while nodes[-1] != source:
            nodes.append(int(before[nodes[-1]]))
        ends = self.positions[[origin]], self.positions[[destination]]
        line = np.concatenate([ends[0], self.graph.positions[nodes[::-1]], ends[1]])
        return line, float(found[target] + self.approaches[origin] + self.approaches[destination])

    def within(self, left: Floats) -> Floats:
        """Compute how far the places reach.

        Parameters
        ----------
        left
            Metres that may be walked from each place, shape (n,); below 0 from a place that is not an origin.

        Returns
        -------
        array with an entry for each node of the graph
            The most metres that are left there after a walk from any place; -1 where no walk leads.
        """
        left, count = left - self.approaches, len(self.graph.positions)
        places = np.flatnonzero(left > 0)
        if not len(places):
            return np.full(count, -1.0)
        # One more node, from which an edge leads to each place: the longer, the less is left there.
        graph, most = self.graph, float(left[places].max())
        length = np.concatenate([graph.length, most - left[places]])
        target = np.concatenate([graph.target, self.first + places])
        found = search(matrix_of(length, target, np.append(graph.indptr, len(length))), count, most)[:count]
        return np.asarray(np.where(np.isfinite(found), most - found, -1.0))

    @cached_property
    def degrees(self) -> npt.NDArray[np.float64]:
        """Longitude and latitude of each node of the graph."""
        streets, snaps = self.streets, self.snaps
        nodes = np.stack([streets.longitudes, streets.latitudes], axis=1)
        low, high = nodes[streets.begin[snaps.edge]], nodes[streets.end[snaps.edge]]
        return np.concatenate([nodes, low + snaps.fraction[:, None] * (high - low)])


def search(edges: Any, sources: Any, limit: float, **options: bool) -> Any:
    """Run Dijkstra's algorithm: return the metres from each source to each node, infinite above the limit."""
    from scipy.sparse.csgraph import dijkstra

    return dijkstra(edges, indices=sources, limit=limit, **options)
