"""The graph of the streets, and places on it.

Places are snapped to the nearest street (`snap`). `build_graph` makes a graph of the streets and the snapped places, in
which Dijkstra's algorithm finds shortest paths.

Positions are Cartesian coordinates in metres, with the centre of the earth as their origin: arrays of shape (n, 3).
"""

from dataclasses import dataclass
from typing import Any

import numpy as np

from ..core.arrays import Floats
from ..core.walking import Walking
from ..gtfs.columns import is_group_start
from .counting import Places, least
from .cubes import ranges
from .osm import Streets
from .straight import distances, points_of

MAX_SEGMENT = 100.0  # metres; edges are indexed in segments no longer than this


@dataclass(frozen=True)
class Snaps:
    """The nearest position on a street for each of n places.

    Attributes
    ----------
    edge
        The edge of the streets, shape (n,).
    fraction
        The position along the edge, shape (n,): 0 at its begin, 1 at its end.
    distance
        Metres from the place to that position, shape (n,).
    """

    edge: Places
    fraction: Floats
    distance: Floats

    def connectors(self, near: float, walking: Walking) -> Floats:
        """Return the walking distance from each place to its street.

        Parameters
        ----------
        near
            Up to this distance in metres the connector is a straight line. Longer connectors are multiplied by the
            detour factor of `walking`.

        Returns
        -------
        array of shape (n,)
            Metres.
        """
        return np.asarray(np.where(self.distance <= near, self.distance, self.distance * walking.detour))


@dataclass(frozen=True)
class Graph:
    """A directed graph of n nodes and m edges, in compressed sparse row form.

    Attributes
    ----------
    positions
        Position of each node, shape (n, 3).
    indptr
        Shape (n + 1,): the edges that leave node i are those from `indptr[i]` up to, but without, `indptr[i + 1]`.
    target
        The node at which each edge ends, shape (m,).
    length
        Metres of each edge, shape (m,).
    """

    positions: Floats
    indptr: Places
    target: Places
    length: Floats

    @property
    def source(self) -> Places:
        """The node at which each edge begins, shape (m,)."""
        return np.repeat(np.arange(len(self.positions)), np.diff(self.indptr))


def snap(streets: Streets, points: Floats) -> Snaps:
    """Find the nearest position on a street for each point. Of edges at equal distance the first is taken.

    Parameters
    ----------
    points
        Positions, shape (n, 3).
    """
    from scipy.spatial import cKDTree

    nodes = points_of(streets.latitudes, streets.longitudes)
    begins, ends = nodes[streets.begin], nodes[streets.end]

    # Index the midpoints of short segments. The edge with the nearest midpoint need not be the nearest edge, but its
    # distance is an upper bound: a nearer edge has a midpoint within that bound plus half a segment.
    edge, low, high = split_into_segments(begins, ends)
    midpoints = interpolate(begins, ends, edge, (low + high) / 2)
    segments = interpolate(begins, ends, edge, high) - interpolate(begins, ends, edge, low)
    half = float(np.linalg.norm(segments, axis=1).max(initial=0)) / 2
    tree = cKDTree(midpoints)
    _, nearest = tree.query(points)
    bound = project(begins, ends, edge[nearest], points).distance
    candidates = tree.query_ball_point(points, bound + half + 0.01, return_sorted=True)  # 0.01: rounding

    counts = np.array([len(found) for found in candidates], dtype=np.int64)
    point = np.repeat(np.arange(len(points)), counts)
    segment = np.concatenate([np.zeros(0, np.int64), *map(np.asarray, candidates)]).astype(np.int64)
    snaps = project(begins, ends, edge[segment], points[point])
    order = np.lexsort((snaps.edge, snaps.distance, point))
    best = order[np.cumsum(counts) - counts]  # the nearest candidate of each point
    return Snaps(snaps.edge[best], snaps.fraction[best], snaps.distance[best])


def split_into_segments(begins: Floats, ends: Floats) -> tuple[Places, Floats, Floats]:
    """Divide edges into equal segments of at most `MAX_SEGMENT` metres.

    Parameters
    ----------
    begins, ends
        Positions of the edges' ends, shape (m, 3).

    Returns
    -------
    edge
        The edge of each segment, ascending.
    low, high
        The fractions of the edge at which the segment begins and ends.
    """
    counts = np.maximum(1, np.ceil(np.linalg.norm(ends - begins, axis=1) / MAX_SEGMENT)).astype(np.int64)
    edge = np.repeat(np.arange(len(counts)), counts)
    number = np.arange(len(edge)) - np.repeat(np.cumsum(counts) - counts, counts)
    return edge, number / counts[edge], (number + 1) / counts[edge]


def interpolate(begins: Floats, ends: Floats, edge: Places, fraction: Floats) -> Floats:
    """Return the position at a fraction of each given edge, shape (n, 3)."""
    return np.asarray(begins[edge] + (ends[edge] - begins[edge]) * fraction[:, None])


def project(begins: Floats, ends: Floats, edge: Places, points: Floats) -> Snaps:
    """Project each point onto the edge that is given for it."""
    vector = ends[edge] - begins[edge]
    squared_length = np.maximum((vector**2).sum(axis=1), 1e-12)  # no division by 0 for an edge between equal nodes
    fraction = np.clip(((points - begins[edge]) * vector).sum(axis=1) / squared_length, 0, 1)
    distance = np.linalg.norm(points - interpolate(begins, ends, edge, fraction), axis=1)
    return Snaps(edge, fraction, distance)


def build_graph(streets: Streets, snaps: Snaps) -> Graph:
    """Build the graph of the streets, with one further node for each snapped place.

    The nodes of the places follow those of the streets, in the order of `snaps`. A place in the middle of an edge can
    be reached and left only in the directions in which the edge may be walked. A place at an end of an edge belongs to
    the crossing there, and so to every street that meets at it.
    """
    nodes = points_of(streets.latitudes, streets.longitudes)
    own = interpolate(nodes[streets.begin], nodes[streets.end], snaps.edge, snaps.fraction)
    positions, count = np.concatenate([nodes, own]), len(nodes)

    # Chain the places along each edge: begin of the edge, first place, .., last place, end of the edge. The edge itself
    # stays, too.
    order = np.lexsort((snaps.fraction, snaps.edge))
    edge = snaps.edge[order]
    is_first = np.append(is_group_start(edge), True)
    previous = np.concatenate([[0], order[:-1]])[: len(order)] + count
    before = np.where(is_first[:-1], streets.begin[edge], previous)
    last = np.flatnonzero(is_first[1:])
    begin = np.concatenate([streets.begin, before, order[last] + count])
    end = np.concatenate([streets.end, order + count, streets.end[edge[last]]])
    street_edge = np.concatenate([np.arange(len(streets.begin)), edge, edge[last]])
    length = distances(positions[begin], positions[end])
    forward, backward = streets.forward[street_edge], streets.backward[street_edge]

    at_end = np.flatnonzero((snaps.fraction <= 0) | (snaps.fraction >= 1))
    crossing = np.where(snaps.fraction <= 0, streets.begin[snaps.edge], streets.end[snaps.edge])[at_end]

    begins = [begin[forward], end[backward], crossing, at_end + count]
    ends = [end[forward], begin[backward], at_end + count, crossing]
    lengths = np.concatenate([length[forward], length[backward], np.zeros(2 * len(at_end))])
    source, target, length = least(np.concatenate(begins), np.concatenate(ends), lengths)
    return Graph(positions, np.searchsorted(source, np.arange(len(positions) + 1)), target, length)


def subgraph(graph: Graph, nodes: Places, local: Places) -> Any:
    """Return the edges among some nodes as a `scipy.sparse.csr_matrix` of shape (k, k).

    Parameters
    ----------
    nodes
        The k nodes.
    local
        Scratch space of one entry per node of the graph, all -1. It is -1 again on return; allocating it for each call
        would cost more than the search.
    """
    local[nodes] = np.arange(len(nodes))
    none = np.zeros(0, np.int64)
    chunks = ranges(graph.indptr[nodes], graph.indptr[nodes + 1])
    source, edge = (np.concatenate(column) for column in zip((none, none), *chunks))
    target = local[graph.target[edge]]
    local[nodes] = -1
    inside = target >= 0
    indptr = np.searchsorted(source[inside], np.arange(len(nodes) + 1))
    return matrix_of(graph.length[edge][inside], target[inside], indptr)


def matrix_of(length: Floats, target: Places, indptr: Places) -> Any:
    """Return edges in compressed sparse row form as a `scipy.sparse.csr_matrix`, with a row for each node."""
    from scipy.sparse import csr_matrix

    count = len(indptr) - 1
    return csr_matrix((length, target, indptr), shape=(count, count))


def on_streets(streets: Streets, latitudes: Floats, longitudes: Floats) -> tuple[Floats, Floats]:
    """Return the nearest position on a street to each place, as longitudes and latitudes, and the metres to it."""
    snaps = snap(streets, points_of(latitudes, longitudes))
    nodes = points_of(streets.latitudes, streets.longitudes)
    nearest = interpolate(nodes[streets.begin], nodes[streets.end], snaps.edge, snaps.fraction)
    return degrees_of(nearest), snaps.distance


def degrees_of(positions: Floats) -> Floats:
    """Return the longitude and latitude of each position."""
    length = np.linalg.norm(positions, axis=-1)
    east, north = np.arctan2(positions[..., 1], positions[..., 0]), np.arcsin(positions[..., 2] / length)
    return np.asarray(np.degrees(np.stack([east, north], axis=-1)))
