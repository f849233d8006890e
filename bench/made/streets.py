"""The streets of a made feed, nodes of a grid in a disc, and its stops: two bus stops at each node, and stations."""

import math
import random
from dataclasses import dataclass, field
from typing import Iterable

SPACING = 400  # metres between two nodes

Cell = tuple[int, int]  # of the grid, east and north of the centre


@dataclass(frozen=True)
class Streets:
    """The nodes of the street grid, in a disc around the centre, by their numbers."""

    cells: list[Cell]
    places: list[tuple[float, float]]  # metres east and north of the centre
    radius: float  # of the disc, in cells
    node_at: dict[Cell, int]


@dataclass(frozen=True)
class Stop:
    """A bus stop or a platform."""

    name: str  # its identifier
    label: str
    east: float  # metres from the centre
    north: float
    station: str = ""


@dataclass
class Stops:
    """Two for each node, 2 * node towards the north or east and 2 * node + 1; then the platforms, line by line."""

    stops: list[Stop] = field(default_factory=list)
    stations: dict[int, int] = field(default_factory=dict)  # by their nodes, where the first of two platforms stands


def draw_streets(count: int, rnd: random.Random) -> Streets:
    """The cells nearest to the centre, each node a little off its cell's place."""
    radius = math.sqrt(count / math.pi)
    reach = range(-int(radius) - 2, int(radius) + 3)
    cells = [(x, y) for _, x, y in sorted((x * x + y * y, x, y) for x in reach for y in reach)[:count]]
    places = []
    for x, y in cells:
        scale = SPACING * (0.75 + 0.4 * (math.hypot(x, y) / radius))
        places.append((x * scale + rnd.uniform(-60, 60), y * scale + rnd.uniform(-60, 60)))
    return Streets(cells, places, radius, {cell: node for node, cell in enumerate(cells)})


def station_at(node: int) -> str:
    """The identifier of a node's station."""
    return f"ST{node:04}"


def stops_of(streets: Streets, rail_nodes: Iterable[int]) -> Stops:
    """The stops of all nodes, and the stations at the nodes of rail lines."""
    found = Stops()
    for node, (east, north) in enumerate(streets.places):
        found.stops.append(Stop(f"B{node:05}N", f"Street {node}", east + 12, north + 9))
        found.stops.append(Stop(f"B{node:05}S", f"Street {node}", east - 12, north - 9))
    for node in dict.fromkeys(rail_nodes):
        (east, north), name = streets.places[node], station_at(node)
        found.stations[node] = len(found.stops)
        found.stops.append(Stop(f"{name}P1", f"Station {node}", east + 40, north + 30, name))
        found.stops.append(Stop(f"{name}P2", f"Station {node}", east + 45, north + 25, name))
    return found
