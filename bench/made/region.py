"""The streets and lines of a made region: two towns, villages around them, and service every 20 to 60 minutes."""

import math
import random
from typing import Sequence

from made.lines import Headways, Line, Size, draw_headways, draw_lines
from made.streets import SPACING, Cell, Streets, draw_streets

TOWNS = [  # the cell of each town's centre, and its size
    ((0, 0), Size(nodes=420, bus_lines=34, length=16, rail_lines=0, origins=0)),
    ((46, 12), Size(nodes=280, bus_lines=24, length=14, rail_lines=0, origins=0)),
]
VILLAGES, NODES_OF_A_VILLAGE = 100, 8
WIDE, HIGH = 75, 45  # cells around the middle of both towns within which villages lie
APART = 6  # cells between two villages, and between a village and a town
REGIONAL_LINES, SCHOOL_LINES = 70, 20
MOST_VILLAGES = 6  # that a line goes through
CALLS_IN_A_VILLAGE, CALLS_IN_A_TOWN = 5, 6
BUSES = [  # the share of the lines that has each headway
    (0.3, Headways(20, 20, 30)),
    (0.4, Headways(30, 30, 60)),
    (0.3, Headways(60, 60, 60)),
]
RAIL = Headways(30, 30, 60)


class Region:
    """Streets of several settlements as one grid; each settlement has the numbers of its nodes."""

    def __init__(self) -> None:
        self.streets = Streets([], [], draw_radius(TOWNS[0][1].nodes), {})
        self.settlements: list[range] = []
        self.centres: list[Cell] = []

    def add(self, centre: Cell, streets: Streets) -> int:
        """Adds a settlement's streets around a cell, and returns the number of its first node."""
        first = len(self.streets.cells)
        for (x, y), (east, north) in zip(streets.cells, streets.places):
            cell = (x + centre[0], y + centre[1])
            self.streets.node_at[cell] = len(self.streets.cells)
            self.streets.cells.append(cell)
            self.streets.places.append((east + centre[0] * SPACING, north + centre[1] * SPACING))
        self.settlements.append(range(first, len(self.streets.cells)))
        self.centres.append(centre)
        return first

    def is_free(self, cell: Cell) -> bool:
        """Whether a cell is free for a village: far enough from every settlement."""
        gaps = [draw_radius(len(nodes)) + APART for nodes in self.settlements]
        return all(math.dist(cell, centre) >= gap for centre, gap in zip(self.centres, gaps))


def draw_radius(nodes: int) -> float:
    """The radius of a disc with this number of cells, in cells."""
    return math.sqrt(nodes / math.pi)


def add_towns(region: Region, rnd: random.Random) -> list[Line]:
    """Adds the towns, and returns their own lines."""
    lines = []
    for centre, size in TOWNS:
        streets = draw_streets(size.nodes, rnd)
        first = region.add(centre, streets)
        for line in draw_lines(streets, size, rnd):
            nodes = [node + first for node in line.nodes]
            lines.append(Line(line.kind, draw_headways(rnd, BUSES), nodes))
    return lines


def add_villages(region: Region, rnd: random.Random) -> None:
    """Adds villages at drawn places around the middle of both towns."""
    (x, y), (u, v) = (centre for centre, _ in TOWNS)
    while len(region.settlements) < len(TOWNS) + VILLAGES:
        cell = ((x + u) // 2 + rnd.randrange(-WIDE, WIDE), (y + v) // 2 + rnd.randrange(-HIGH, HIGH))
        if region.is_free(cell):
            region.add(cell, draw_streets(NODES_OF_A_VILLAGE, rnd))


def way_to_town(region: Region, village: int, town: int) -> list[int]:
    """The villages from one to a town, each nearer to the town than the one before; the farthest first."""
    goal, way = region.centres[town], [village]
    while len(way) < MOST_VILLAGES:
        here = region.centres[way[-1]]
        left = math.dist(here, goal)
        nearer = [
            number
            for number in range(len(TOWNS), len(region.centres))
            if math.dist(region.centres[number], goal) < left - APART
        ]
        if not nearer:
            break
        way.append(min(nearer, key=lambda item: (math.dist(region.centres[item], here), item)))
    return way


def calls_in(nodes: range, cover: Sequence[int]) -> list[int]:
    """The nodes of a village that a line calls at: those that the fewest lines serve."""
    return sorted(sorted(nodes, key=lambda node: (cover[node], node))[:CALLS_IN_A_VILLAGE])


def calls_in_town(region: Region, town: int, start: Cell) -> list[int]:
    """The nodes of a town from its edge, on the side of a cell, to its centre."""
    centre, radius = region.centres[town], draw_radius(len(region.settlements[town]))
    scale = radius / max(1.0, math.dist(start, centre))
    nodes: list[int] = []
    for step in range(CALLS_IN_A_TOWN):
        part = scale * (CALLS_IN_A_TOWN - 1 - step) / CALLS_IN_A_TOWN
        cell = tuple(round(there + (here - there) * part) for here, there in zip(start, centre))
        node = region.streets.node_at.get((cell[0], cell[1]))
        if node is not None and node not in nodes:
            nodes.append(node)
    return nodes


def draw_regional_line(region: Region, kind: str, cover: list[int], rnd: random.Random) -> Line:
    """A line from a village that few lines serve, through others, into a town."""
    villages = range(len(TOWNS), len(region.settlements))
    sample = rnd.sample(villages, 8)
    start = min(sample, key=lambda item: (sum(cover[node] for node in region.settlements[item]), item))
    near = min(range(len(TOWNS)), key=lambda item: math.dist(region.centres[item], region.centres[start]))
    town = near if rnd.random() < 0.8 else 1 - near
    way = way_to_town(region, start, town)
    nodes = [node for village in way for node in calls_in(region.settlements[village], cover)]
    nodes += calls_in_town(region, town, region.centres[way[-1]])
    for node in nodes:
        cover[node] += 1
    return Line(kind, draw_headways(rnd, BUSES), nodes)


def rail_line(region: Region) -> Line:
    """The railway: from one town's centre to the other's, with a station in each village on the way."""
    start, end = region.centres[0], region.centres[1]
    length = math.dist(start, end)
    beside = []
    for village in range(len(TOWNS), len(region.settlements)):
        x, y = region.centres[village]
        along = ((x - start[0]) * (end[0] - start[0]) + (y - start[1]) * (end[1] - start[1])) / length
        off = math.dist((x, y), start) ** 2 - along**2
        if 0 < along < length and off < 8**2:
            beside.append((along, region.settlements[village][0]))
    ends = (region.settlements[0][0], region.settlements[1][0])
    return Line("rail", RAIL, [ends[0], *(node for _, node in sorted(beside)), ends[1]])


def draw_region(rnd: random.Random) -> tuple[Streets, list[Line]]:
    """The streets of a region and all its lines, the railway first."""
    region = Region()
    lines = add_towns(region, rnd)
    add_villages(region, rnd)
    cover = [0] * len(region.streets.cells)
    kinds = ["regional"] * REGIONAL_LINES + ["school"] * SCHOOL_LINES
    return region.streets, [
        rail_line(region),
        *lines,
        *(draw_regional_line(region, kind, cover, rnd) for kind in kinds),
    ]
