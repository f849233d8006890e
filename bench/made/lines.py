"""The lines of a made town: rail through the centre, and buses of three kinds, each with its headways."""

import math
import random
from dataclasses import dataclass
from typing import Sequence

from made.streets import Cell, Streets


PEAKS = ((7, 9.5), (16, 18.5))  # hours


@dataclass(frozen=True)
class Size:
    """How large a feed is."""

    nodes: int  # of the grid
    bus_lines: int
    length: int  # mean stops of a bus line
    rail_lines: int
    origins: int  # in the larger file of origins


@dataclass(frozen=True)
class Headways:
    """Minutes between two departures of a line."""

    peak: int
    day: int
    evening: int

    def at(self, time: float) -> int:
        """The seconds to the next departure after a time, in seconds after midnight."""
        hour = time / 3600
        if any(first <= hour < last for first, last in PEAKS):
            return self.peak * 60
        return (self.day if 6.5 <= hour < 20 else self.evening) * 60


RAIL = Headways(4, 6, 10)
BUSES = [  # the share of the lines that has each headway
    (0.15, Headways(6, 8, 12)),
    (0.25, Headways(10, 12, 20)),
    (0.35, Headways(15, 20, 30)),
    (0.25, Headways(30, 30, 60)),
]
SHORTEST = 7  # nodes of a bus line
WAYS = [(1, 0), (-1, 0), (0, 1), (0, -1)]


@dataclass(frozen=True)
class Line:
    """A line, which runs along its nodes in both directions."""

    kind: str  # rail, radial, grid, local, regional or school
    headways: Headways
    nodes: list[int]

    @property
    def is_rail(self) -> bool:
        return self.kind == "rail"

    @property
    def is_for_school(self) -> bool:
        return self.kind == "school"


def draw_rail_line(streets: Streets, angle: float, rnd: random.Random) -> Line | None:
    """A straight line somewhere through the centre, a station every third cell; none where it has too few."""
    angle, radius = angle + rnd.uniform(-0.1, 0.1), streets.radius
    off = rnd.uniform(-0.25, 0.25) * radius
    cells: list[Cell] = []
    for number in range(int(2 * radius * 0.92 / 3) + 1):
        along = -0.92 * radius + 3 * number
        x = round(along * math.cos(angle) - off * math.sin(angle))
        y = round(along * math.sin(angle) + off * math.cos(angle))
        if (x, y) in streets.node_at and cells[-1:] != [(x, y)]:
            cells.append((x, y))
    return Line("rail", RAIL, [streets.node_at[cell] for cell in cells]) if len(cells) >= 4 else None


def draw_step(cell: Cell, goal: Cell, bend: float, rnd: random.Random) -> Cell:
    """A neighbour towards the goal, or by the chance of a bend any."""
    east, north = goal[0] - cell[0], goal[1] - cell[1]
    way = rnd.choice([(1 if east > 0 else -1, 0)] * abs(east) + [(0, 1 if north > 0 else -1)] * abs(north))
    if rnd.random() < bend:
        way = rnd.choice(WAYS)
    return (cell[0] + way[0], cell[1] + way[1])


def distance(cell: Cell, goal: Cell) -> int:
    return abs(goal[0] - cell[0]) + abs(goal[1] - cell[1])


def draw_next(cell: Cell, goal: Cell, way: Cell | None, bend: float, rnd: random.Random) -> Cell:
    """The next cell: two times of three in the direction of before, unless that leads away from the goal."""
    if way and rnd.random() < 0.66:
        ahead = (cell[0] + way[0], cell[1] + way[1])
        if distance(ahead, goal) <= distance(cell, goal):
            return ahead
    return draw_step(cell, goal, bend, rnd)


def draw_path(streets: Streets, start: Cell, goal: Cell, most: int, bend: float, rnd: random.Random) -> list[Cell]:
    """A path of at most `most` cells towards the goal, which takes no cell twice."""
    path, taken = [start], {start}
    way = None
    for _ in range(most * 3):
        cell = path[-1]
        if len(path) >= most or cell == goal:
            break
        ahead = draw_next(cell, goal, way, bend, rnd)
        if ahead not in streets.node_at or ahead in taken:
            way = None
            ahead = draw_step(cell, goal, 0.5, rnd)
            if ahead not in streets.node_at or ahead in taken:
                continue
        way = (ahead[0] - cell[0], ahead[1] - cell[1])
        path.append(ahead)
        taken.add(ahead)
    return path


def draw_radial(streets: Streets, start: Cell, most: int, rnd: random.Random) -> list[Cell]:
    """To the centre, and often through it to the other side."""
    middle = (int(rnd.gauss(0, streets.radius * 0.12)), int(rnd.gauss(0, streets.radius * 0.12)))
    path = draw_path(streets, start, middle, most, 0.08, rnd)
    if len(path) < most and rnd.random() < 0.7:
        beyond = draw_path(streets, path[-1], (-start[0], -start[1]), most - len(path) + 1, 0.08, rnd)
        taken = set(path)
        fresh = next((at for at in range(1, len(beyond)) if beyond[at] in taken), len(beyond))
        path += beyond[1:fresh]
    return path


def draw_straight(streets: Streets, start: Cell, most: int, rnd: random.Random) -> list[Cell]:
    """Towards a far cell in one direction of the grid."""
    east, north = rnd.choice(WAYS)
    return draw_path(streets, start, (start[0] + east * most, start[1] + north * most), most, 0.03, rnd)


def draw_winding(streets: Streets, start: Cell, most: int, rnd: random.Random) -> list[Cell]:
    """Around a hub: a third of the way to somewhere, with many bends."""
    goal = streets.cells[rnd.randrange(len(streets.cells))]
    goal = (start[0] + (goal[0] - start[0]) // 3, start[1] + (goal[1] - start[1]) // 3)
    return draw_path(streets, start, goal, max(8, most * 2 // 3), 0.25, rnd)


def draw_headways(rnd: random.Random, classes: Sequence[tuple[float, Headways]] = BUSES) -> Headways:
    """Those of a class of buses, by the classes' shares."""
    left = rnd.random()
    for share, headways in classes:
        if left < share:
            return headways
        left -= share
    return classes[-1][1]


def draw_bus_line(streets: Streets, length: int, cover: Sequence[int], rnd: random.Random) -> Line | None:
    """A line from one of the nodes that fewest lines serve; None if it is too short."""
    kind = rnd.random()
    most = max(8, int(rnd.gauss(length, length * 0.25)))
    sample = rnd.sample(range(len(cover)), min(len(cover), 12))
    start = streets.cells[min(sample, key=lambda node: (cover[node], node))]
    if kind < 0.4:
        name, path, headways = "radial", draw_radial(streets, start, most, rnd), draw_headways(rnd)
    elif kind < 0.7:
        name, path, headways = "grid", draw_straight(streets, start, most, rnd), draw_headways(rnd)
    else:
        name, path = "local", draw_winding(streets, start, most, rnd)
        headways = rnd.choice([BUSES[2][1], BUSES[3][1], draw_headways(rnd)])
    return Line(name, headways, [streets.node_at[cell] for cell in path]) if len(path) >= SHORTEST else None


def draw_lines(streets: Streets, size: Size, rnd: random.Random) -> list[Line]:
    """All lines, those of the rail first."""
    angles = (math.pi * number / size.rail_lines for number in range(size.rail_lines))
    rail = [line for line in (draw_rail_line(streets, angle, rnd) for angle in angles) if line]
    buses: list[Line] = []
    cover = [0] * len(streets.cells)
    while len(buses) < size.bus_lines:
        line = draw_bus_line(streets, size.length, cover, rnd)
        if line:
            buses.append(line)
            for node in line.nodes:
                cover[node] += 1
    return rail + buses
