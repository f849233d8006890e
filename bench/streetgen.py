#!/usr/bin/env python3
"""Makes streets for a feed: a file of OpenStreetMap, with which walks along streets are measured.

    streetgen.py FEED FILE [--nodes N] [--seed N]        FILE as streets.osm.pbf or streets.osm

A grid of crossings, each a little off its place, over the ground of the feed's stops; a seventh of its pieces is
missing, some streets are motorways, some are one-way for vehicles, and a river in the middle is crossed by a bridge
every twentieth column. The same numbers make the same streets. It wants numpy and pyosmium.
"""
import math
from dataclasses import dataclass
from pathlib import Path
from typing import Any, Iterator

import numpy as np
import numpy.typing as npt

from shared import parser_of, records_of

MARGIN = 0.005  # degrees around the stops
MISSING = 1 / 7  # of the pieces
LONGEST = 12  # pieces of a way
BRIDGES = 20  # columns from one to the next
KINDS = ["residential", "footway", "tertiary", "service", "living_street", "steps", "path", "motorway"]
SHARES = [0.45, 0.2, 0.12, 0.1, 0.06, 0.02, 0.03, 0.02]


@dataclass(frozen=True)
class Grid:
    """Crossings row by row, from the south-west on."""

    rows: int
    columns: int
    degrees: npt.NDArray[np.float64]  # of each crossing its longitude and latitude


def ground_of(feed: str) -> tuple[float, float, float, float]:
    """West, south, east and north of a feed's stops."""
    stops = [row for row in records_of(f"{feed}/stops.txt") if row["stop_lat"]]
    table = np.array([(float(row["stop_lon"]), float(row["stop_lat"])) for row in stops])
    (west, south), (east, north) = table.min(axis=0) - MARGIN, table.max(axis=0) + MARGIN
    return float(west), float(south), float(east), float(north)


def grid_of(ground: tuple[float, float, float, float], nodes: int, draw: np.random.Generator) -> Grid:
    """About `nodes` crossings, at equal distances to the east and to the north."""
    west, south, east, north = ground
    wide = (east - west) * math.cos(math.radians((south + north) / 2))
    columns = max(2, round(math.sqrt(nodes * wide / (north - south))))
    rows = max(2, round(nodes / columns))
    across, up = np.meshgrid(np.arange(columns), np.arange(rows))
    places = np.stack([across.ravel(), up.ravel()], axis=1) + draw.uniform(-0.3, 0.3, (rows * columns, 2))
    steps = np.array([(east - west) / (columns - 1), (north - south) / (rows - 1)])
    return Grid(rows, columns, np.array([west, south]) + places * steps)


def lines_of(grid: Grid) -> Iterator[npt.NDArray[np.int64]]:
    """The crossings of each row and of each column; columns but for those with a bridge end at the river."""
    numbers = np.arange(grid.rows * grid.columns).reshape(grid.rows, grid.columns)
    yield from numbers
    middle = grid.rows // 2
    for place, column in enumerate(numbers.T):
        if place % BRIDGES == 0:
            yield column
        else:
            yield column[:middle]
            yield column[middle:]


def ways_of(grid: Grid, draw: np.random.Generator) -> Iterator[tuple[list[int], dict[str, str]]]:
    """The ways, as crossings that follow one another, with their tags."""
    for line in lines_of(grid):
        cuts = np.flatnonzero(draw.random(max(0, len(line) - 1)) < MISSING) + 1
        for stretch in np.split(line, cuts):
            for begin in range(0, len(stretch) - 1, LONGEST):
                tags = {"highway": str(draw.choice(KINDS, p=SHARES))}
                if draw.random() < 0.1:
                    tags["oneway"] = "yes"
                yield stretch[begin : begin + LONGEST + 1].tolist(), tags


def write(path: Path, grid: Grid, draw: np.random.Generator) -> int:
    """Writes the file, and gives the number of ways."""
    import osmium
    from osmium.osm import mutable

    path.unlink(missing_ok=True)
    writer: Any = osmium.SimpleWriter(str(path))
    count = 0
    try:
        for node, (longitude, latitude) in enumerate(grid.degrees.tolist(), 1):
            writer.add_node(mutable.Node(id=node, version=1, location=(longitude, latitude)))
        for count, (nodes, tags) in enumerate(ways_of(grid, draw), 1):
            writer.add_way(mutable.Way(id=count, version=1, nodes=[node + 1 for node in nodes], tags=tags))
    finally:
        writer.close()
    return count


def main() -> None:
    args = parser_of(__doc__, "feed", "file", nodes=600_000, seed=1).parse_args()
    draw = np.random.default_rng(args.seed)
    grid = grid_of(ground_of(args.feed), args.nodes, draw)
    ways = write(Path(args.file), grid, draw)
    print(f"{args.file}: {grid.rows * grid.columns} nodes, {ways} ways")


if __name__ == "__main__":
    main()
