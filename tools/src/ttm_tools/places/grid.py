"""A grid of square cells as points of a study: over an area, or wherever somebody can walk to a stop.

A cell is called by its row from the south and its column from the west, counted from 1. Numbers of people, jobs and the
like come from points, which count in the cell in which they lie, and from polygons, which are shared out by area.
"""

from dataclasses import dataclass
from pathlib import Path
from typing import Any, Sequence

import numpy as np
import numpy.typing as npt

from ..core.arrays import Floats
from ..core.errors import InputError, needs
from ..core.notices import Notice
from ..core.limits import MOST_STOPS
from ..core.text import display_text, short_number
from ..gtfs.projection import Projection
from ..gtfs.stops import Stops
from .features import AREAS, POLYGONS, RECORD, checked, numbers_of, numeric_columns, read_features
from .read import Points, read_points

MOST_TRIED = 2_000_000  # squares of a bounding box
MOST_HELD = 500_000  # cells near stops, repeats included, before repeats are dropped
OUTSIDE = "outside all cells"
LEAST_OUTSIDE = 1e-6  # of a column's total; less is due to rounding
PATH = "grid"  # what faults name in place of a file
Squares = npt.NDArray[np.int64]


@dataclass(frozen=True)
class Grid:
    """Square cells: `squares` has a row for each, its row from the south and its column from the west, from 0."""

    projection: Projection
    side: float  # kilometres
    south: float  # of the first row, kilometres north of the centre of the projection
    west: float  # of the first column
    squares: Squares
    notes: tuple[str, ...] = ()  # what was repaired of the area

    def places(self) -> dict[tuple[int, int], int]:
        return {(row, column): place for place, (row, column) in enumerate(self.squares.tolist())}

    def square(self, row: int, column: int) -> Any:
        """The shape of a cell, in kilometres."""
        from shapely.geometry import box

        west, south = self.west + column * self.side, self.south + row * self.side
        return box(west, south, west + self.side, south + self.side)

    def points(self, columns: list[str], numbers: Floats) -> Points:
        """The cells as points, with numbers of what is there."""
        north, east = ((self.squares + 0.5) * self.side + [self.south, self.west]).T  # kilometres
        high, wide = [len(str(most + 1)) for most in self.squares.max(axis=0).tolist()]  # so that names sort by both
        names = [f"r{row + 1:0{high}d}c{column + 1:0{wide}d}" for row, column in self.squares.tolist()]
        widths = np.full(len(self.squares), self.side * 1000)
        longitudes, latitudes = (degrees.round(7) for degrees in self.projection.degrees(east, north))
        return Points(PATH, names, names, latitudes, longitudes, widths, columns, numbers)


@dataclass(frozen=True)
class FilledCells:
    """The cells of a grid with the numbers of some files."""

    points: Points
    outside: dict[str, float]  # by column, how much of it lies outside all cells
    sentences: list[str]  # on this, and on what was repaired


def grid_near(stops: Stops, side: float, metres: float) -> Grid:
    """The cells whose middle is within a distance in metres of a stop at which vehicles call."""
    called = stops.placed & (stops.kinds == 0)
    if not called.any():
        raise InputError(stops.path, "no stop has stop_lat and stop_lon, so there is no place for a grid")
    projection = Projection(stops.latitudes[called], stops.longitudes[called])
    east, north = projection.kilometres(stops.longitudes[called], stops.latitudes[called])
    side, reach = side / 1000, metres / 1000
    south, west = float(north.min()) - reach, float(east.min()) - reach
    refuse_tried(((2 * reach / side) + 1) ** 2)
    pieces, count = [np.zeros((0, 2), np.int64)], 0
    for up, right in zip((north - south).tolist(), (east - west).tolist()):
        rows, columns = (np.arange(int((at - reach) // side), int((at + reach) // side) + 1) for at in (up, right))
        off = ((rows + 0.5) * side - up)[:, None] ** 2 + ((columns + 0.5) * side - right)[None, :] ** 2
        pieces.append(np.argwhere(off <= reach**2) + [rows[0], columns[0]])
        count += len(pieces[-1])
        if count > MOST_HELD:
            pieces = [np.unique(np.concatenate(pieces), axis=0)]
            count = len(pieces[0])
            refuse_cells(count)
    return whole(Grid(projection, side, south, west, np.unique(np.concatenate(pieces), axis=0)))


def grid_over(path: str, side: float) -> Grid:
    """The cells that have a part in an area of polygons."""
    needs("shapely", "geopandas")
    from shapely.ops import transform, unary_union
    from shapely.prepared import prep

    frame, notes = checked(path, read_features(path))
    shapes = [shape for shape in frame.geometry if shape.geom_type in POLYGONS]
    if not shapes:
        raise InputError(path, "no polygon")
    bounds = np.array([shape.bounds for shape in shapes])
    projection = Projection(bounds[:, [1, 3]].ravel(), bounds[:, [0, 2]].ravel())
    area = unary_union([transform(projection.kilometres, shape) for shape in shapes])
    west, south, east, north = area.bounds
    side /= 1000
    counts = [int(np.ceil(length / side - 1e-9)) for length in (north - south, east - west)]
    refuse_tried(float(counts[0]) * counts[1])
    grid, inside = Grid(projection, side, south, west, np.zeros((0, 2), np.int64)), prep(area)
    found = []
    for row in range(counts[0]):
        if not inside.intersects(band(grid, row, counts[1])):
            continue
        near = [column for column in range(counts[1]) if inside.intersects(grid.square(row, column))]
        parts = ((column, area.intersection(grid.square(row, column)).area) for column in near)
        found += [(row, column) for column, part in parts if part > 1e-9 * side**2]
        refuse_cells(len(found))
    return whole(Grid(projection, side, south, west, np.array(found, np.int64).reshape(-1, 2), tuple(notes)))


def band(grid: Grid, row: int, count: int) -> Any:
    """A whole row of this many cells."""
    from shapely.ops import unary_union

    return unary_union([grid.square(row, 0), grid.square(row, count - 1)]).envelope


def whole(grid: Grid) -> Grid:
    """The same grid, if it has some cells and not too many."""
    refuse_cells(len(grid.squares))
    if not len(grid.squares):
        raise InputError(PATH, f"no cell of {1000 * grid.side:g} metres is within a walk of a stop: use smaller cells")
    return grid


def refuse_tried(count: float) -> None:
    if count > MOST_TRIED:
        raise InputError(PATH, f"{count:,.0f} cells are too many: use larger cells, or a smaller area")


def refuse_cells(count: int) -> None:
    if count > MOST_STOPS:
        what = f"more than {MOST_STOPS:,} cells, which is more than ttm takes: use larger cells"
        raise InputError(PATH, what, limit=MOST_STOPS)


def filled(grid: Grid, paths: Sequence[str]) -> FilledCells:
    """Sums the numbers of some files by cell."""
    columns, found, sentences = list[str](), [np.zeros((len(grid.squares), 0))], list(grid.notes)
    outside = dict[str, float]()
    for path in paths:
        frame = read_features(path) if Path(path).suffix.lower() in AREAS else None
        if frame is not None and any(frame.geom_type.isin(POLYGONS)):
            names, numbers, totals, notes = from_polygons(grid, path, frame)
            sentences += notes
        else:
            names, numbers, totals, notes = from_points(grid, path)
            sentences += notes
        twice = next((name for name in names if name in columns), None)
        if twice is not None:
            raise InputError(path, f"a column {display_text(twice)} is in another file too")
        columns += names
        found.append(numbers)
        lost = totals - numbers.sum(axis=0)
        lost[lost <= LEAST_OUTSIDE * np.maximum(totals, 1)] = 0
        outside |= dict(zip(names, lost.tolist()))
        sentences += sentences_on_outside(path, names, lost, totals)
    return FilledCells(grid.points(columns, np.concatenate(found, axis=1)), outside, sentences)


def sentences_on_outside(path: str, names: Sequence[str], lost: Floats, totals: Floats) -> list[str]:
    """How much of each column lies in no cell."""
    counts = [
        (name, *(short_number(round(number, 3)) for number in (outside, total)))
        for name, outside, total in zip(names, lost.tolist(), totals.tolist())
        if outside
    ]
    return [
        Notice(f"{path}: {outside} of {total} {display_text(name)} are {OUTSIDE}", "left out")
        for name, outside, total in counts
    ]


def from_points(grid: Grid, path: str) -> tuple[list[str], Floats, Floats, list[str]]:
    """The columns of a file of points, their sums by cell, their totals, and sentences on what isn't summed."""
    points = read_points(path)
    refuse_none(path, points.columns)
    right, up = grid.projection.kilometres(points.longitudes, points.latitudes)
    cells = np.floor(np.stack([up - grid.south, right - grid.west], axis=1) / grid.side + 1e-9).astype(np.int64)
    places, sums = grid.places(), np.zeros((len(grid.squares), len(points.columns)))
    at = np.array([places.get((row, column), -1) for row, column in cells.tolist()], dtype=np.intp)
    np.add.at(sums, at[at >= 0], points.numbers[at >= 0])
    return points.columns, sums, points.numbers.sum(axis=0), list(points.notes)


def from_polygons(grid: Grid, path: str, frame: Any) -> tuple[list[str], Floats, Floats, list[str]]:
    """The same of a file of polygons: a cell gets as much of a polygon's numbers as it has of its area. And sentences
    on what was repaired or isn't summed.
    """
    from shapely.ops import transform

    others = [column for column in frame.columns if column not in ("id", "width", "height", RECORD, "geometry")]
    names, notes = numeric_columns(path, frame, others)
    refuse_none(path, names)
    frame, repaired = checked(path, frame, names)
    numbers = numbers_of(path, frame, names)
    places, sums = grid.places(), np.zeros((len(grid.squares), len(names)))
    for record, shape in enumerate(frame.geometry):
        own = transform(grid.projection.kilometres, shape)
        for place, part in shares_of(grid, places, own):
            sums[place] += numbers[record] * part
    return list(map(str, names)), sums, numbers.sum(axis=0), [*notes, *repaired]


def shares_of(grid: Grid, places: dict[tuple[int, int], int], shape: Any) -> list[tuple[int, float]]:
    """The cells in which a shape lies, each with the share of its area; of a point or a line by where its middle is."""
    from shapely.prepared import prep

    if not shape.area:
        middle = shape.centroid
        cell = int((middle.y - grid.south) // grid.side), int((middle.x - grid.west) // grid.side)
        return [(places[cell], 1.0)] if cell in places else []
    west, south, east, north = shape.bounds
    rows = range(int((south - grid.south) // grid.side), int((north - grid.south) // grid.side) + 1)
    columns = range(int((west - grid.west) // grid.side), int((east - grid.west) // grid.side) + 1)
    if len(rows) * len(columns) <= len(places):
        near = [(row, column) for row in rows for column in columns if (row, column) in places]
    else:
        near = [(row, column) for row, column in places if row in rows and column in columns]
    inside, total = prep(shape), shape.area
    squares = [(places[square], grid.square(*square)) for square in near]
    return [
        (place, (square.area if inside.contains(square) else shape.intersection(square).area) / total)
        for place, square in squares
        if inside.intersects(square)
    ]


def refuse_none(path: str, names: Sequence[str]) -> None:
    if not names:
        raise InputError(path, "no column of numbers")
