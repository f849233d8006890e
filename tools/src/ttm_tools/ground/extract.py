"""Reads the ground from an extract of OpenStreetMap (.osm.pbf, .osm ..)."""

from collections import defaultdict
from typing import Any

import numpy as np

from ..core.arrays import Floats
from ..core.errors import InputError, needs
from ..core.reading import as_one_line, regular
from .contents import UNIT, Box, Ground, Name, Shapes
from .tags import AREAS, KEYS, LINES, area_of, line_of, name_of
from .thinning import signed_hectares, thinned

WORLD: Box = (-180.0, -90.0, 180.0, 90.0)
LEAST_HECTARES = {"water": 0.05, "park": 0.25}
LEAST_NAMED = {"water": 2.0, "park": 4.0}  # hectares, from which on an area's name is kept


class Collector:
    """Collects objects of pyosmium that overlap a box."""

    def __init__(self, box: Box) -> None:
        self.box = box
        self.rows: dict[str, list[Floats]] = {kind: [] for kind in (*AREAS, *LINES)}
        self.names = list[Name]()
        self.waters: dict[str, list[Floats]] = defaultdict(list)  # rivers by name

    def is_near(self, row: Floats) -> bool:
        west, south, east, north = self.box
        (low, left), (high, right) = row.min(axis=0), row.max(axis=0)
        return bool(left <= east and right >= west and low <= north and high >= south)

    def node(self, node: Any) -> None:
        if not len(node.tags):
            return
        tags = {key: node.tags[key] for key in ("name", "place", "railway", "population") if key in node.tags}
        kind = name_of(tags)
        if kind is None or not node.location.valid():
            return
        latitude, longitude = float(node.location.lat), float(node.location.lon)
        if self.is_near(np.array([[latitude, longitude]])):
            people = tags.get("population", "").replace(" ", "").replace(",", "")
            weight = float(people) if people.isdecimal() else 0.0
            self.names.append(Name(kind, tags["name"], latitude, longitude, weight))

    def way(self, way: Any) -> None:
        tags = {key: way.tags[key] for key in KEYS if key in way.tags}
        kind = line_of(tags)
        row = row_of(way.nodes) if kind else None
        if row is None or len(row) < 2 or not self.is_near(row):
            return
        self.rows[str(kind)].append(row)
        if kind == "river" and tags.get("name"):
            self.waters[tags["name"]].append(row)

    def area(self, area: Any) -> None:
        tags = {key: area.tags[key] for key in KEYS if key in area.tags}
        kind = area_of(tags)
        if kind is None:
            return
        for outer in area.outer_rings():
            row = row_of(outer)
            size = abs(signed_hectares(row))
            if len(row) < 4 or size < LEAST_HECTARES[kind] or not self.is_near(row):
                continue
            holes = [turned(hole, False) for hole in map(row_of, area.inner_rings(outer)) if len(hole) > 3]
            self.rows[kind] += [turned(row, True), *holes]
            if tags.get("name") and size >= LEAST_NAMED[kind] and tags.get("water") != "river":
                self.names.append(Name(kind, tags["name"], *middle_of(row), size))

    def ground(self) -> Ground:
        """Returns the ground of all that was taken."""
        shapes = {kind: thinned(Shapes.of(rows)) for kind, rows in self.rows.items()}
        rivers = [Name("water", name, *middle_of(max(rows, key=len)), 100.0) for name, rows in self.waters.items()]
        order = sorted([*self.names, *rivers], key=lambda name: (-name.weight, name.text, name.latitude))
        return Ground(box_of(shapes, self.box), shapes, order)


def row_of(nodes: Any) -> Floats:
    """Latitudes and longitudes of a way's nodes, without those that are not in the file."""
    places = [(node.lat, node.lon) for node in nodes if node.location.valid()]
    return np.array(places, dtype=np.float64).reshape(-1, 2)


def turned(ring: Floats, to_left: bool) -> Floats:
    """A ring that turns to the left, or to the right, so that areas that overlap are filled and holes are not."""
    is_left = signed_hectares(ring) > 0
    return ring if is_left == to_left else ring[::-1]


def middle_of(row: Floats) -> tuple[float, float]:
    """The middle of the box around a ring, or the middle point of a line."""
    is_ring = len(row) > 3 and bool((row[0] == row[-1]).all())
    place = (row.min(axis=0) + row.max(axis=0)) / 2 if is_ring else row[len(row) // 2]
    return float(place[0]), float(place[1])


def box_of(shapes: dict[str, Shapes], limits: Box) -> Box:
    """The box around all shapes, cut at limits."""
    points = np.concatenate([some.points for some in shapes.values()]) / UNIT
    (south, west), (north, east) = points.min(axis=0).tolist(), points.max(axis=0).tolist()
    return max(west, limits[0]), max(south, limits[1]), min(east, limits[2]), min(north, limits[3])


def read_ground(path: str, box: Box = WORLD) -> Ground:
    """Returns the ground of an extract within a box.

    Raises
    ------
    InputError
        The file is not OpenStreetMap's, or has nothing in the box that is drawn.
    """
    needs("osmium")
    import osmium

    regular(path)
    collector = Collector(box)
    handler = osmium.make_simple_handler(collector.node, collector.way, area=collector.area)
    with as_one_line(path, "not read as OpenStreetMap"):
        handler.apply_file(path, locations=True)
    if not any(collector.rows.values()):
        where = "" if box == WORLD else " there"
        raise InputError(path, f"no street, railway, water or park{where}")
    return collector.ground()
