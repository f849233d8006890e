"""Drawn isochrones of circles, oblongs and streets, next to plain formulas that share no code with the tools."""

import csv
import json
import math
import random
from dataclasses import dataclass
from pathlib import Path
from typing import Any, Iterator, Mapping, Sequence

import pytest
from pyproj import Geod

from helpers import METRE, Room, town_matrix
from streets import write_osm
from ttm_tools.gtfs.projection import Projection
from ttm_tools.gtfs.stops import read_stops
from ttm_tools.places.street_grid import StreetGrid
from ttm_tools.places.walked_squares import SIDE
from ttm_tools.streets.osm import read_streets

shapely = pytest.importorskip("shapely")
WGS84 = Geod(ellps="WGS84")
CORNERS = 48  # of a circle that the command draws; the circle through the middles of its sides is smaller by a cosine
STOPS = [f"P{number}" for number in range(16)]
SCENARIOS, SHARES, BANDS = ("base", "cut"), (25, 50), (10.0, 17.5, 30.0)
LINE = 5.0  # metres between lines on which areas are measured; edges of oblongs lie between two of them
Spot = tuple[float, float]  # metres north and east of the origin
Cell = int | str
NEVER: Cell = ""


@dataclass(frozen=True)
class DrawnAreas:
    """Places of stops, the seconds to each from the first, and the oblongs of some of them, in metres."""

    spots: list[Spot]
    seconds: dict[tuple[str, int], list[float]]  # infinite where a stop is not reached
    sides: dict[str, tuple[float, float]]  # width and height
    walk: int
    speed: float
    detour: float

    def radius(self, stop: int, scenario: str, share: int, minutes: float) -> float:
        """The metres of a walk on from a stop, below 0 if it is not reached in time."""
        left = 60 * minutes - self.seconds[scenario, share][stop]
        return min(left, self.walk) * self.speed / self.detour if left >= 0 else -1


def draw_areas(room: Room, draw: random.Random, with_sides: bool) -> tuple[DrawnAreas, list[str]]:
    """Writes a feed, a matrix of one origin, people and oblongs; returns them with the arguments of the command."""
    latitude, longitude = draw.choice([(0.4, 11.0), (47.3, 8.5), (-41.2, 179.99), (65.0, -20.0)])
    spots = [(0.0, 0.0), *((LINE * draw.randrange(-600, 600), draw.gauss(0, 1500)) for _ in STOPS[1:])]
    rows: list[list[Any]] = []
    for stop, (north, east) in zip(STOPS, spots):
        azimuth, metres = math.degrees(math.atan2(east, north)), math.hypot(north, east)
        lon, lat, _ = WGS84.fwd(longitude, latitude, azimuth, metres)
        rows.append([stop, f"Stop {stop}", repr(lat), repr(lon)])
    room.write("stops.txt", "stop_id,stop_name,stop_lat,stop_lon", rows)
    cells: dict[str, list[Cell]] = {
        name: [0, *(draw.choice([draw.randrange(2000), draw.randrange(900), NEVER]) for _ in STOPS[1:])]
        for name in SCENARIOS
    }
    text = town_matrix(True, {name: {"P0": own} for name, own in cells.items()}, SHARES, stops=STOPS)
    Path(room.path("matrix.csv")).write_text(text)
    with open(room.path("matrix.csv"), newline="") as file:
        lines = [row for row in csv.reader(file)][1:]
    seconds = {(row[0], int(row[2])): [float(cell or "inf") for cell in row[4:]] for row in lines}
    sides = {stop: (draw.uniform(80, 900), 2 * LINE * draw.randrange(8, 90)) for stop in STOPS[2:9]}
    sides = sides if with_sides else {}
    points = [[row[0], *row[2:], *sides.get(row[0], ("", ""))] for row in rows]
    people = [[stop, 1 + place, 0.25 * place] for place, stop in enumerate(STOPS)]
    walk, speed, detour = draw.choice([240, 600, 1200]), draw.choice([1.0, 1.33]), draw.choice([1.0, 1.3])
    words = ["--feed", str(room.folder), "--people", room.write("people.csv", "stop_id,people,jobs", people)]
    words += ["--points", room.write("cells.csv", "id,lat,lon,width,height", points)] if with_sides else []
    words += ["--walk", str(walk), "--speed", str(speed), "--detour", str(detour)]
    return DrawnAreas(spots, seconds, sides, walk, speed, detour), words


def isochrones(room: Room, words: Sequence[str]) -> list[dict[str, Any]]:
    out, bands = room.path("areas.geojson"), ",".join(f"{band:g}" for band in BANDS)
    command = ["isochrones", "--origin", "P0", "--bands", bands, *words, "--out", out, room.path("matrix.csv")]
    _, errors, status = room.ran(*command)
    assert status == 0, errors
    found = json.loads(Path(out).read_text())["features"]
    assert isinstance(found, list)
    return found


def spans_at(drawn: DrawnAreas, kind: tuple[str, int, float], north: float, shrunk: float) -> Iterator[Spot]:
    """The pieces of a line from west to east within the circles and oblongs."""
    for place, (y, x) in enumerate(drawn.spots):
        radius = drawn.radius(place, *kind)
        if STOPS[place] in drawn.sides:
            wide, high = drawn.sides[STOPS[place]]
            if radius >= 0 and abs(north - y) < high / 2:
                yield x - wide / 2, x + wide / 2
        elif radius * shrunk > abs(north - y):
            half = math.sqrt((radius * shrunk) ** 2 - (north - y) ** 2)
            yield x - half, x + half


def area_of(drawn: DrawnAreas, kind: tuple[str, int, float], shrunk: float) -> float:
    """Square kilometres of circles and oblongs together, line by line; radii are shrunk by a factor."""
    whole = 0.0
    for line in range(-1000, 1000):
        end = -math.inf
        for begin, last in sorted(spans_at(drawn, kind, (line + 0.5) * LINE, shrunk)):
            whole += max(0.0, last - max(begin, end)) * LINE
            end = max(end, last)
    return whole / 1e6


def is_inside(drawn: DrawnAreas, kind: tuple[str, int, float], spot: Spot, more: float) -> bool:
    """Whether a place is within a circle or oblong that is larger by some metres on all sides."""
    for place, (y, x) in enumerate(drawn.spots):
        radius, off = drawn.radius(place, *kind), (abs(spot[0] - y), abs(spot[1] - x))
        wide, high = drawn.sides.get(STOPS[place], (0.0, 0.0))
        if wide and radius >= 0 and off[0] <= high / 2 + more and off[1] <= wide / 2 + more:
            return True
        if not wide and radius > 0 and math.hypot(*off) <= radius + more:
            return True
    return False


def check_ground(drawn: DrawnAreas, kind: tuple[str, int, float], geometry: Any, origin: Spot) -> None:
    """Compares places around each stop with the shape that was written, but for those near an edge."""
    draw, shape = random.Random(7), shapely.geometry.shape(geometry)
    for y, x in drawn.spots:
        for _ in range(6):
            spot = y + draw.gauss(0, 500), x + draw.gauss(0, 500)
            within, beyond = (is_inside(drawn, kind, spot, more) for more in (-5, 5))
            azimuth = math.degrees(math.atan2(spot[1], spot[0]))
            longitude, latitude, _ = WGS84.fwd(origin[1], origin[0], azimuth, math.hypot(*spot))
            if within == beyond:
                assert shape.contains(shapely.geometry.Point(longitude, latitude)) == within, (kind, spot)


@pytest.mark.parametrize("with_sides", [False, True])
@pytest.mark.parametrize("seed", range(3))
def test_drawn_areas_are_those_of_plain_formulas(room: Room, seed: int, with_sides: bool) -> None:
    drawn, words = draw_areas(room, random.Random(seed), with_sides)
    features = isochrones(room, words)
    wanted = [(name, share, band) for band in reversed(BANDS) for name in SCENARIOS for share in SHARES]
    with open(room.path("stops.txt"), newline="") as file:
        first = next(csv.DictReader(file))
    origin = float(first["stop_lat"]), float(first["stop_lon"])
    for feature, kind in zip(features, wanted, strict=True):
        found = feature["properties"]
        assert (found["origin"], found["scenario"], found["percentile"], found["minutes"]) == ("P0", *kind)
        near = [place for place, seconds in enumerate(drawn.seconds[kind[:2]]) if seconds <= 60 * kind[2]]
        assert (found["reached"], found["people"]) == (len(near), sum(1 + place for place in near))
        assert found["jobs"] == sum(0.25 * place for place in near)
        least, most = area_of(drawn, kind, math.cos(math.pi / CORNERS)), area_of(drawn, kind, 1)
        assert 0.999 * least - 1e-4 <= found["square_km"] <= 1.001 * most + 1e-4, (kind, least, most)
        if abs(origin[1]) < 179:
            check_ground(drawn, kind, feature["geometry"], origin)


# Along streets.

ROAD = {"highway": "residential"}


@dataclass(frozen=True)
class DrawnStreets:
    nodes: Mapping[int, Spot]
    edges: list[tuple[int, int]]
    starts: dict[str, tuple[int, float]]  # the node at which a stop lies, and the metres that are left there


def draw_streets(room: Room, draw: random.Random) -> tuple[DrawnStreets, list[str]]:
    """Writes a grid of streets with gaps, and three stops at nodes of it."""
    nodes = {
        6 * row + column: (220.0 * row, 220.0 * column + draw.uniform(-40, 40))
        for row in range(6)
        for column in range(6)
    }
    edges = [
        (a, b) for a in nodes for b in (a + 1, a + 6) if b in nodes and (b - a == 6 or b % 6) and draw.random() < 0.75
    ]
    path = write_osm(
        room.folder / "streets.osm",
        {a + 1: spot for a, spot in nodes.items()},
        [([a + 1, b + 1], ROAD) for a, b in edges],
    )
    chosen = draw.sample([node for edge in edges for node in edge], 3)
    stops = [[f"P{place}", nodes[node][0] * METRE, 1 + nodes[node][1] * METRE] for place, node in enumerate(chosen)]
    room.write("stops.txt", "stop_id,stop_lat,stop_lon", stops)
    seconds, walk = [0, draw.randrange(200, 500), draw.randrange(200, 650)], 420
    Path(room.path("matrix.csv")).write_text(
        f"scenario,origin,access,P0,P1,P2\nbase,P0,1,{','.join(map(str, seconds))}\n"
    )
    left = [min(600 - time, walk) * 1.25 for time in seconds]
    starts = {f"P{place}": (node, metres) for place, (node, metres) in enumerate(zip(chosen, left))}
    words = ["--feed", str(room.folder), "--streets", path, "--walk", str(walk), "--speed", "1.25", "--detour", "1.4"]
    return DrawnStreets(nodes, edges, starts), words


def left_at_nodes(streets: DrawnStreets) -> dict[int, float]:
    """The metres that are left at each node, by passes over all streets until nothing changes; below 0 for none."""
    left = dict.fromkeys(streets.nodes, -math.inf)
    for node, metres in streets.starts.values():
        left[node] = max(left[node], metres)
    for _ in streets.nodes:
        for a, b in [*streets.edges, *((b, a) for a, b in streets.edges)]:
            left[b] = max(left[b], left[a] - math.dist(streets.nodes[a], streets.nodes[b]))
    return left


def left_at(streets: DrawnStreets, left: Mapping[int, float], spot: Spot) -> float:
    """The metres that are left at a place, which is reached from the nearest street."""
    found = list[tuple[float, float]]()
    for a, b in streets.edges:
        (y, x), (v, u) = streets.nodes[a], streets.nodes[b]
        length = math.dist((y, x), (v, u))
        part = min(1.0, max(0.0, ((spot[0] - y) * (v - y) + (spot[1] - x) * (u - x)) / length**2))
        away = math.dist(spot, (y + part * (v - y), x + part * (u - x)))
        found.append((away, max(left[a] - part * length, left[b] - (1 - part) * length)))
    away, there = min(found, key=lambda pair: (pair[0], -pair[1]))
    return there - away


@pytest.mark.parametrize("seed", range(5))
def test_drawn_streets_are_reached_as_by_plain_passes(room: Room, seed: int) -> None:
    for package in ("osmium", "scipy"):
        pytest.importorskip(package)
    draw = random.Random(seed)
    streets, words = draw_streets(room, draw)
    area = isochrones(room, words)[-1]
    shape, left = shapely.geometry.shape(area["geometry"]), left_at_nodes(streets)
    grid = StreetGrid(read_streets(room.path("streets.osm")), projection_of(room), SIDE)
    spots = [(north / METRE, (east - 1) / METRE) for east, north in zip(*(part.tolist() for part in grid.middles()))]
    metres = [left_at(streets, left, spot) for spot in spots]
    reached = [spot for spot, rest in zip(spots, metres) if rest > -4]  # or nearly
    counts = [0, 0]
    for spot, rest in zip(spots, metres):
        place = shapely.geometry.Point(1 + spot[1] * METRE, spot[0] * METRE)
        if rest > 4:  # the sphere of the streets and the ellipsoid of areas differ by 0.7 %
            assert shape.contains(place), (spot, rest)
            counts[1] += 1
        elif all(max(abs(spot[0] - y), abs(spot[1] - x)) > 2.5 * SIDE for y, x in reached):
            assert not shape.contains(place), (spot, rest)
            counts[0] += 1
    assert counts[0] > 5 and counts[1] > 20
    assert area["properties"]["square_km"] >= 0.01 * counts[1] - 1e-6


def projection_of(room: Room) -> Projection:
    """The projection that the command chooses: around the stops."""
    stops = read_stops(str(room.folder))
    return Projection(stops.latitudes, stops.longitudes)
