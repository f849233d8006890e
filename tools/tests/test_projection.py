"""Lengths and areas on the ground: by the radii of the ellipsoid, whatever other places the feed has."""

import json
import math
import random
from pathlib import Path
from typing import Any

import numpy as np
import pytest

from helpers import CALENDAR, STOP_TIMES, Cell, Room, read, town_matrix

pytest.importorskip("pyproj")
AXIS, ECCENTRICITY = 6_378_137.0, 0.0066943799901413165  # of WGS 84: metres; squared
FAR = ["FAR", 5.0, -0.1]  # a stop that no trip serves


def radii(latitude: float) -> tuple[float, float]:
    """The metres of a radian along the meridian and along the parallel (Snyder 1987, page 24)."""
    root = 1 - ECCENTRICITY * math.sin(math.radians(latitude)) ** 2
    return AXIS * (1 - ECCENTRICITY) / root**1.5, AXIS / math.sqrt(root) * math.cos(math.radians(latitude))


def place(latitude: float, longitude: float, north: float, east: float) -> tuple[float, float]:
    """The place some metres north and east of another, a few kilometres at most."""
    middle = latitude + math.degrees(north / radii(latitude)[0]) / 2
    up = latitude + math.degrees(north / radii(middle)[0])
    return up, longitude + math.degrees(east / radii(up)[1])


def feed(room: Room, *stops: list[Any]) -> str:
    """A line A, B, C along 60 degrees north, 10 km between two stops, and other stops that no trip serves."""
    line = [[name, *place(60, 10, 0, 10_000 * number)] for number, name in enumerate("ABC")]
    room.write("stops.txt", "stop_id,stop_lat,stop_lon", [*line, *stops])
    room.write("routes.txt", "route_id,route_short_name,route_type", [["R", "7", 3]])
    room.write("calendar.txt", *CALENDAR)
    room.write("trips.txt", "route_id,service_id,trip_id", [["R", "M", "T"]])
    calls = [
        ["T", f"08:{20 * number:02}:00", f"08:{20 * number:02}:00", stop, number] for number, stop in enumerate("ABC")
    ]
    room.write("stop_times.txt", STOP_TIMES, calls)
    return str(room.folder)


OTHERS: list[list[list[Any]]] = [
    [],
    [FAR],
    [["S", 36.0, 10.0], ["S2", 36.1, 10.0], ["S3", 36.2, 10.0], ["S4", 36, 10.1]],
]


@pytest.mark.parametrize("others", OTHERS)
def test_vehicle_kilometres_are_those_on_the_ground(room: Room, others: list[list[Any]]) -> None:
    out, errors, status = room.ran("service", feed(room, *others), "--date", "20260504", "--by", "all")
    assert status == 0, errors
    (row,) = read(out)
    # along the parallel 20 km in 40 minutes; the shortest line between two stops is a centimetre shorter
    assert float(row["vehicle_kilometres"]) == pytest.approx(20, abs=0.01)
    assert float(row["kilometres_an_hour"]) == pytest.approx(30, abs=0.01)


@pytest.mark.parametrize("others", OTHERS)
def test_an_isochrone_has_the_area_on_the_ground(room: Room, others: list[list[Any]]) -> None:
    pytest.importorskip("shapely")
    # A and B are 900 metres apart; 500 metres are left to walk on from each, at a metre a second
    stops = [["A", 60.0, 10.0], ["B", *place(60, 10, 0, 900)], *others]
    room.write("stops.txt", "stop_id,stop_lat,stop_lon", stops)
    names = [str(stop[0]) for stop in stops]
    times: list[Cell] = [100, 100, *[""] * len(others)]
    rows = {"base": {"A": times}}
    matrix = room.folder / "m.csv"
    matrix.write_text(town_matrix(True, rows, stops=names))
    out = room.path("areas.geojson")
    walk = ["--speed", "1", "--detour", "1", "--bands", "10"]
    ran = room.ran("isochrones", "--feed", str(room.folder), "--origin", "A", *walk, "--out", out, str(matrix))
    assert ran[2] == 0, ran[1]
    (area,) = json.loads(Path(out).read_text())["features"]
    lens = 2 * (0.5**2 * math.acos(0.45 / 0.5) - 0.45 * math.sqrt(0.5**2 - 0.45**2))
    corners = math.sin(2 * math.pi / 48) / (2 * math.pi / 48)  # a circle has 48 corners
    wanted = 2 * math.pi * 0.5**2 * corners - lens
    assert area["properties"]["square_km"] == pytest.approx(wanted, rel=2e-3)
    # again, by the corners that the file states
    (north, east), (polygon,) = radii(60), area["geometry"]["coordinates"]
    ring = np.radians(np.array(polygon[0]) - [10, 60]) * [east, north] / 1000
    drawn = abs(np.sum(ring[:-1, 0] * ring[1:, 1] - ring[1:, 0] * ring[:-1, 1])) / 2
    assert drawn == pytest.approx(wanted, rel=2e-3)


@pytest.mark.parametrize("others", OTHERS[:2])
def test_cells_of_a_grid_are_as_wide_as_they_say(room: Room, others: list[list[Any]]) -> None:
    out = room.path("cells")
    ran = room.ran("points", feed(room, *others), "--grid", "400", "--out", out, "--leave-out")
    assert ran[2] == 0, ran[1]
    cells = {row["id"]: row for row in read(Path(out, "feed", "points.csv").read_text())}
    places = {name: (float(cell["lat"]), float(cell["lon"])) for name, cell in cells.items()}
    steps = []
    for latitude, longitude in places.values():
        if latitude < 59:
            continue
        near = [
            math.hypot(
                math.radians(up - latitude) * radii(latitude)[0], math.radians(right - longitude) * radii(latitude)[1]
            )
            for up, right in places.values()
            if (up, right) != (latitude, longitude)
        ]
        steps.append(min(near))
    assert len(steps) > 20 and steps == pytest.approx([400] * len(steps), rel=2e-3)


def test_areas_are_true_far_from_the_centre() -> None:
    pytest.importorskip("shapely")
    from shapely.geometry import Polygon

    from ttm_tools.gtfs.projection import Projection

    projection = Projection(np.array([0.0, 0.2, 0.1]), np.array([0.1, 0.1, 0.0]))
    # a strip of the ellipsoid from 60 to 61 degrees north, a degree wide (Snyder 1987, equation 3-12, by its series)
    steps = np.linspace(0, 1, 2001)
    still = np.zeros(2001)
    sides = [(steps, still), (still + 1, steps), (steps[::-1], still + 1), (still, steps[::-1])]
    ring = np.concatenate([np.stack([10 + east, 60 + north]) for east, north in sides], axis=1)
    e = math.sqrt(ECCENTRICITY)

    def q(latitude: float) -> float:
        sine = math.sin(math.radians(latitude))
        return (1 - e**2) * (sine / (1 - e**2 * sine**2) + math.atanh(e * sine) / e)

    wanted = AXIS**2 / 1e6 * math.radians(1) * (q(61) - q(60)) / 2
    assert Polygon(np.stack(projection.kilometres(*ring), axis=1)).area == pytest.approx(wanted, rel=1e-6)


def test_the_middle_is_where_most_places_are() -> None:
    from ttm_tools.gtfs.projection import middle_of

    north, east = np.array([60.0, 60.2, 60.1, 5.0, np.nan]), np.array([179.9, -179.9, 180.0, -0.1, np.nan])
    latitude, longitude = middle_of(north, east)
    assert 60 <= latitude <= 60.2 and abs(longitude) >= 179.9
    assert middle_of(np.array([0.0, 0.0]), np.array([0.0, 180.0])) == (0, 0)


def test_there_and_back() -> None:
    from ttm_tools.gtfs.projection import Projection

    draw = np.random.default_rng(86)
    north, east = draw.uniform(-80, 80, 500), draw.uniform(-180, 180, 500)
    for centre in range(0, 500, 50):
        projection = Projection(north[centre : centre + 1], east[centre : centre + 1])
        assert np.allclose(projection.degrees(*projection.kilometres(east, north)), [east, north], rtol=0, atol=1e-6)


def test_a_stop_far_from_all_others_is_reported(room: Room) -> None:
    wanted = "stops.txt: 1 stop over 100 km from the middle of all stops; the farthest, FAR, 6,1"
    out, _, status = room.ran("prepare", "--check", feed(room, FAR))
    (line,) = [line for line in out.splitlines() if "middle of all stops" in line]
    # 6,180 km: the meridian from 5 to 60 degrees has 6,106 km (WGS 84), and FAR lies 10 degrees to the west too
    assert status == 0 and line.startswith(wanted)
    assert "middle of all stops" not in room.ran("prepare", "--check", feed(room))[0]


@pytest.mark.parametrize("seed", range(4))
def test_drawn_isochrones_have_the_area_of_their_circles(room: Room, seed: int) -> None:
    pytest.importorskip("shapely")
    draw = random.Random(seed)
    centre = draw.uniform(-65, 65), draw.uniform(-179, 179)
    # places 4 km apart, with up to 20 minutes left at a metre a second: no two circles meet
    names = [f"P{number}" for number in range(16)]
    spots = [place(*centre, 4000 * (number // 4), 4000 * (number % 4)) for number in range(16)]
    room.write("stops.txt", "stop_id,stop_lat,stop_lon", [[name, *spot] for name, spot in zip(names, spots)])
    others: list[Cell] = ["" if draw.random() < 0.5 else draw.randrange(1, 2400) for _ in names[1:]]
    times: list[Cell] = [0, *others]
    matrix = room.folder / "m.csv"
    matrix.write_text(town_matrix(True, {"base": {"P0": times}}, stops=names))
    out, walk = room.path("areas.geojson"), ["--speed", "1", "--detour", "1", "--walk", "1200"]
    feed_and_origin = ["--feed", str(room.folder), "--origin", "P0"]
    ran = room.ran("isochrones", *feed_and_origin, *walk, "--bands", "20", "--out", out, str(matrix))
    assert ran[2] == 0, ran[1]
    (area,) = json.loads(Path(out).read_text())["features"]
    left = [1200 - time for time in times if isinstance(time, int) and time < 1200]
    corners = math.sin(2 * math.pi / 48) / (2 * math.pi / 48)  # a circle has 48 corners
    wanted = sum(math.pi * (seconds / 1000) ** 2 for seconds in left) * corners
    assert area["properties"]["square_km"] == pytest.approx(wanted, rel=1e-6, abs=1e-4)


@pytest.mark.parametrize("latitude, longitude", [(0.0, 0.1), (60.0, 5.9)])  # far from the middle of their UTM zones
def test_squares_along_streets_have_the_areas_of_the_ellipsoid(latitude: float, longitude: float) -> None:
    for package in ("geopandas", "pyproj"):
        pytest.importorskip(package)
    import geopandas
    from pyproj import Geod
    from ttm_tools.places.street_grid import grid_around
    from ttm_tools.streets.osm import Streets

    every = np.ones(1, np.bool_)
    ends = np.array([latitude, latitude]), np.array([longitude, longitude + 0.01])
    streets = Streets("", *ends, np.array([0]), np.array([1]), every, every)
    grid = grid_around(streets, np.array([latitude]), np.array([longitude]), 100)
    count = len(grid.cells)
    area = grid.within(np.zeros((1, count)), 0)
    assert count > 5 and area.area == pytest.approx(count * 100**2)
    (degrees,) = geopandas.GeoSeries([area], crs=grid.crs).to_crs(4326)
    on_ellipsoid = abs(Geod(ellps="WGS84").geometry_area_perimeter(degrees)[0])
    assert on_ellipsoid == pytest.approx(count * 100**2, rel=2e-5)
    assert grid.within(np.full((1, count), np.nan), 60).is_empty
