"""Drawn people in cells, and drawn damage of a feed, next to plain formulas."""

import csv
import itertools
import json
import random
import re
from pathlib import Path
from typing import Sequence

import pytest
from pyproj import Geod

from helpers import CALENDAR, EASTWARDS, NORTHWARDS, STOP_TIMES, Room, Table, read
from test_points import PACE, feed

WGS84 = Geod(ellps="WGS84")
SIDE, UNSURE = 200.0, 0.2  # metres; people so near the edge of a cell may count on either side
COMMAS = ("stop_lat", "stop_lon")
PADDED = ("stop_id", "trip_id", "route_id", "service_id", "arrival_time", "departure_time", "stop_sequence")


def offsets(cell: dict[str, str], person: tuple[float, float]) -> tuple[float, float]:
    """How many metres north and east of a cell's centre a person is, on the ellipsoid."""
    latitude, longitude = float(cell["lat"]), float(cell["lon"])
    _, _, north = WGS84.inv(longitude, latitude, longitude, person[0])
    _, _, east = WGS84.inv(longitude, person[0], person[1], person[0])
    return north if person[0] >= latitude else -north, east if person[1] >= longitude else -east


@pytest.mark.parametrize("seed", range(4))
def test_drawn_people_count_in_the_cell_in_which_they_live(room: Room, seed: int) -> None:
    draw = random.Random(seed)
    spots = [(draw.uniform(-500, 500) * NORTHWARDS, 1 + draw.uniform(-500, 1500) * EASTWARDS) for _ in range(150)]
    numbers = [draw.choice([0, 1, 2.5, 0.125]) for _ in spots]
    rows = [[f"p{place}", *spot, number] for place, (spot, number) in enumerate(zip(spots, numbers))]
    people = room.write("people.csv", "id,lat,lon,people", rows)
    arguments = ["--grid", str(SIDE), "--people", people, "--out", room.path("doors"), "--limit", "300", *PACE]
    _, errors, status = room.ran("points", feed(room), *arguments)
    assert status == 0, errors
    cells = read(Path(room.path("doors/feed/points.csv")).read_text())
    sure, unsure, outside = [0.0] * len(cells), [0.0] * len(cells), sum(numbers)
    for spot, number in zip(spots, numbers):
        for place, cell in enumerate(cells):
            north, east = offsets(cell, spot)
            beyond = max(abs(north), abs(east)) - SIDE / 2
            sure[place] += number if beyond < -UNSURE else 0
            unsure[place] += number if abs(beyond) <= UNSURE else 0
    for cell, least, more in zip(cells, sure, unsure):
        assert least <= float(cell["people"]) <= least + more
        outside -= float(cell["people"])
    whole = sum(float(cell["people"]) for cell in cells)
    sentence = f"{people}: {outside:g} of {sum(numbers):g} people are outside all cells"
    assert 0 < whole < sum(numbers) and sentence in errors.splitlines()


def area_of(corners: Sequence[tuple[float, float]]) -> float:
    """The area within corners."""
    pairs = zip(corners, [*corners[1:], *corners[:1]])
    return abs(sum(y * u - v * x for (y, x), (v, u) in pairs)) / 2


def area_in_square(corners: list[tuple[float, float]], half: float) -> float:
    """The area of a convex polygon in a square around 0, which cuts it side by side (Sutherland and Hodgman 1974)."""
    for axis, sign in itertools.product((0, 1), (1, -1)):
        kept = list[tuple[float, float]]()
        for one, other in zip(corners, [*corners[1:], *corners[:1]]):
            before, after = sign * one[axis] - half, sign * other[axis] - half
            if before <= 0:
                kept.append(one)
            if before * after < 0:
                part = before / (before - after)
                kept.append((one[0] + part * (other[0] - one[0]), one[1] + part * (other[1] - one[1])))
        corners = kept
    return area_of(corners) if corners else 0.0


@pytest.mark.parametrize("seed", range(4))
def test_drawn_people_of_areas_are_shared_out_as_plain_clipping_says(room: Room, seed: int) -> None:
    pytest.importorskip("geopandas")
    draw, features, triangles = (
        random.Random(seed),
        list[dict[str, object]](),
        list[tuple[list[tuple[float, float]], int]](),
    )
    for number in range(12):
        north, east = draw.uniform(-700, 700), draw.uniform(-700, 1700)
        corners = [(north + draw.uniform(-350, 350), east + draw.uniform(-350, 350)) for _ in range(3)]
        spots = [(y * NORTHWARDS, 1 + x * EASTWARDS) for y, x in corners]
        ring = [[x, y] for y, x in [*spots, spots[0]]]
        properties = {"id": number, "people": draw.randrange(1, 900)}
        shape = {"type": "Polygon", "coordinates": [ring]}
        features.append({"type": "Feature", "geometry": shape, "properties": properties})
        triangles.append((spots, properties["people"]))
    path = Path(room.path("areas.geojson"))
    path.write_text(json.dumps({"type": "FeatureCollection", "features": features}))
    arguments = ["--grid", str(SIDE), "--people", str(path), "--out", room.path("doors"), "--limit", "300", *PACE]
    _, errors, status = room.ran("points", feed(room), *arguments)
    assert status == 0, errors
    inside = 0.0
    for cell in read(Path(room.path("doors/feed/points.csv")).read_text()):
        wanted = 0.0
        for spots, people in triangles:
            corners = [offsets(cell, spot) for spot in spots]
            wanted += people * area_in_square(corners, SIDE / 2) / area_of(corners)
        assert float(cell["people"]) == pytest.approx(wanted, rel=3e-4, abs=0.02)
        inside += wanted
    whole = sum(people for _, people in triangles)
    (lost,) = re.findall(r"areas\.geojson: ([\d.]+) of (\d+) people are outside all cells", errors)
    assert int(lost[1]) == whole and float(lost[0]) == pytest.approx(whole - inside, abs=0.2) and inside > whole / 20


def write_drawn_feed(room: Room, draw: random.Random, name: str) -> Path:
    """A feed of eight stops and six trips with drawn stops and times, whose fields are clean."""
    (room.folder / name).mkdir()
    stops = [
        [f"S{n}", f"Stop {n}", f"50.{draw.randrange(1, 999):03}", f"8.{draw.randrange(1, 999):03}"] for n in range(8)
    ]
    room.write(f"{name}/stops.txt", "stop_id,stop_name,stop_lat,stop_lon", stops)
    room.write(f"{name}/routes.txt", "route_id", [["R0"], ["R1"]])
    room.write(f"{name}/calendar.txt", *CALENDAR)
    trips: Table = [[f"R{draw.randrange(2)}", "M", f"T{n}"] for n in range(6)]
    room.write(f"{name}/trips.txt", "route_id,service_id,trip_id", trips)
    times: Table = []
    for trip, call in itertools.product(range(6), range(4)):
        time = f"{8 + trip:02}:{10 * call:02}:{draw.randrange(60):02}"
        times.append([f"T{trip}", time, time, f"S{draw.randrange(8)}", call])
    room.write(f"{name}/stop_times.txt", STOP_TIMES, times)
    return room.folder / name


def damage(path: Path, draw: random.Random, with_commas: bool) -> None:
    """Pads a third of the fields that other files refer to, and writes all coordinates with a decimal comma."""
    header, *rows = list(csv.reader(path.read_text().splitlines()))
    for row, (place, column) in itertools.product(rows, enumerate(header)):
        if column in PADDED and draw.random() < 1 / 3:
            row[place] = draw.choice([f" {row[place]}", f"{row[place]}  ", f" {row[place]} "])
        if column in COMMAS and with_commas:
            row[place] = row[place].replace(".", ",")
    with open(path, "w", newline="") as file:
        csv.writer(file, lineterminator="\n").writerows([header, *rows])


@pytest.mark.parametrize("seed", range(6))
def test_a_drawn_feed_with_padding_and_decimal_commas_is_repaired_to_what_it_was(room: Room, seed: int) -> None:
    clean = write_drawn_feed(room, random.Random(seed), "clean")
    damaged = write_drawn_feed(room, random.Random(seed), "damaged")
    draw = random.Random(seed)
    for path in sorted(damaged.glob("*.txt")):
        damage(path, draw, seed % 2 == 0)
    assert (damaged / "stop_times.txt").read_bytes() != (clean / "stop_times.txt").read_bytes()
    for feed_folder in (clean, damaged):
        out = room.path(f"{feed_folder.name}-out")
        _, errors, status = room.ran("prepare", "--repair", "--out", out, str(feed_folder))
        assert status == 0, errors
    wanted = {path.name: path.read_bytes() for path in (room.folder / "clean-out").glob("*.txt")}
    assert {path.name: path.read_bytes() for path in (room.folder / "damaged-out").glob("*.txt")} == wanted
    assert wanted["stop_times.txt"].count(b"\n") == 25
