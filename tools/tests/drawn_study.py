"""A drawn town of twelve stops, a study of it with each kind of result, and the texts of the figures that it draws."""

import random
from dataclasses import dataclass
from typing import Any

import pytest

from helpers import CALENDAR, STOP_TIMES, Room

NORTHWARDS, EASTWARDS = 111_229, 71_673  # metres of a degree of the ellipsoid WGS 84 at 50.015 degrees north
STOPS = [f"S{number}" for number in range(12)]
SCENARIOS = ("base", "cut", "late")
SHARES, LIMITS, CUTOFFS = (25, 50), (600, 1800), (7.5, 10.0, 30.0)
NEAREST, NEAREST_BANDS, BANDS = (1, 3), (5.0, 12.0), (100.0, 1000.0)
MAP_ORIGIN, AREA_ORIGIN, AREA_BANDS = "S3", "S7", (10.0, 20.0, 30.0)
STUDY = f"""\
title = "Twelve stops"
[feed]
files = ["published"]
[run]
date = 2026-05-04
from = "08:00"
to = "08:04"
walk = 600
shares = {list(SHARES)}
limits = {list(LIMITS)}
[opportunities]
files = ["jobs.csv"]
column = "jobs"
people = "people.csv"
[scenarios]
files = ["cut.csv", "late.csv"]
[results]
csv = true
pairs = true
page = false
cutoffs = {list(CUTOFFS)}
nearest = {list(NEAREST)}
nearest_bands = {list(NEAREST_BANDS)}
bands = {list(BANDS)}
map_origins = ["{MAP_ORIGIN}"]
isochrones = ["{AREA_ORIGIN}"]
isochrone_bands = {list(AREA_BANDS)}
"""


@dataclass(frozen=True)
class DrawnStudy:
    """The inputs of a study: metres north and east of the first stop, and counts by stop."""

    places: dict[str, tuple[float, float]]
    counts: dict[str, dict[str, float]]  # jobs and schools
    people: dict[str, dict[str, int]]  # residents and old


@dataclass(frozen=True)
class FigureTexts:
    texts: list[str]  # title, subtitle and notes
    key: list[str]


def clock(seconds: int) -> str:
    return f"{seconds // 3600:02}:{seconds // 60 % 60:02}:{seconds % 60:02}"


def draw_study(room: Room, seed: int) -> DrawnStudy:
    """Writes the inputs of a study: forty trips of three routes between stops within some three kilometres."""
    draw = random.Random(seed)
    (room.folder / "published").mkdir()
    places = {stop: (draw.uniform(0, 3300), draw.uniform(0, 3500)) for stop in STOPS}
    rows = [[stop, f"Stop {stop}", 50 + y / NORTHWARDS, 7 + x / EASTWARDS] for stop, (y, x) in places.items()]
    room.write("published/stops.txt", "stop_id,stop_name,stop_lat,stop_lon", rows)
    room.write("published/routes.txt", "route_id,route_type", [["R", 3], ["Q", 3], ["P", 3]])
    room.write("published/calendar.txt", *CALENDAR)
    trips, times = list[list[Any]](), list[list[Any]]()
    for number in range(40):
        trips.append([draw.choice("RQP"), "M", f"T{number}"])
        second = 8 * 3600 + draw.randrange(2400)
        for order, stop in enumerate(draw.sample(STOPS, 4)):
            times.append([f"T{number}", clock(second), clock(second), stop, order])
            second += draw.randrange(60, 600)
    room.write("published/trips.txt", "route_id,service_id,trip_id", trips)
    room.write("published/stop_times.txt", STOP_TIMES, times)
    room.write("cut.csv", "action,id,seconds", [["remove_route", "Q", ""]])
    room.write("late.csv", "action,id,seconds", [["remove_route", "P", ""], ["shift_trip", "T0", 300]])
    jobs = {stop: draw.randrange(5000) / 10 for stop in STOPS}
    schools = {stop: draw.choice([0, 0, 0, 1, 2]) for stop in STOPS}
    room.write("jobs.csv", "stop_id,jobs,schools", [[stop, jobs[stop], schools[stop]] for stop in STOPS])
    people = {name: {stop: draw.randrange(most) for stop in STOPS} for name, most in (("residents", 50), ("old", 9))}
    room.write("people.csv", "stop_id,residents,old", [[stop, *[of[stop] for of in people.values()]] for stop in STOPS])
    (room.folder / "town.toml").write_text(STUDY)
    return DrawnStudy(
        places, {"jobs": jobs, "schools": {stop: float(count) for stop, count in schools.items()}}, people
    )


def noted_figures(monkeypatch: pytest.MonkeyPatch) -> dict[str, FigureTexts]:
    """What is written on each figure that is saved from now on, by the name of its file."""
    from ttm_tools.views import picture_files

    noted, write = dict[str, FigureTexts](), picture_files.write_picture

    def write_noted(path: str, figure: Any) -> None:
        key = [text.get_text() for legend in figure.legends for text in legend.get_texts()]
        folder, name = path.split("/")[-2:]  # the folder has its own name only when it is complete
        noted[f"{folder.rpartition('.')[2]}/{name}"] = FigureTexts([text.get_text() for text in figure.texts], key)
        write(path, figure)

    for module in ("ttm_tools.study.results.maps", "ttm_tools.study.results.tables"):
        monkeypatch.setattr(f"{module}.write_picture", write_noted)
    return noted
