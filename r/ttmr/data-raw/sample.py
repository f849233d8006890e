#!/usr/bin/env python3
"""Write the sample town of ttm-tools and of the R package: a feed, its streets, homes, jobs and clinics.

    sample.py FOLDER      tools/src/ttm_tools/data/town

The feed and the streets come from the generators in bench: the town of the tutorial, and a street grid of some 4,000
crossings. Homes, jobs and clinics are at crossings. The same version of the generators writes the same town. Needs
numpy and pyosmium.
"""

from __future__ import annotations

import csv
import math
import random
import subprocess
import sys
import tempfile
import zipfile
from pathlib import Path
from typing import Sequence

BENCH = Path(__file__).resolve().parents[3] / "bench"
CROSSINGS = 4000
HOMES, WORKPLACES = 150, 100
CENTRE = (51.5, -0.1)  # latitude and longitude
CLINICS = {"north": (51.524, -0.098), "middle": (51.5, -0.104), "south": (51.473, -0.094)}
BEDS = {"north": 120, "middle": 340, "south": 80}
INCOMES = (("low", 9_000, 19_000), ("middle", 19_000, 36_000), ("high", 36_000, 70_000))
TABLES = (
    "calendar.txt",
    "calendar_dates.txt",
    "routes.txt",
    "stop_times.txt",
    "stops.txt",
    "transfers.txt",
    "trips.txt",
)

Place = tuple[float, float]


def write_feed(made: Path, path: Path) -> None:
    """Write the zip file of a generated feed, with a fixed time of change."""
    with zipfile.ZipFile(path, "w", zipfile.ZIP_DEFLATED, compresslevel=9) as archive:
        for name in TABLES:
            entry = zipfile.ZipInfo(name, (2000, 1, 1, 0, 0, 0))
            entry.compress_type = zipfile.ZIP_DEFLATED
            archive.writestr(entry, (made / name).read_bytes())


def stops_of(made: Path) -> list[Place]:
    """Return latitude and longitude of the stops."""
    with open(made / "stops.txt", encoding="utf-8", newline="") as file:
        rows = [row for row in csv.DictReader(file) if row["stop_lat"]]
    return [(float(row["stop_lat"]), float(row["stop_lon"])) for row in rows]


def places_near(stops: Sequence[Place], count: int, draw: random.Random) -> list[Place]:
    """Draw places, each within some 300 m of a stop, rounded to six decimals."""
    places = []
    for latitude, longitude in draw.sample(stops, count):
        north, east = draw.uniform(-0.0025, 0.0025), draw.uniform(-0.004, 0.004)
        places.append((round(latitude + north, 6), round(longitude + east, 6)))
    return sorted(places, reverse=True)


def nearness(place: Place) -> float:
    """Return 1 in the centre, less with the distance from it."""
    north, east = place[0] - CENTRE[0], (place[1] - CENTRE[1]) * 0.62
    return math.exp(-math.hypot(north, east) / 0.02)


def write_table(path: Path, header: Sequence[str], rows: Sequence[Sequence[object]]) -> None:
    with open(path, "w", encoding="utf-8", newline="") as file:
        writer = csv.writer(file, lineterminator="\n")
        writer.writerow(header)
        writer.writerows(rows)


def write_places(folder: Path, stops: Sequence[Place]) -> None:
    """Write homes, jobs and clinics."""
    draw = random.Random(1)
    homes = []
    for number, place in enumerate(places_near(stops, HOMES, draw), 1):
        group, least, most = INCOMES[draw.choices((0, 1, 2), (3, 4, 2))[0]]
        people, income = draw.randrange(40, 900), draw.randrange(least, most, 100)
        homes.append((f"h{number:03}", *place, people, income, group))
    write_table(folder / "homes.csv", ("id", "lat", "lon", "people", "income", "income_group"), homes)
    jobs = []
    for number, place in enumerate(places_near(stops, WORKPLACES, draw), 1):
        jobs.append((f"j{number:03}", *place, round(20 + draw.uniform(0.5, 1.5) * 4000 * nearness(place))))
    write_table(folder / "jobs.csv", ("id", "lat", "lon", "jobs"), jobs)
    clinics = [(name, *place, BEDS[name]) for name, place in CLINICS.items()]
    write_table(folder / "clinics.csv", ("id", "lat", "lon", "beds"), clinics)


def main() -> int:
    if len(sys.argv) != 2:
        print(__doc__, file=sys.stderr)
        return 2
    folder = Path(sys.argv[1])
    folder.mkdir(parents=True, exist_ok=True)
    with tempfile.TemporaryDirectory(prefix="ttmr-sample-") as made:
        subprocess.run([sys.executable, BENCH / "feedgen.py", "town", made], check=True, stdout=subprocess.DEVNULL)
        command = [sys.executable, BENCH / "streetgen.py", made, folder / "town.osm.pbf", "--nodes", str(CROSSINGS)]
        subprocess.run(command, check=True, stdout=subprocess.DEVNULL)
        write_feed(Path(made), folder / "town.zip")
        write_places(folder, stops_of(Path(made)))
    return 0


if __name__ == "__main__":
    sys.exit(main())
