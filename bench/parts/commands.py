"""Processor time and peak memory of the commands of `ttm-tools`, on a matrix, on a feed and on streets."""

import csv
import re
import subprocess
from collections.abc import Iterator
from pathlib import Path

import numpy as np

from record import ROOT
from setting import Setting, stop
from shared import PYTHON, TOOLS, Study, records_of, run, run_into, stops_of, write_lines

# each command, what it writes, and its arguments but for the percentile and the matrix
ON_MATRIX = """\
compare pairs.csv --by pair
compare origins.csv --by origin
access access.csv --opportunities {counts} --cutoffs 15,30,45
access nearest.csv --opportunities {counts} --nearest 1,1000
map difference.png difference --feed {feed}
map times.png times --feed {feed} --origin {origin}
isochrones areas.geojson --feed {feed} --origin {origin}
gis stops.geojson --feed {feed} --opportunities {counts} --nearest 1
page page.html --feed {feed} --opportunities {counts} --nearest 1,1000
long long.csv --feed {feed}
omx matrix.omx
"""
COLUMNS = 10  # of opportunities
POINTS, NODES = 20_000, 600_000


def record(setting: Setting, feed: str, name: str, *words: str) -> None:
    """Runs a command once, and records its processor time and its peak memory."""
    ran = run([PYTHON, TOOLS, *words], stdout=subprocess.DEVNULL, stderr=subprocess.DEVNULL)
    if ran.status != 0:
        stop(f"status {ran.status}: ttm-tools {' '.join(words)}")
    setting.recorder.add("commands", feed, "ttm-tools", name, ran.busy, "s")
    setting.recorder.add("commands", feed, "ttm-tools", f"{name}, memory", ran.kilobytes / 1000, "MB")


def write_counts(path: Path, stops: list[str]) -> None:
    """Writes columns of opportunities for each stop."""
    numbers = ([str((place * (7 + kind)) % 1000 / 4) for kind in range(COLUMNS)] for place in range(len(stops)))
    header = ",".join(["stop_id", *(f"kind{kind}" for kind in range(COLUMNS))])
    write_lines(str(path.parent), path.name, header, (",".join([name, *row]) for name, row in zip(stops, numbers)))


def on_matrix(setting: Setting, feed: str, origins: int) -> None:
    """Commands that read a matrix of two scenarios and one percentile."""
    folder, matrix = setting.feeds.folder(feed), setting.room / "matrix.csv"
    arguments = Study(more=[str(folder / "cut.csv")]).arguments(str(folder), setting.origins(feed, origins), 4)
    run_into([setting.ttm, *arguments], str(matrix))
    write_counts(setting.room / "counts.csv", stops_of(str(folder / "stops.txt")))
    with open(setting.origins(feed, origins), newline="") as file:
        origin = next(csv.DictReader(file))["stop_id"]
    fields = {"feed": str(folder), "origin": origin, "counts": str(setting.room / "counts.csv")}
    cells = f"{2 * origins * len(stops_of(str(folder / 'stops.txt'))) / 1e6:.0f} million cells"
    for line in ON_MATRIX.splitlines():
        name, out, *words = (word.format(**fields) for word in line.split())
        path = setting.room / out
        shown = re.sub(r" --\w+ {\w+}", "", line).replace(f" {out}", "")
        record(setting, f"{feed}, {cells}", shown, name, *words, str(matrix), "--out", str(path))
        path.unlink(missing_ok=True)
    matrix.unlink()


def write_points(path: Path, folder: Path, count: int) -> None:
    """Draws points about 300 metres from a stop."""
    stops = [row for row in records_of(folder / "stops.txt") if row["stop_lat"]]
    places = np.array([(float(row["stop_lat"]), float(row["stop_lon"])) for row in stops])
    draw = np.random.default_rng(1)
    chosen = places[draw.integers(0, len(places), count)] + draw.normal(0, 0.0027, (count, 2))
    rows = (f"p{n:05},{a:.6f},{b:.6f},{n % 90}" for n, (a, b) in enumerate(chosen.tolist()))
    write_lines(str(path.parent), path.name, "id,lat,lon,people", rows)


def on_feed(setting: Setting, feed: str) -> None:
    """Commands that read a feed, points and streets."""
    folder, points, streets = setting.feeds.folder(feed), setting.room / "points.csv", setting.room / "streets.osm.pbf"
    write_points(points, folder, setting.choose(2_000, POINTS))
    nodes = str(setting.choose(60_000, NODES))
    generator = str(ROOT / "bench" / "streetgen.py")
    subprocess.run([PYTHON, generator, str(folder), str(streets), "--nodes", nodes], check=True, stdout=subprocess.PIPE)
    record(setting, feed, "prepare --check", "prepare", "--check", str(folder))
    ways: dict[str, list[str]] = {"straight lines": [], "along streets": ["--streets", str(streets)]}
    for name, more in ways.items():
        doors, walks = str(setting.room / name.split()[0]), str(setting.room / "walks.csv")
        record(setting, feed, f"points, {name}", "points", str(folder), str(points), "--out", doors, *more)
        record(setting, feed, f"walks, {name}", "walks", str(folder), "--out", walks, *more)
    plan = setting.room / "plan.toml"
    plan.write_text("\n".join(plan_of(folder)))
    record(setting, feed, "scenarios", "scenarios", str(folder), str(plan), "--out", str(setting.room / "planned"))


def plan_of(folder: Path) -> Iterator[str]:
    """A plan of ten scenarios, each with ten routes every five minutes from 06:00 to 22:00."""
    routes = [row["route_id"] for row in records_of(folder / "routes.txt")]
    for number in range(10):
        chosen = ", ".join(f'"{route}"' for route in routes[number : number + 10])
        yield f'[[scenario]]\nname = "s{number}"\n[[scenario.action]]\ndo = "headway"\nroute = [{chosen}]'
        yield 'every = 300\nfrom = "06:00"\nto = "22:00"\n'


def measure(setting: Setting) -> None:
    """Each command once: its processor time depends little on what else runs."""
    on_matrix(setting, "city", setting.choose(50, 4936))
    if setting.quick:
        on_feed(setting, "city")
    else:
        on_matrix(setting, "metropolis", 1000)
        on_feed(setting, "metropolis")
