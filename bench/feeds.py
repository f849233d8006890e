"""The feeds of the benchmark, generated once into a folder and reused by later runs."""

import os
import random
import re
import shutil
import sys
import tempfile
from collections.abc import Callable
from pathlib import Path

import feedgen
from shared import stops_of, there, write_lines

DENSE = ("town", "city", "metropolis")
THIRDS = ("town, every third trip", "city, every third trip")
DRAWN = ("city, stops in a drawn order", "metropolis, stops in a drawn order")
CHANGES = "city, change times of 90 s"
SIZES = {"town": "town", "city": "city", "metropolis": "metro", "region": "region"}
SEED, SEED_OF_ORDER = 1, 11


def copy_but(folder: Path, copy: Path, *names: str) -> None:
    """Fills a new folder with links to the files of a feed, but for those of these names."""
    copy.mkdir()
    for path in there(str(folder), *(name for name in os.listdir(folder) if name not in names)):
        os.symlink(path, copy / os.path.basename(path))


def lines_of(folder: Path, name: str) -> tuple[str, list[str]]:
    """The header and the records of a file of a feed."""
    header, *records = (folder / name).read_text().splitlines()
    return header, records


def every_third_trip(folder: Path, copy: Path) -> None:
    """Writes the feed with every third trip of `trips.txt`: three times the headways."""
    copy_but(folder, copy, "trips.txt", "stop_times.txt", "late.csv")
    header, trips = lines_of(folder, "trips.txt")
    write_lines(str(copy), "trips.txt", header, trips[::3])
    chosen = {record.split(",")[2] for record in trips[::3]}
    header, times = lines_of(folder, "stop_times.txt")
    write_lines(str(copy), "stop_times.txt", header, (line for line in times if line.split(",", 1)[0] in chosen))


def with_drawn_order(folder: Path, copy: Path) -> None:
    """Writes the feed with the records of `stops.txt` in a drawn order, always the same."""
    copy_but(folder, copy, "stops.txt")
    header, stops = lines_of(folder, "stops.txt")
    random.Random(SEED_OF_ORDER).shuffle(stops)
    write_lines(str(copy), "stops.txt", header, stops)


def with_change_times(folder: Path, copy: Path) -> None:
    """Writes the city with a change time of 90 seconds at each stop."""
    feedgen.write_feed(SIZES["city"], SEED, str(copy), 90)


VARIANTS: dict[str, Callable[[Path, Path], None]] = {
    "every third trip": every_third_trip,
    "stops in a drawn order": with_drawn_order,
    "change times of 90 s": with_change_times,
}


class Feeds:
    """Feeds by their names: those of `feedgen.py`, and those made of another, such as `city, every third trip`."""

    def __init__(self, folder: Path) -> None:
        self.top = folder.resolve()

    def folder(self, name: str) -> Path:
        """Returns the folder of a feed, which is generated if it isn't there."""
        folder = self.top / re.sub(r"\W+", "_", name)
        if not folder.exists():
            print(f"generating {name}", file=sys.stderr, flush=True)
            base, _, variant = name.partition(", ")
            self.top.mkdir(parents=True, exist_ok=True)
            with tempfile.TemporaryDirectory(dir=self.top, prefix="new_") as place:
                copy = Path(place) / "feed"
                if variant:
                    VARIANTS[variant](self.folder(base), copy)
                else:
                    feedgen.write_feed(SIZES[base], SEED, str(copy))
                shutil.move(copy, folder)  # so that an interrupted feed never has its name
        return folder

    def counts(self, name: str) -> dict[str, int]:
        """Returns how many stops (without stations) and stop times a feed has."""
        folder = self.folder(name)
        with open(folder / "stop_times.txt", "rb") as file:
            times = sum(1 for _ in file) - 1
        return {"stops": len(stops_of(str(folder / "stops.txt"))), "stop times": times}
