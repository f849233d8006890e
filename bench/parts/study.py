"""A whole study by `ttm-tools study`: a city's grid of cells in four windows on three dates, with maps and a page."""

import os
import subprocess
from pathlib import Path

from setting import Setting, stop
from shared import PYTHON, TOOLS, records_of, run, write_lines

STUDY = """\
title = "Times of day"
[feed]
files = ["{feed}"]
ready = true
[run]
dates = [2026-05-04, 2026-05-09, 2026-05-10]
windows = [
    {{ name = "early", from = "05:30", to = "05:59" }},
    {{ name = "peak", from = "08:00", to = "08:29" }},
    {{ name = "midday", from = "12:00", to = "12:29" }},
    {{ name = "evening", from = "21:00", to = "21:29" }},
]
[points]
grid = {metres}
grid_people = ["addresses.csv"]
[opportunities]
columns = ["jobs"]
groups = ["residents"]
[results]
nearest = [1000]
"""


def write_addresses(feed: Path, folder: Path) -> None:
    """Jobs and residents at the stops."""
    jobs = {row["stop_id"]: row["opportunities"] for row in records_of(feed / "opportunities.csv")}
    stops = [row for row in records_of(feed / "stops.txt") if row["stop_id"] in jobs]
    places = (f"{row['stop_id']},{row['stop_lat']},{row['stop_lon']},{jobs[row['stop_id']]}" for row in stops)
    rows = (f"{place},{50 + 37 * number % 90}" for number, place in enumerate(places))
    write_lines(str(folder), "addresses.csv", "id,lat,lon,jobs,residents", rows)


def measure(setting: Setting) -> None:
    """A study, once, by as many threads as it takes."""
    feed, metres = ("town", 800) if setting.quick else ("city", 425)
    folder = setting.room / "study"
    folder.mkdir()
    write_addresses(setting.feeds.folder(feed), folder)
    path = folder / "windows.toml"
    path.write_text(STUDY.format(feed=setting.feeds.folder(feed), metres=metres), encoding="utf-8")
    environment = {**os.environ, "TTM_PROGRAM": setting.ttm}
    ran = run([PYTHON, TOOLS, "study", str(path)], env=environment, stdout=subprocess.DEVNULL)
    if ran.status != 0:
        stop(f"status {ran.status}: ttm-tools study {path}")
    name = f"{feed}, cells of {metres} m, four windows on three dates"
    setting.recorder.add("study", name, "ttm-tools", "clock", ran.seconds, "s")
    setting.recorder.add("study", name, "ttm-tools", "processor time", ran.busy, "s")
