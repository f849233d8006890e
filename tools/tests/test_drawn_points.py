"""Drawn points in files with roles, near stations with entrances, next to plain loops without code of the tools."""

import csv
import itertools
import math
import random
from collections.abc import Sequence
from dataclasses import dataclass, field
from decimal import ROUND_HALF_UP, Decimal
from pathlib import Path

import pytest

from helpers import CALENDAR, METRE, STOP_TIMES, Room, Table
from test_drawn_feeds import walk_of

Row = dict[str, str]
ROLES = ("", "--origins", "--destinations")  # where journeys both begin and end, and where they only begin or end


@dataclass
class DrawnFile:
    """A file of points: its role, its rows, and the columns of numbers that it has."""

    name: str
    role: str
    rows: list[Row]
    columns: list[str]
    prefix: str = ""
    labels: list[str] = field(default_factory=list)


def write_feed(room: Room, draw: random.Random) -> Path:
    """Stops with and without a place, stations, and entrances of some of them."""
    folder = room.folder / "feed"
    folder.mkdir()

    def place() -> list[object]:
        return [draw.gauss(0, 500) * METRE + 0.1, 1 + draw.gauss(0, 500) * METRE]

    rows: Table = [[f"S{n}", f"Station {n}", *place(), 1, ""] for n in range(3)]
    rows += [[f"E{n}", "", *place(), 2, f"S{draw.randrange(2)}"] for n in range(4)]
    rows += [[f"P{n}", f"Stop {n}", *place(), 0, draw.choice(["", "", "S0", "S1", "S2"])] for n in range(12)]
    rows.append(["P12", "", "", "", 0, ""])
    header = "stop_id,stop_name,stop_lat,stop_lon,location_type,parent_station"
    room.write("feed/stops.txt", header, rows)
    room.write("feed/routes.txt", "route_id", [["R"]])
    room.write("feed/calendar.txt", *CALENDAR)
    room.write("feed/trips.txt", "route_id,service_id,trip_id", [["R", "M", "T"]])
    times = [["T", "08:10:00", "08:10:00", "P0", 1], ["T", "08:13:00", "08:13:00", "P1", 2]]
    room.write("feed/stop_times.txt", STOP_TIMES, times)
    return folder


def draw_files(room: Room, draw: random.Random) -> list[DrawnFile]:
    """One to three files, some of whose identifiers are those of stops or of earlier files."""
    roles = draw.choice([[""], ["--origins", "--destinations"], ["", "--origins"], ["", "", "--destinations"]])
    files, taken = list[DrawnFile](), {
        f"{kind}{n}" for kind, count in (("S", 3), ("E", 4), ("P", 13)) for n in range(count)
    }
    for number, role in enumerate(roles):
        columns = draw.sample(["people", "jobs", "places"], draw.randrange(1, 4))
        with_width, with_labels = draw.random() < 0.5, draw.random() < 0.5
        first = draw.choice([0, 100, 104])
        own = [*(f"{first + n}" for n in range(7)), *(["P3"] if draw.random() < 0.3 else [])]
        rows = list[Row]()
        for identifier in own:
            row = {
                "id": identifier,
                "lat": repr(draw.gauss(0, 800) * METRE + 0.1),
                "lon": repr(1 + draw.gauss(0, 800) * METRE),
            }
            row |= {name: draw.choice(["0", "3", "2.5", "0.49", "17.125", "1e3"]) for name in columns}
            row |= {"width": draw.choice(["", "250", "80.5"])} if with_width else {}
            row |= {"quarter": draw.choice(["East", "", "West, old"])} if with_labels else {}
            rows.append(row)
        file = DrawnFile(f"file{number}", role, rows, columns, labels=["quarter"] if with_labels else [])
        while taken & {file.prefix + identifier for identifier in own}:
            file.prefix += f"file{number}:"
        taken |= {file.prefix + identifier for identifier in own}
        room.write(f"file{number}.csv", ",".join(rows[0]), [list(row.values()) for row in rows])
        files.append(file)
    return files


def rows_in(path: Path) -> list[Row]:
    with open(path, newline="") as file:
        return list(csv.DictReader(file))


def wanted_walks(stops: Sequence[Row], files: Sequence[DrawnFile], limit: int) -> dict[tuple[str, str], int]:
    """Seconds between all stops and points with a place: 1.3 times the way at 4.8 km/h, rounded up."""
    doors = dict[str, list[tuple[float, float]]]()
    for row in stops:
        if row["location_type"] == "2":
            doors.setdefault(row["parent_station"], []).append((float(row["stop_lat"]), float(row["stop_lon"])))
    ends = {row["stop_id"]: row for row in stops if row["location_type"] == "0" and row["stop_lat"]}
    for file in files:
        for row in file.rows:
            name = file.prefix + row["id"]
            ends[name] = {"stop_lat": row["lat"], "stop_lon": row["lon"], "parent_station": ""}
    walks = {
        (one, other): math.ceil(round(walk_of(ends[one], ends[other], doors) * 1.3 / (4.8 / 3.6), 6))
        for one, other in itertools.permutations(ends, 2)
    }
    return {pair: seconds for pair, seconds in walks.items() if seconds <= limit}


def near_a_stop(walks: dict[tuple[str, str], int], stops: Sequence[Row]) -> set[str]:
    """The places from which a stop is within a walk."""
    names = {row["stop_id"] for row in stops}
    return {one for one, other in walks if other in names}


def rounded(text: str) -> int:
    return int(Decimal(text).quantize(Decimal(1), ROUND_HALF_UP))


def check_folder(out: Path, files: Sequence[DrawnFile], kept: set[str], walks: dict[tuple[str, str], int]) -> None:
    """Compares what a run reads with the drawn points that are kept."""
    own = [
        (file, row, file.prefix + row["id"]) for file in files for row in file.rows if file.prefix + row["id"] in kept
    ]
    for name, role in (("origins", "--destinations"), ("destinations", "--origins")):
        assert [row["stop_id"] for row in rows_in(out / f"{name}.csv")] == [
            it for file, _, it in own if file.role != role
        ]
    assert {(a["from_stop_id"], a["to_stop_id"]): int(a["seconds"]) for a in rows_in(out / "footpaths.csv")} == walks
    columns = list(dict.fromkeys(name for file in files for name in file.columns))
    assert {path.name for path in out.glob("opportunities_*")} == {f"opportunities_{name}.csv" for name in columns}
    for name in columns:
        counts = [(row["stop_id"], int(row["opportunities"])) for row in rows_in(out / f"opportunities_{name}.csv")]
        assert counts == [(it, rounded(row[name])) for file, row, it in own if name in file.columns]
    points = rows_in(out / "feed" / "points.csv")
    assert [row["id"] for row in points] == [it for *_, it in own]
    for found, (file, row, _) in zip(points, own):
        assert (float(found["lat"]), float(found["lon"])) == (float(row["lat"]), float(row["lon"]))
        assert [float(found[name]) for name in columns] == [float(row.get(name, 0)) for name in columns]
        assert float(found["width"] or 0) == float(row.get("width") or 0)
    if any(file.labels for file in files):
        labels = [(row["id"], row["quarter"]) for row in rows_in(out / "labels.csv")]
        assert labels == [(it, row.get("quarter", "")) for _, row, it in own]


def sums_of(files: Sequence[DrawnFile], names: set[str]) -> dict[str, Decimal]:
    """What some points have in each column."""
    sums = dict[str, Decimal]()
    for file in files:
        for row in (row for row in file.rows if file.prefix + row["id"] in names):
            for column in file.columns:
                sums[column] = sums.get(column, Decimal(0)) + Decimal(row[column])
    return sums


def check_sentences(errors: str, files: Sequence[DrawnFile], lost: set[str], kept: set[str]) -> None:
    """Compares what is reported: points far from stops, what they have, and by how much rounding changes sums."""
    count = f"{len(lost)} point{'s' * (len(lost) != 1)} without a stop in reach"
    assert (count in errors) == bool(lost), errors
    left_out = lost if lost.isdisjoint(kept) else set[str]()
    for column, number in sums_of(files, left_out).items():
        text = f"{number.normalize():,f}"
        noun = column if number != 1 else {"people": "people", "jobs": "job", "places": "place"}[column]
        assert (f" {text} {noun}" in errors.partition("left out, have")[2]) == (number > 0), (errors, column, number)
    for column, number in sums_of(files, kept).items():
        own = [
            row[column]
            for file in files
            if column in file.columns
            for row in file.rows
            if file.prefix + row["id"] in kept
        ]
        whole = sum(map(rounded, own))
        sentence = f"ttm counts {whole} {column} instead of {number.normalize():f}:"
        assert (sentence in errors) == (whole != number), (errors, sentence)


@pytest.mark.parametrize("seed", range(12))
def test_drawn_points_have_the_walks_and_numbers_of_plain_loops(room: Room, seed: int) -> None:
    draw = random.Random(seed)
    folder, limit, leaves_out = write_feed(room, draw), draw.choice([200, 450, 900]), draw.random() < 0.5
    files, out = draw_files(room, draw), room.folder / "doors"
    named = [word for file in files for word in ([file.role] if file.role else []) + [room.path(f"{file.name}.csv")]]
    options = ["--out", str(out), "--limit", str(limit), *(["--leave-out"] if leaves_out else [])]
    plain = [file for file in files if not file.role]
    files = [*plain, *(file for role in ROLES[1:] for file in files if file.role == role)]
    _, errors, status = room.ran("points", str(folder), *named, *options)
    assert status == 0, errors
    stops = rows_in(folder / "stops.txt")
    walks = wanted_walks(stops, files, limit)
    names = {file.prefix + row["id"] for file in files for row in file.rows}
    near = near_a_stop(walks, stops) & names
    kept = near if leaves_out else names
    gone = names - kept
    check_folder(out, files, kept, {pair: own for pair, own in walks.items() if gone.isdisjoint(pair)})
    check_sentences(errors, files, names - near, kept)
    for file in files:
        assert (f"{file.name}.csv: identifiers begin with {file.prefix} in the feed" in errors) == bool(file.prefix)
