"""Hostile inputs, drawn by a seed: each command ends with its result or one line, writes nothing outside, and keeps all
that it didn't write.

The trials last SECONDS, or TTM_HOSTILE_SECONDS, from the seed TTM_HOSTILE_SEED on. A case that fails is reported with
its number, which draws it again.
"""

import gzip
import io
import os
import random
import shutil
import time
import zipfile
from pathlib import Path

import pytest

from helpers import CALENDAR, STOP_TIMES, Town, town_matrix
from test_damages import TEXTS
from ttm_tools.matrices import open_matrix, write_open_matrix

for _package in ("h5py", "pandas", "osmium", "scipy", "shapely", "geopandas"):
    pytest.importorskip(_package)

SECONDS = float(os.environ.get("TTM_HOSTILE_SECONDS", "60"))
SEED = int(os.environ.get("TTM_HOSTILE_SEED", "58"))
NAMES = (
    "a b",
    "$(touch y)",
    "`touch y`",
    "é;touch y",
    "=1+1",
    "<script>",
    "\x1b[31m",
    "-o",
    "x" * 120,
    "{}",
    "$x$",
    "a\nb",
    "..",
)
ALLOWED = (0, 1, 2, 3)
PLAN = """\
[[stop]]
id = "new"
name = "New"
lat = 0.01
lon = 9.0
[[scenario]]
name = "more"
[[scenario.action]]
do = "add_line"
route = "N"
stops = ["A", "new", "D"]
speed = 30
departures = [{ first = "08:00", last = "09:00", every = 600 }]
days = "daily"
[[scenario]]
name = "less"
[[scenario.action]]
do = "remove_trip"
trip = "T"
"""
STUDY = """\
title = "Town"
[feed]
files = ["feed.zip"]
[run]
date = 2026-05-04
from = "08:00"
to = "08:04"
[points]
files = ["points.csv"]
[results]
page = false
"""
AREA = '{"type": "FeatureCollection", "features": [{"type": "Feature", "properties": {"id": "a", "people": 7},'
AREA += ' "geometry": {"type": "Polygon", "coordinates": [[[8, -1], [10, -1], [10, 1], [8, 1], [8, -1]]]}}]}'
NODES = [(1, 0.0, 9.0), (2, 0.0, 9.01), (3, 0.01, 9.01), (4, 0.02, 9.0)]
STREETS = "<osm version='0.6'>" + "".join(f"<node id='{n}' version='1' lat='{a}' lon='{b}'/>" for n, a, b in NODES)
STREETS += "<way id='1' version='1'>" + "".join(f"<nd ref='{n}'/>" for n, _, _ in NODES)
STREETS += "<tag k='highway' v='residential'/></way></osm>"
PIECES = [
    *TEXTS,
    b"[" * 3000,
    b"{" * 3000,
    b"9" * 5000,
    b"\x1b]0;x\x07",
    b"\xff\xfe",
    b"$x$",
    b"=1+1",
    b"<b>",
    b"-1",
    b"NaN",
]


class Hostile:
    """A folder with inputs of each kind, and what is done to them."""

    def __init__(self, town: Town, draw: random.Random) -> None:
        self.town, self.draw, self.folder = town, draw, town.folder / "inputs"
        self.folder.mkdir()
        for path in sorted(town.folder.glob("*.txt")):
            shutil.move(path, self.folder / path.name)
        town.write("inputs/calendar.txt", *CALENDAR)
        town.write("inputs/routes.txt", "route_id,route_type", [["R", 3], ["Q", 3]])
        times = [["T", *[f"08:0{number}:00"] * 2, stop, number] for number, stop in enumerate("ABC")]
        times += [["U", *[f"08:1{number}:00"] * 2, stop, number] for number, stop in enumerate("CBAD")]
        town.write("inputs/stop_times.txt", STOP_TIMES, times)
        (self.folder / "matrix.csv").write_text(town_matrix(True, shares=(25, 50), limits=(900, 1800)))
        write_open_matrix(open_matrix(str(self.folder / "matrix.csv")), str(self.folder / "matrix.omx"))
        town.write(
            "inputs/points.csv",
            "id,lat,lon,name,width,people",
            [["p", 0.0, 9.001, "P", 100, 5], ["q", 0, 9.0, "", "", 1]],
        )
        town.write("inputs/walks.csv", "from_stop_id,to_stop_id,seconds", [["A", "B", 7.5], ["B", "A", 8]])
        town.write("inputs/jobs.csv", "stop_id,jobs", [["A", 7], ["D", 8]])
        for name, text in (
            ("plan.toml", PLAN),
            ("study.toml", STUDY),
            ("area.geojson", AREA),
            ("streets.osm", STREETS),
        ):
            (self.folder / name).write_text(text)
        with zipfile.ZipFile(self.folder / "feed.zip", "w", zipfile.ZIP_DEFLATED) as packed:
            for path in sorted(self.folder.glob("*.txt")):
                packed.write(path, path.name)
        self.whole = {path.name: path.read_bytes() for path in sorted(self.folder.iterdir())}

    def commands(self, out: str) -> list[list[str]]:
        """Commands on the inputs, with their output."""
        to, feed = ["--out", out], str(self.folder)

        def at(name: str) -> str:
            return str(self.folder / name)

        matrix = at(self.draw.choice(["matrix.csv", "matrix.omx"]))
        return [
            ["prepare", "--check", self.draw.choice([feed, at("feed.zip")])],
            ["prepare", "--repair", *to, self.draw.choice([feed, at("feed.zip")])],
            ["prepare", "--repair", "--area", at("area.geojson"), *to, at("feed.zip")],
            ["scenarios", *to, feed, at("plan.toml")],
            ["walks", *to, feed],
            ["walks", "--table", at("walks.csv"), *to, feed],
            ["walks", "--streets", at("streets.osm"), *to, feed],
            ["points", *to, feed, at("points.csv")],
            ["points", "--leave-out", *to, feed, at("area.geojson")],
            ["long", "--feed", feed, *to, matrix],
            ["omx", *to, matrix],
            ["compare", "--share", "50", *to, matrix],
            ["access", "--opportunities", at("jobs.csv"), *to, matrix],
            ["gis", "--feed", feed, "--out", f"{out}.json", matrix],
            ["split", "--feed", feed, *to],
            ["study", at("study.toml"), *to],
        ]

    def reads(self, arguments: list[str], name: str) -> bool:
        """Whether a command reads an input, or all of them where none reads it at the moment."""
        found = [word.rsplit("/", 1)[-1] for word in arguments]
        own = {name, "study.toml"} if name in ("feed.zip", "points.csv") else {name}
        return bool(own & set(found)) or name.endswith((".txt", ".omx", ".csv")) and str(self.folder) in arguments

    def damage(self, name: str) -> None:
        """Does something to an input."""
        whole, draw = bytearray(self.whole[name]), self.draw
        kind = draw.randrange(8)
        if kind < 4:
            for _ in range(draw.randrange(1, 4)):
                place, length = draw.randrange(len(whole) + 1), draw.choice([0, 0, 1, 3, 20])
                whole[place : place + length] = draw.choice(PIECES)
        elif kind == 4:
            del whole[draw.randrange(len(whole)) :]
        elif kind == 5:
            for _ in range(draw.randrange(1, 20)):
                whole[draw.randrange(len(whole))] = draw.randrange(256)
        elif kind == 6:
            whole = bytearray(self.whole[draw.choice(sorted(self.whole))])
        else:
            whole = bytearray(
                draw.choice(NAMES).encode().join(bytes(whole).split(draw.choice([b"A", b"R", b"T", b"base"])))
            )
        (self.folder / name).write_bytes(whole)

    def odd_zip(self) -> None:
        """A zip file with members that lead elsewhere, are there twice, or are of another kind."""
        archive_bytes, draw = io.BytesIO(), self.draw
        how = draw.choice([zipfile.ZIP_STORED, zipfile.ZIP_DEFLATED, zipfile.ZIP_LZMA, zipfile.ZIP_BZIP2])
        with zipfile.ZipFile(archive_bytes, "w", how) as packed:
            for path in sorted(self.folder.glob("*.txt")):
                packed.writestr(
                    draw.choice([path.name, path.name, f"../{path.name}", f"/tmp/{path.name}", f"a/{path.name}"]),
                    path.read_bytes(),
                )
            packed.writestr(
                draw.choice(["notes.txt", "../../evil.txt", "stops.txt.gz", ".hidden.txt", "é\n.txt"]),
                gzip.compress(b"x"),
            )
        (self.folder / "feed.zip").write_bytes(archive_bytes.getvalue())

    def mend(self) -> None:
        for name, data in self.whole.items():
            (self.folder / name).write_bytes(data)


@pytest.mark.filterwarnings("ignore")
def test_whatever_is_hostile_ends_in_a_line_and_loses_nothing(town: Town, monkeypatch: pytest.MonkeyPatch) -> None:
    draw, end, case = random.Random(SEED), time.monotonic() + SECONDS, 0
    hostile = Hostile(town, draw)
    (town.folder / "cwd").mkdir()
    (town.folder / "cwd/mine.txt").write_text("mine")
    (town.folder / "tmp").mkdir()
    monkeypatch.chdir(town.folder / "cwd")
    monkeypatch.setattr("tempfile.tempdir", town.path("tmp"))
    monkeypatch.setenv("TTM_PROGRAM", "/bin/false")
    statuses = dict.fromkeys(ALLOWED, 0)
    while time.monotonic() < end or not (statuses[0] and statuses[1]):
        case += 1
        name = draw.choice(sorted(hostile.whole))
        hostile.odd_zip() if name == "feed.zip" and draw.random() < 0.3 else hostile.damage(name)
        out = town.folder / "outs" / draw.choice(NAMES[:-1])
        out.parent.mkdir()
        arguments = draw.choice([command for command in hostile.commands(str(out)) if hostile.reads(command, name)])
        before = contents(town.folder)
        _, errors, status = town.ran(*arguments)
        what = f"seed {SEED}, case {case}: {name}, {arguments}: {errors}"
        assert status in ALLOWED and "Traceback" not in errors, what
        lines = [line for line in errors.splitlines() if line.startswith(f"ttm-tools {arguments[0]}: ")]
        assert (len(lines) == 1) == (status != 0) or "--check" in arguments, what
        assert not any(ord(sign) < 32 and sign != "\n" for sign in errors), what
        after = contents(town.folder)
        assert {path: after.get(path) for path in before} == before, what
        assert all(path.startswith("outs/") for path in after.keys() - before.keys()), what
        assert not status or arguments[0] == "study" or set(after) == set(before), what
        statuses[status] += 1
        shutil.rmtree(out.parent)
        hostile.mend()
    print(f"seed {SEED}: {case} cases, by status {statuses}")
    assert statuses[0] and statuses[1]


def contents(folder: Path) -> dict[str, bytes]:
    """All files below a folder, with their bytes."""
    return {str(path.relative_to(folder)): path.read_bytes() for path in sorted(folder.rglob("*")) if path.is_file()}
