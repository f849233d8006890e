"""Files from outside are checked on opening: sizes, kinds and shapes; one that can't be read is refused in one line."""

import os
import struct
import subprocess
import sys
import zipfile
from pathlib import Path
from typing import Callable

import pytest

from helpers import LAUNCHER, STOP_TIMES, Room, Town, town_matrix
from ttm_tools import cli
from ttm_tools.core import zips
from ttm_tools.core.errors import InputError
from ttm_tools.core.tables import records
from ttm_tools.gtfs import feeds

FEED = {
    "stops.txt": "stop_id,stop_name,stop_lat,stop_lon\nA,Alpha,50,7\nB,Beta,50.01,7\n",
    "routes.txt": "route_id,route_type\nR,3\n",
    "trips.txt": "route_id,service_id,trip_id\nR,M,T\n",
    "calendar.txt": "service_id,monday,tuesday,wednesday,thursday,friday,saturday,sunday,start_date,end_date\n"
    "M,1,1,1,1,1,1,1,20260504,20260531\n",
    "stop_times.txt": f"{STOP_TIMES}\nT,08:00:00,08:00:00,A,1\nT,08:10:00,08:10:00,B,2\n",
}


def zipped(room: Room, files: dict[str, str] = FEED, name: str = "feed.zip", how: int = zipfile.ZIP_DEFLATED) -> Path:
    path = room.folder / name
    with zipfile.ZipFile(path, "w", how) as packed:
        for member, text in files.items():
            packed.writestr(member, text)
    return path


def told(room: Room, *arguments: str, status: int = 1) -> str:
    """The one line that a command ends with, and which leaves nothing behind."""
    before = room.names()
    out, said, ended = room.ran(*arguments)
    begin = f"ttm-tools {arguments[0]}: "
    assert (out, ended) == ("", status), said
    assert said.count("\n") == 1 and said.startswith(begin) and room.names() == before
    return said.removeprefix(begin).rstrip("\n")


@pytest.mark.parametrize("how", [zipfile.ZIP_DEFLATED, zipfile.ZIP_LZMA, zipfile.ZIP_BZIP2])
def test_a_damaged_member_of_a_zip_is_told(room: Room, how: int) -> None:
    path = zipped(room, {**FEED, "stops.txt": FEED["stops.txt"] * 99}, how=how)
    whole = bytearray(path.read_bytes())
    begin = 30 + struct.unpack("<H", whole[26:28])[0]
    for place in range(begin + 9, begin + 29):
        whole[place] ^= 0xA5
    path.write_bytes(whole)
    assert told(room, "prepare", "--check", str(path)).startswith(f"{path}: stops.txt can't be unzipped: ")


def test_a_zip_with_a_file_twice_is_refused(room: Room) -> None:
    with pytest.warns(UserWarning):
        path = zipped(room)
        with zipfile.ZipFile(path, "a") as packed:
            packed.writestr("stops.txt", "stop_id\nA\n")
    assert told(room, "prepare", "--check", str(path)) == f"{path}: stops.txt is in it twice"


def test_bytes_of_a_zip_are_counted_before_it_is_unpacked(room: Room, monkeypatch: pytest.MonkeyPatch) -> None:
    monkeypatch.setattr(zips, "MOST_UNPACKED", 1000)
    path = zipped(room, {**FEED, "shapes.txt": "shape_id\n" * 999})
    line = "unpacked it has 9,"
    assert line in told(room, "prepare", "--check", str(path))


def test_what_a_zip_has_beside_a_feed_is_not_unpacked(room: Room, monkeypatch: pytest.MonkeyPatch) -> None:
    path = zipped(room, {**FEED, "shapes.txt": "shape_id\n", "photo.jpg": "x" * 99})
    seen, unpack = list[str](), zips.unpack_member

    def noted(archive: Path, member: str, target: Path) -> Path:
        seen.append(member)
        return unpack(archive, member, target)

    for module in (zips, feeds):
        monkeypatch.setattr(module, "unpack_member", noted)
    assert room.ran("prepare", "--check", str(path))[2] == 0
    assert sorted(seen) == sorted(FEED)
    assert room.ran("prepare", "--out", room.path("feed"), str(path))[2] == 0
    assert (room.folder / "feed/shapes.txt").read_text() == "shape_id\n" and "photo.jpg" not in seen


def test_a_line_of_commas_is_told_before_it_is_cut(room: Room) -> None:
    path = zipped(room, {**FEED, "stops.txt": "," * 3_000_000})
    assert "stops.txt: a line of more than 1,048,576 bytes" in told(room, "prepare", "--check", str(path))
    room.write("many.csv", "stop_id", [])
    Path(room.path("many.csv")).write_text("stop_id," + "," * 20_000)
    with pytest.raises(InputError, match="more than 10,000 columns"):
        list(records(room.path("many.csv")))


def test_a_quote_without_an_end_does_not_take_the_file(room: Room) -> None:
    Path(room.path("a.csv")).write_text('stop_id\n"' + "A\n" * 1_000_000)
    with pytest.raises(InputError, match=r"a.csv: record 2: field larger than field limit"):
        list(records(room.path("a.csv")))


@pytest.mark.parametrize("code", ["utf-16", "utf-16-be"])
def test_a_table_in_utf_16_is_refused(room: Room, code: str) -> None:
    for name, text in FEED.items():
        Path(room.path(name)).write_text(text)
    mark = "" if code == "utf-16" else "\ufeff"
    Path(room.path("stops.txt")).write_bytes((mark + FEED["stops.txt"]).encode(code))
    line = f"{room.path('stops.txt')}: is UTF-16, and tables are UTF-8: save it as UTF-8"
    assert told(room, "prepare", "--repair", "--out", room.path("out"), str(room.folder)) == line
    assert told(room, "split", "--feed", str(room.folder), "--out", room.path("out")) == line


def test_what_is_no_file_is_told_and_not_waited_for(room: Room) -> None:
    os.mkfifo(room.path("stops.txt"))
    os.mkfifo(room.path("feed.zip"))
    os.mkfifo(room.path("a.toml"))
    line = "is not a file but a pipe"
    assert told(room, "walks", str(room.folder)) == f"{room.path('stops.txt')}: {line}"
    assert told(room, "prepare", "--check", room.path("feed.zip")) == f"{room.path('feed.zip')}: {line}"
    assert told(room, "study", room.path("a.toml")) == f"{room.path('a.toml')}: {line}"
    assert told(room, "long", room.path("a.toml")) == f"{room.path('a.toml')}: {line}"


def test_nested_and_long_texts_of_toml_and_json_are_told(room: Room) -> None:
    for name, text in FEED.items():
        Path(room.path(name)).write_text(text)
    deep, long = "[" * 5000, "1" * 5000
    for toml in (f"a = {deep}", f"a = {long}", "a = \x00", "a" * 5_000_000):
        Path(room.path("a.toml")).write_text(toml)
        for arguments in (["study"], ["scenarios", "--out", room.path("out"), str(room.folder)]):
            line = told(room, *arguments, room.path("a.toml"))
            assert line.startswith(f"{room.path('a.toml')}: "), line
    for json in (deep, '{"type":' * 5000, f'{{"type": "Polygon", "coordinates": {long}}}', f"[{deep}"):
        Path(room.path("a.geojson")).write_text(json)
        area = ["--area", room.path("a.geojson"), "--out", room.path("out")]
        assert told(room, "prepare", *area, str(room.folder)).startswith(f"{room.path('a.geojson')}: ")


def test_two_equal_columns_are_told(town: Town) -> None:
    """Which of them is meant can't be known; nor which of two stops of the same name."""
    town.matrix(town_matrix(True))
    access = town.write(
        "access.csv", "scenario,id,opportunity,percentile,cutoff,accessibility", [["base", "A", "j", 50, 30, 7]]
    )
    points = town.write("cells.csv", "id,lat,lon,people, people", [["p", 0.0, 9.001, 1, 2]])
    twice = town.write("twice.csv", "id,id,lat,lon", [["p", "q", 0.0, 9.001]])
    jobs = town.write("jobs.csv", "stop_id,jobs,jobs", [["A", 1, 2]])
    for name, path, arguments in (
        ("people", points, ["points", "--out", town.path("out"), town.feed, points]),
        ("id", twice, ["points", "--out", town.path("out"), town.feed, twice]),
        ("jobs", jobs, ["access", "--opportunities", jobs, town.file]),
        ("jobs", jobs, ["equity", access, "--people", jobs]),
        ("jobs", jobs, ["page", "--feed", town.feed, "--people", jobs, "--out", town.path("out"), town.file]),
    ):
        assert told(town, *arguments) == f"{path}: record 1: two columns {name}"
    town.matrix(town_matrix(True, stops=("A", "B", "C", "C")))
    arguments = ["omx", "--out", town.path("out.omx"), town.file]
    assert told(town, *arguments) == f"{town.file}: record 1: two columns C"


def test_a_property_that_is_called_as_the_shapes_is_told(town: Town) -> None:
    pytest.importorskip("geopandas")
    shape = '"geometry": {"type": "Point", "coordinates": [9, 1]}'
    feature = '{"type": "Feature", "properties": {"id": "a", "geometry": 5}, ' + shape + "}"
    path = town.path("a.geojson")
    Path(path).write_text('{"type": "FeatureCollection", "features": [' + feature + "]}")
    arguments = ["points", "--out", town.path("out"), town.feed, path]
    assert told(town, *arguments).startswith(f"{path}: not read: ")


def test_the_sources_of_a_feed_do_not_lead_out_of_it(room: Room) -> None:
    (room.folder / "feed").mkdir()
    (room.folder / "secret.txt").write_text("secret\n")
    for name, text in FEED.items():
        (room.folder / "feed" / name).write_text(text)
    (room.folder / "feed/notes.txt").symlink_to("../secret.txt")
    line = f"{room.path('feed')}/notes.txt: is a link that leads out of the folder"
    assert told(room, "prepare", "--out", room.path("out"), room.path("feed")) == line


def test_an_error_of_the_tools_own_is_a_line_with_a_log(
    town: Town, monkeypatch: pytest.MonkeyPatch, tmp_path: Path
) -> None:
    town.matrix(town_matrix(True))
    monkeypatch.setattr("tempfile.tempdir", str(tmp_path))
    monkeypatch.setattr("ttm_tools.matrices.open_matrix", lambda path: {}[path])
    _, said, status = town.ran("long", town.file)
    assert status == 70 and said.count("\n") == 1
    log = said.rstrip("\n").rsplit(" ", 1)[1]
    assert said.startswith("ttm-tools long: internal error, KeyError: ") and "Traceback" in Path(log).read_text()


def test_escape_sequences_of_a_feed_do_not_reach_the_terminal(room: Room) -> None:
    for name, text in FEED.items():
        Path(room.path(name)).write_text(text.replace("A", "A\x1b]0;owned\x07\x9b31m\u202e"))
    for arguments in (["--check"], ["--repair", "--out", room.path("new")], ["--out", room.path("out")]):
        Path(room.path("stop_times.txt")).write_text(FEED["stop_times.txt"].replace("A,1", "\x1b[31m\x07,1"))
        out, said, _ = room.ran("prepare", *arguments, str(room.folder))
        assert out + said and not any(
            ord(item) < 32 and item != "\n" or item in "\x7f\x9b\u202e" for item in out + said
        )


TWICE: list[Callable[[Town], list[str]]] = [
    lambda town: ["long", "--out", town.file, town.file],
    lambda town: ["omx", "--out", town.file, town.file],
    lambda town: ["compare", "--out", town.file, town.file],
    lambda town: ["gis", "--feed", town.feed, "--out", town.path("link.json"), town.file],
    lambda town: ["access", "--opportunities", town.path("jobs.csv"), "--out", town.path("jobs.csv"), town.file],
    lambda town: ["walks", "--table", town.path("footpaths.csv"), town.feed],
    lambda town: ["walks", "--out", town.path("stops.txt"), town.feed],
    lambda town: ["join", "--origins", town.path("some.csv"), "--out", town.path("some.csv"), town.file],
    lambda town: ["split", "--origins", town.path("origins.csv"), "--out", town.feed],
    lambda town: ["prepare", "--check", "--faults", town.path("trips.txt"), town.feed],
    lambda town: ["map", "access", "--feed", town.feed, "--out", town.path("stops.txt"), town.file],
]


@pytest.mark.parametrize("make", TWICE)
def test_an_input_is_never_replaced_by_the_output(town: Town, make: Callable[[Town], list[str]]) -> None:
    town.matrix(town_matrix(True))
    town.write("jobs.csv", "stop_id,jobs", [["A", 1], ["D", 2]])
    town.write("some.csv", "stop_id", [["A"], ["D"]])
    town.write("origins.csv", "stop_id,more", [["A", 1], ["D", 2]])
    town.write("footpaths.csv", "from_stop_id,to_stop_id,seconds", [["A", "B", 7.5]])
    os.link(town.path("stops.txt"), town.path("link.json"))
    arguments = make(town)
    before = {path: path.read_bytes() for path in town.folder.iterdir()}
    _, said, status = town.ran(*arguments, "--force")
    assert status == 1 and said.splitlines()[-1].endswith(": is an input as well: name another output"), said
    assert {path: path.read_bytes() for path in town.folder.iterdir()} == before
    _, said, status = town.ran(*arguments)  # --force would not help
    assert status == 1 and said.splitlines()[-1].endswith(": is an input as well: name another output"), said
    assert {path: path.read_bytes() for path in town.folder.iterdir()} == before


def test_the_launcher_has_the_last_net_too(room: Room) -> None:
    os.mkfifo(room.path("feed.zip"))
    ran = subprocess.run([sys.executable, LAUNCHER, "prepare", "--check", room.path("feed.zip")], capture_output=True)
    assert (ran.returncode, b"Traceback" in ran.stderr) == (1, False)
    assert cli.OF_ITS_OWN == 70
