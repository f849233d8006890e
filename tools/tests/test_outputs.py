"""No command replaces what others wrote, and no two commands write one file at once."""

import fcntl
import os
import stat
import subprocess
import sys
import tempfile
import threading
from pathlib import Path
from typing import Any
from xml.etree import ElementTree

import pytest

from asking import script
from helpers import CALENDAR, LAUNCHER, LONGEST_WAIT, Room, Town, launched, town_matrix, wait_until
from ttm_tools.core import folders
from ttm_tools.core.files import output, this_machine
from ttm_tools.core.locks import lock_file
from ttm_tools.core.provenance import command_runs

MINE = "from_stop_id,to_stop_id,seconds\nA,B,77\n"
FOREIGN = "did not write this file, or it was changed since: name another output, or add --force to replace it"


@pytest.fixture
def compared(town: Town) -> list[str]:
    """The words of a command that compares the town's scenarios."""
    town.matrix(town_matrix(True))
    return ["compare", town.file, "--out", town.path("made.csv")]


def test_a_file_of_a_person_stays_unless_it_may_be_replaced(town: Town, compared: list[str]) -> None:
    (town.folder / "made.csv").write_text("my notes\n")
    town.refused(f"{town.path('made.csv')}: ttm-tools compare {FOREIGN}", *compared)
    assert (town.folder / "made.csv").read_text() == "my notes\n"
    assert town.ran(*compared, "--force")[2] == 0
    made = (town.folder / "made.csv").read_text()
    assert made.startswith("origin,destination,")
    assert town.ran(*compared)[2] == 0  # it is the command's own now
    with open(town.folder / "made.csv", "a") as file:
        file.write("my line\n")
    town.refused(f"{town.path('made.csv')}: ttm-tools compare {FOREIGN}", *compared)
    assert (town.folder / "made.csv").read_text() == made + "my line\n"


def test_a_file_of_another_command_stays(town: Town, compared: list[str]) -> None:
    assert town.ran(*compared)[2] == 0
    made = (town.folder / "made.csv").read_bytes()
    town.refused(f"{town.path('made.csv')}: ttm-tools long {FOREIGN}", "long", town.file, *compared[2:])
    assert (town.folder / "made.csv").read_bytes() == made


def test_an_empty_file_is_replaced(town: Town, compared: list[str]) -> None:
    (town.folder / "made.csv").touch()  # as mktemp does
    assert town.ran(*compared)[2] == 0


def test_walks_of_a_person_stay(town: Town) -> None:
    path = town.folder / "footpaths.csv"
    path.write_text(MINE)
    town.refused(f"{path}: ttm-tools walks {FOREIGN}", "walks", town.feed)
    assert path.read_text() == MINE
    path.unlink()
    assert [town.ran("walks", town.feed)[2] for _ in range(2)] == [0, 0]


def test_parts_replace_no_list_of_a_person(town: Town, monkeypatch: pytest.MonkeyPatch) -> None:
    (town.folder / "cwd").mkdir()
    monkeypatch.chdir(town.folder / "cwd")
    Path("origins.csv").write_text("stop_id\nA\n")
    town.refused(f"origins.csv: ttm-tools split {FOREIGN}", "split", "--feed", town.feed)
    assert Path("origins.csv").read_text() == "stop_id\nA\n"
    assert town.ran("split", "--feed", town.feed, "--force")[2] == town.ran("split", "--feed", town.feed)[2] == 0


def test_a_picture_of_a_person_stays(town: Town) -> None:
    pytest.importorskip("matplotlib")
    town.matrix(town_matrix(True))
    (town.folder / "map.png").write_bytes(b"\x89PNG\r\n\x1a\n mine")
    words = ["map", "access", "--feed", town.feed, "--out", town.path("map.png"), town.file]
    town.refused(f"{town.path('map.png')}: ttm-tools map {FOREIGN}", *words)


def test_without_attributes_a_file_is_replaced_if_it_begins_as_the_new_one(
    town: Town, compared: list[str], monkeypatch: pytest.MonkeyPatch
) -> None:
    def none(*_: object) -> bytes:
        raise OSError(95, "Operation not supported")

    monkeypatch.setattr(os, "getxattr", none)
    monkeypatch.setattr(os, "setxattr", none)
    assert [town.ran(*compared)[2] for _ in range(2)] == [0, 0]
    (town.folder / "made.csv").write_text("stop_id,jobs\nA,7\n")
    town.refused(f"{town.path('made.csv')}: ttm-tools compare {FOREIGN}", *compared)


def test_a_device_and_a_pipe_stay_what_they_are(town: Town, compared: list[str]) -> None:
    assert town.ran(*compared)[2] == 0
    made = (town.folder / "made.csv").read_bytes()
    pipe, device = town.folder / "pipe", town.folder / "null"
    os.mkfifo(pipe)
    found = list[bytes]()
    reader = threading.Thread(target=lambda: found.append(pipe.read_bytes()))
    reader.start()
    assert town.ran(*compared[:-1], str(pipe))[2] == 0
    reader.join(LONGEST_WAIT)
    assert found == [made] and stat.S_ISFIFO(os.stat(pipe).st_mode)
    assert town.ran(*compared[:-1], "/dev/null")[2] == 0
    assert stat.S_ISCHR(os.stat("/dev/null").st_mode)
    ran = launched(*compared[:-1], "/dev/stdout")
    assert (ran.returncode, ran.stdout) == (0, made) and os.path.islink("/dev/stdout")
    device.symlink_to("made.csv")
    assert town.ran(*compared[:-1], str(device))[2] == 0
    assert device.is_symlink() and (town.folder / "made.csv").read_bytes() == made


WAITING = """
import sys, time
sys.path.insert(0, sys.argv[1])
import ttm_tools.gtfs.stops as stops
from ttm_tools import cli

def wait(*_):
    print("begun", flush=True)
    sys.stdin.readline()
    return read(*_)

read, stops.read_stops = stops.read_stops, wait
sys.exit(cli.main(sys.argv[2:]))
"""


@pytest.mark.parametrize("command", ["walks", "points"])
def test_of_two_runs_with_one_output_the_second_is_refused(town: Town, command: str) -> None:
    """The first run is held after it has begun, before it writes."""
    points = town.write("points.csv", "id,lat,lon", [["P", 0.0, 9.001]])
    more = [town.feed] if command == "walks" else [town.feed, points]
    words = [command, "--out", town.path("made"), *more]
    how: dict[str, Any] = {"stdin": subprocess.PIPE, "stdout": subprocess.PIPE}
    with subprocess.Popen([sys.executable, "-c", WAITING, str(Path(LAUNCHER).parent / "src"), *words], **how) as run:
        assert run.stdout is not None and run.stdin is not None
        assert run.stdout.readline() == b"begun\n"
        town.refused(f"{town.path('made')}: another command writes it at the moment", *words)
        run.stdin.write(b"\n")
        run.stdin.flush()
        assert run.wait(LONGEST_WAIT) == 0
    assert (town.folder / "made").exists()
    assert not [name for name in town.names() if ".part." in name]


def test_what_a_killed_run_of_another_machine_left_goes_and_what_runs_there_stays(room: Room) -> None:
    """The number of its process says nothing here; its lock does."""
    left = room.folder / f".part.{os.getpid()}-0123abcd.a.csv"
    left.write_text("half")
    with command_runs("compare"), output(room.path("a.csv")) as file:
        file.write(b"whole")
    assert room.names() == {"a.csv"}
    other = subprocess.Popen(["flock", "--no-fork", room.path(".part.lock.b.csv"), "sleep", "600"])
    try:
        wait_until(lambda: (room.folder / ".part.lock.b.csv").exists())
        live = room.folder / ".part.1-0123abcd.b.csv"
        live.write_text("half")
        message = f"{room.path('b.csv')}: another command writes it at the moment"
        wait_until(lambda: refusal_of(room.path("b.csv")) == message)
        assert live.read_text() == "half"
    finally:
        other.kill()
        other.wait()


def refusal_of(path: str) -> str:
    try:
        with command_runs("compare"), output(path):
            return ""
    except Exception as fault:
        return str(fault)


def test_temporary_folders_of_other_machines_stay_and_those_of_killed_runs_go(
    room: Room, monkeypatch: pytest.MonkeyPatch
) -> None:
    """Hosts share the folder of temporary files: a process number of another host means nothing here."""
    monkeypatch.setattr(tempfile, "tempdir", str(room.folder))
    names = ["ttm-tools-feed.live", "ttm-tools-feed.left", "ttm-tools-feed.new", "ttm-tools-feed.4194303.old"]
    for name in names:
        (room.folder / name).mkdir()
        (room.folder / name / "data").write_text(name)
    for name in names[:3]:
        (room.folder / name / "lock").touch()
    for name in names[:2]:  # the third is so young that its process may not have locked it yet
        os.utime(room.folder / name, (0, 0))
    other = subprocess.Popen(
        ["flock", "--no-fork", room.path("ttm-tools-feed.live/lock"), "sh", "-c", "echo; exec sleep 600"],
        stdout=subprocess.PIPE,
    )
    try:
        assert other.stdout is not None
        other.stdout.readline()
        with folders.scratch("feed") as inner:
            assert list(inner.iterdir()) == []
            assert {path.name for path in room.folder.iterdir()} == {
                "ttm-tools-feed.live",
                "ttm-tools-feed.new",
                "ttm-tools-feed.4194303.old",
                inner.parent.name,
            }
    finally:
        other.kill()
        other.wait()
    assert len(this_machine()) == 8


def test_the_kind_of_a_map_is_no_output(town: Town, monkeypatch: pytest.MonkeyPatch) -> None:
    """Maps of one kind are drawn at once in one folder: the kind names no file that they lock."""
    pytest.importorskip("matplotlib")
    monkeypatch.chdir(town.folder)
    town.matrix(town_matrix(True))
    with lock_file(town.folder / "access", "access").open("w") as other:
        fcntl.flock(other, fcntl.LOCK_EX)
        words = ["map", "access", "--feed", town.feed, "--out", town.path("a.png"), town.file]
        assert town.ran(*words)[2] == 0


@pytest.mark.parametrize(
    "name, begin", [("a.svg", b"<?xml"), ("a.pdf", b"%PDF-"), ("a.png", b"\x89PNG"), ("a", b"\x89PNG")]
)
def test_a_picture_is_of_the_kind_that_its_name_says(town: Town, name: str, begin: bytes) -> None:
    pytest.importorskip("matplotlib")
    town.matrix(town_matrix(True))
    words = ["map", "access", "--feed", town.feed, "--unit", "jobs & homes", "--out", town.path(name), town.file]
    assert town.ran(*words)[2] == 0
    first = (town.folder / name).read_bytes()
    assert first.startswith(begin)
    assert (town.ran(*words)[2], (town.folder / name).read_bytes()) == (0, first)  # no time is in it
    if name.endswith("svg"):
        assert ElementTree.fromstring(first).tag.endswith("svg")


@pytest.mark.parametrize("name", ["a.jpg", "a.JPEG", "a.tiff", "a.eps", "a.webp"])
def test_a_picture_of_another_kind_is_refused_before_any_work(town: Town, name: str) -> None:
    for words in (["map", "access", "--out", name, "no.csv"], ["equity", "no.csv", "--people", "n", "--picture", name]):
        out, errors, status = town.ran(*words)
        assert (out, status) == ("", 2) and f"'{name}' is not the name of a picture: .png, .svg or .pdf" in errors


def test_an_error_of_a_plan_leaves_no_points_and_no_walks(town: Town) -> None:
    """The list of new stops is of a plan, and damaged: that is seen before anything is written."""
    (town.folder / "new_stops.csv").write_text("stop\nA\n")
    points = town.write("points.csv", "id,lat,lon", [["P", 0.0, 9.001]])
    message = f"{town.path('new_stops.csv')}: record 1: no column stop_id"
    town.refused(message, "points", "--out", town.path("made"), town.feed, points)
    town.refused(message, "walks", town.feed)


@pytest.mark.parametrize("name", ["calendar_dates.txt", "footpaths.csv", "cut.csv"])
def test_a_pipe_among_the_inputs_of_a_journey_is_refused(town: Town, name: str) -> None:
    """`ttm` would wait for it forever."""
    pytest.importorskip("pandas")
    town.write("calendar.txt", *CALENDAR)
    town.write("routes.txt", "route_id,route_type", [["R", 3], ["Q", 3]])
    program = script(town.folder / "waits", "#!/bin/sh\nexec sleep 600\n")
    os.mkfifo(town.path(name))
    words = ["--date", "20260504", "--from", "08:00", "--to", "08:00", "--origin", "A", "--destination", "C"]
    words += ["--program", program, *(["--footpaths", town.path(name)] if name == "footpaths.csv" else [])]
    command = [
        sys.executable,
        LAUNCHER,
        "explain",
        *words,
        town.feed,
        *([town.path(name)] if name == "cut.csv" else []),
    ]
    ran = subprocess.run(command, capture_output=True, text=True, timeout=60)
    assert (ran.returncode, ran.stdout) == (1, "")
    assert ran.stderr == f"ttm-tools explain: {town.path(name)}: is not a file but a pipe\n"
