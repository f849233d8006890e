"""Small files that would fill the memory or the disk: each ends in one line, within 2 GB of addresses, 1 GB of memory,
and files of 150 MB.
"""

import os
import resource
import subprocess
import sys
import zipfile
from pathlib import Path
from typing import Callable, Iterator

import numpy as np
import pytest

from helpers import LAUNCHER, Room
from test_opening import FEED

MOST = 2_000_000_000  # bytes of addresses, as by `ulimit -v`
MOST_TAKEN = 1_000_000_000  # of memory that is taken
MOST_WRITTEN = 150_000_000  # and of a file, also of one that is unpacked
Bomb = Callable[[Path], "tuple[list[str], str]"]  # the command, and what its line says


def packed(folder: Path, blocks: Iterator[bytes], member: str = "stops.txt") -> str:
    """A zip file of a feed one of whose members has these blocks."""
    with zipfile.ZipFile(folder / "feed.zip", "w", zipfile.ZIP_DEFLATED, compresslevel=1) as archive:
        for name, text in FEED.items():
            if name != member:
                archive.writestr(name, text)
        with archive.open(member, "w", force_zip64=True) as file:
            for block in blocks:
                file.write(block)
    return str(folder / "feed.zip")


def a_line_of_commas(folder: Path) -> tuple[list[str], str]:
    return ["prepare", "--check", packed(folder, (b"," * 1_000_000 for _ in range(100)))], "a line of more than"


def an_unread_member(folder: Path) -> tuple[list[str], str]:
    return ["prepare", "--check", packed(folder, (bytes(4_000_000) for _ in range(100)), "photos.txt")], ""


def a_field_without_an_end(folder: Path) -> tuple[list[str], str]:
    blocks = (b'stop_id\n"' if first else b"A\n" * 500_000 for first in (True, *[False] * 100))
    return ["prepare", "--check", packed(folder, blocks)], "field larger than field limit"


def feed_of(folder: Path) -> str:
    for name, text in FEED.items():
        (folder / name).write_text(text)
    return str(folder)


def points_of(folder: Path, count: int, step: float) -> str:
    lines = (f"P{number},{50 + number % 1000 * step:.6f},{7 + number // 1000 * step:.6f}\n" for number in range(count))
    (folder / "points.csv").write_text("id,lat,lon\n" + "".join(lines))
    return str(folder / "points.csv")


def a_million_points(folder: Path) -> tuple[list[str], str]:
    arguments = ["points", "--leave-out", "--out", str(folder / "out"), feed_of(folder)]
    return [*arguments, points_of(folder, 1_000_001, 0.0001)], "more than 1,000,000 points"


def points_far_from_any_stop(folder: Path) -> tuple[list[str], str]:
    arguments = ["points", "--leave-out", "--out", str(folder / "out"), feed_of(folder)]
    return [*arguments, points_of(folder, 40_000, 0.001)], ""


def points_close_together(folder: Path) -> tuple[list[str], str]:
    arguments = ["points", "--leave-out", "--out", str(folder / "out"), feed_of(folder)]
    return [*arguments, points_of(folder, 150_000, 0.00002)], "more than the 65,535 that ttm takes"


def many_walks(folder: Path) -> tuple[list[str], str]:
    arguments = ["points", "--limit", "2400", "--out", str(folder / "out"), feed_of(folder)]
    return [*arguments, points_of(folder, 60_000, 0.0005)], "more than the 4,000,000 walks that ttm takes"


def a_wide_matrix(folder: Path) -> tuple[list[str], str]:
    (folder / "matrix.csv").write_bytes(b"scenario,origin,access" + b"," * 100_000_000 + b"\n")
    return ["omx", "--out", str(folder / "out.omx"), str(folder / "matrix.csv")], "more than 65,546 columns"


def a_deep_open_matrix(folder: Path) -> tuple[list[str], str]:
    import h5py

    path = folder / "matrix.omx"
    with h5py.File(path, "w") as file:
        for name in ("data", "access", "lookup"):
            file.create_group(name)
        for name in ("origin", "destination"):
            file["lookup"].create_dataset(name, shape=(1 << 40,), dtype="S9", chunks=(1 << 20,), compression="gzip")
        result = file["data"].create_dataset("base", shape=(1 << 40, 1 << 20), dtype="<f4", chunks=(1, 1 << 20))
        result.attrs["scenario"] = np.bytes_(b"base")
    return ["omx", "--out", str(folder / "out.omx"), str(path)], "1,099,511,627,776 identifiers"


def a_large_toml(folder: Path) -> tuple[list[str], str]:
    (folder / "plan.toml").write_text("a = [" + "1," * 40_000_000 + "]")
    return [
        "scenarios",
        "--out",
        str(folder / "out"),
        feed_of(folder),
        str(folder / "plan.toml"),
    ], "a TOML file has at most"


def a_large_area(folder: Path) -> tuple[list[str], str]:
    with open(folder / "area.json", "wb") as file:
        file.truncate(300_000_000)
    arguments = ["prepare", "--area", str(folder / "area.json"), "--out", str(folder / "out"), feed_of(folder)]
    return arguments, "GeoJSON has at most"


BOMBS: list[Bomb] = [
    a_line_of_commas,
    an_unread_member,
    a_field_without_an_end,
    a_million_points,
    points_far_from_any_stop,
    points_close_together,
    many_walks,
    a_wide_matrix,
    a_deep_open_matrix,
    a_large_toml,
    a_large_area,
]


def limited() -> None:
    resource.setrlimit(resource.RLIMIT_AS, (MOST, MOST))
    resource.setrlimit(resource.RLIMIT_FSIZE, (MOST_WRITTEN, MOST_WRITTEN))


def ended(arguments: list[str]) -> tuple[int, str, int]:
    """How a command ends: its status, what it says, and the bytes of memory that it took at most."""
    ran = subprocess.Popen(arguments, stdout=subprocess.DEVNULL, stderr=subprocess.PIPE, text=True, preexec_fn=limited)
    assert ran.stderr is not None
    with ran.stderr as errors:
        said = errors.read()
    _, status, used = os.wait4(ran.pid, 0)
    ran.returncode = os.waitstatus_to_exitcode(status)
    return ran.returncode, said, used.ru_maxrss * 1024


@pytest.mark.parametrize("bomb", BOMBS)
def test_what_would_fill_the_memory_ends_in_a_line(room: Room, bomb: Bomb) -> None:
    for package in ("h5py", "pandas", "shapely"):
        pytest.importorskip(package)
    arguments, line = bomb(room.folder)
    before = room.names()
    status, said, taken = ended([sys.executable, LAUNCHER, *arguments])
    assert taken < MOST_TAKEN, f"{taken:,}"
    if not line:
        assert status == 0, said
        return
    assert status == 1 and said.count("\n") == 1 and line in said, said
    assert room.names() == before
