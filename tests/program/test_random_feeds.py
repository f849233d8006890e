"""The built program next to a plain second one (tests/program/plain.py), over small feeds that are drawn by a seed:
every matrix is the same, byte for byte.
"""

from __future__ import annotations

import io
import subprocess
from pathlib import Path

import pytest

import plain
from random_feeds import Drawn

FEEDS = 200
WINDOWS = (1, 15, 16, 17, 120, 255, 256, 1440)  # minutes: next to full rows of 16, two hours, next to a byte, a day
FEEDS_OF_A_WINDOW = 8


def compare(program: str, folder: Path, drawn: Drawn, minutes: int | None = None) -> None:
    """Compares what both programs print for a drawn feed, with a window of this length or a drawn one."""
    drawn.put_into(folder)
    arguments = drawn.words(folder, minutes)
    wanted = io.StringIO()
    plain.write_matrix(arguments, wanted)
    ran = subprocess.run([program, *arguments], stdout=subprocess.PIPE, stderr=subprocess.PIPE, timeout=60)
    assert (ran.returncode, ran.stderr.decode(), ran.stdout.decode()) == (0, "", wanted.getvalue())


@pytest.mark.parametrize("seed", range(1, FEEDS + 1))
def test_both_give_the_same_matrix(one_build: str, tmp_path: Path, seed: int) -> None:
    compare(one_build, tmp_path, Drawn(seed))


@pytest.mark.parametrize("minutes", WINDOWS)
def test_both_give_the_same_matrix_of_a_window(one_build: str, tmp_path: Path, minutes: int) -> None:
    for seed in range(FEEDS + 1, FEEDS + FEEDS_OF_A_WINDOW + 1):
        folder = tmp_path / str(seed)
        folder.mkdir()
        compare(one_build, folder, Drawn(seed), minutes)
