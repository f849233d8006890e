"""Standard streams that are closed or full: one line and the status 1, and nothing of a message inside a table."""

import subprocess
import sys
from pathlib import Path

import pytest

from helpers import LAUNCHER, Town, town_matrix

CLOSED = "standard output is closed"


def shell(words: str, where: Path) -> tuple[int, str, str]:
    """The status and both outputs of a command in a shell; TOOLS is the launcher."""
    command = words.replace("TOOLS", f"{sys.executable} {LAUNCHER}")
    ran = subprocess.run(["sh", "-c", command], cwd=where, capture_output=True, text=True)
    return ran.returncode, ran.stdout, ran.stderr


@pytest.fixture
def folder(town: Town) -> Path:
    town.matrix(town_matrix(True))
    return town.folder


@pytest.mark.parametrize(
    "words", ["compare matrix.csv", "prepare --check .", "long matrix.csv", "study --new", "--help"]
)
def test_a_closed_output_is_reported(folder: Path, words: str) -> None:
    name = "" if words == "--help" else f" {words.split()[0]}"
    assert shell(f"TOOLS {words} >&-", folder) == (1, "", f"ttm-tools{name}: {CLOSED}\n")


@pytest.mark.parametrize(
    "words", ["compare matrix.csv", "prepare --check .", "--help", "compare --help", "study --new"]
)
def test_a_full_output_is_reported(folder: Path, words: str) -> None:
    name = "" if "--help" in words else f" {words.split()[0]}"
    status, out, errors = shell(f"TOOLS {words} > /dev/full", folder)
    assert (status, out) == (1, "") and errors.endswith(": No space left on device\n"), errors
    assert errors.startswith(f"ttm-tools{name}: ") and errors.count("\n") == 1, errors


def test_a_closed_output_is_no_error_where_nothing_is_written_to_it(folder: Path) -> None:
    status, _, errors = shell("TOOLS compare --out made.csv matrix.csv >&-", folder)
    assert (status, errors.startswith("cut compared with base")) == (0, True), errors
    assert (folder / "made.csv").read_text().startswith("origin,destination,")


@pytest.mark.parametrize("streams", ["2>&-", "<&- 2>&-"])
def test_no_message_gets_into_a_table_where_the_errors_are_closed(folder: Path, streams: str) -> None:
    status, table, _ = shell("TOOLS compare matrix.csv", folder)
    assert status == 0 and table.startswith("origin,destination,")
    assert shell(f"TOOLS compare matrix.csv {streams}", folder) == (0, table, "")
    assert shell(f"TOOLS compare --out made.csv matrix.csv >&- {streams}", folder) == (0, "", "")
    assert (folder / "made.csv").read_text() == table
    assert shell(f"TOOLS compare no.csv {streams}", folder) == (1, "", "")


def test_a_reader_that_ends_early_gets_no_message(folder: Path) -> None:
    status, out, errors = shell("TOOLS points --help | head -1", folder)
    assert (status, out.startswith("usage: ttm-tools"), errors) == (0, True, "")
