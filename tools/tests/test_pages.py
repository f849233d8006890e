"""The tutorial and the how-to pages: each command runs, and prints what its page says."""

import os
import re
import shutil
import subprocess
import sys
from pathlib import Path
from typing import Any

import pytest

from helpers import Room

ROOT = Path(__file__).resolve().parents[2]
sys.path.insert(0, str(ROOT / "packaging"))
import pages  # noqa: E402

DOCS = ROOT / "docs"
PATH = "export PATH=$PWD/crates/ttm/out:$PWD/tools:$PATH"


def text_of(page: str) -> str:
    return (DOCS / f"{page}.md").read_text()


def block_after(start: str, text: str) -> str:
    """The first indented block after the line that begins so."""
    found = re.search(rf"^{re.escape(start)}(?:.+\n)*\n((?:    .*\n)+)", text, re.MULTILINE)
    assert found is not None
    return found[1]


def script_run(room: Room, text: str) -> None:
    ran = subprocess.run(
        ["bash", "-e", "-c", text], capture_output=True, text=True, cwd=room.folder, env=environment_of(room)
    )
    assert ran.returncode == 0, ran.stderr


def make_town(room: Room, program: str) -> None:
    """What the pages assume: the town, the program, and the tools."""
    if any(shutil.which(name) is None for name in ("zip", "unzip")) or not (ROOT / "bench" / "feedgen.py").is_file():
        pytest.skip("zip, unzip or bench/feedgen.py is missing")
    os.symlink(ROOT / "bench", room.folder / "bench")
    script_run(room, block_after("In a clone", text_of("tutorial")))
    (room.folder / "crates" / "ttm").mkdir(parents=True)
    os.symlink(os.path.dirname(program), room.folder / "crates" / "ttm" / "out")
    os.symlink(ROOT / "tools", room.folder / "tools")


def needs_maps_and_page() -> None:
    for package in ("matplotlib", "pandas", "jinja2"):
        pytest.importorskip(package)


def environment_of(room: Room) -> dict[str, str]:
    path = os.pathsep.join([os.path.dirname(sys.executable), room.path("tools"), os.environ["PATH"]])
    return {**os.environ, "PATH": path, "LC_ALL": "C.UTF-8"}


def commands_run(room: Room, *names: str, before: str = "true") -> int:
    """Runs each command of some pages, after one that prints nothing, and compares the output with the page; returns
    the number of commands. Who reads a page a second time runs them again: no tool may refuse what it wrote itself.
    """
    page = [pages.Command(before), *(command for name in names for command in pages.commands(text_of(name)))]
    assert pages.differences(page, room.folder, environment_of(room)) == []
    assert refused_again(page, room) == []
    return len(page) - 1


def refused_again(page: list[pages.Command], room: Room) -> list[str]:
    """Runs the commands of a page again, and returns the errors of the tools that the page doesn't show. A folder that
    isn't empty is no output, whoever wrote it.
    """
    script = "exec 2>&1\n" + "\n".join(command.text for command in page)
    how: dict[str, Any] = {"cwd": room.folder, "env": environment_of(room), "stdin": subprocess.DEVNULL}
    printed = subprocess.run(["bash", "-c", script], stdout=subprocess.PIPE, text=True, **how).stdout
    expected = {line for command in page for line in command.printed}
    found = [line for line in printed.splitlines() if line.startswith("ttm-tools ") and line not in expected]
    return [line for line in found if not line.endswith(": already exists, and isn't empty")]


def test_readme_prints_what_it_says_and_its_commands_take_another_feed(room: Room, program: str) -> None:
    needs_maps_and_page()
    make_town(room, program)
    readme = (ROOT / "README.md").read_text()
    page = [pages.Command(PATH), *pages.commands(readme)]
    assert len(page) == 7
    assert pages.differences(page, room.folder, environment_of(room)) == []
    shutil.copy(room.path("town.zip"), room.path("own.zip"))
    script_run(room, PATH + "\n" + block_after("Replace the date", readme))
    assert len((room.folder / "own.csv").read_text().splitlines()) == 483


def test_the_tutorial_and_what_follows_it_print_what_the_pages_say(room: Room, program: str) -> None:
    pytest.importorskip("h5py")
    needs_maps_and_page()
    make_town(room, program)
    assert commands_run(room, "tutorial", "howto/export", "howto/r5py", "howto/measures") > 15


def test_a_damaged_feed_is_repaired_as_the_page_says(room: Room, program: str) -> None:
    make_town(room, program)
    assert commands_run(room, "howto/feed") > 6


def test_travel_times_from_door_to_door_are_as_the_page_says(room: Room, program: str) -> None:
    needs_maps_and_page()
    make_town(room, program)
    edits = "printf 'action,id,seconds\\nremove_route,L0013,\\n' > no13.csv"
    assert commands_run(room, "howto/points", before=f"{PATH}; unzip -q town.zip -d town; {edits}") > 6


def test_a_study_runs_in_one_command_as_the_page_says(room: Room, program: str) -> None:
    for package in ("matplotlib", "pandas", "h5py", "jinja2"):
        pytest.importorskip(package)
    make_town(room, program)
    for name in ("howto/plans", "howto/study"):
        pages.write_files(text_of(name), room.folder)
    ready = [command for command in pages.commands(text_of("howto/feed")) if not command.printed]
    cells = [command for command in pages.commands(text_of("howto/points")) if command.text.startswith("awk")]
    page = [pages.Command(PATH), *ready, *cells, *pages.commands(text_of("howto/study"))]
    assert len(page) > 9
    assert pages.differences(page, room.folder, environment_of(room)) == []


def test_a_plan_is_carried_out_as_the_page_says(room: Room, program: str) -> None:
    needs_maps_and_page()
    make_town(room, program)
    pages.write_files(text_of("howto/plans"), room.folder)
    begin = ("export", "unzip", "ttm-tools walks", "printf", "ttm --feed")
    page = [command for command in pages.commands(text_of("tutorial")) if command.text.startswith(begin)]
    page += pages.commands(text_of("howto/plans")) + pages.commands(text_of("reference/plan-file"))
    assert len(page) > 12
    assert pages.differences(page, room.folder, environment_of(room)) == []
