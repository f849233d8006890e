"""The page on r5py and r5r: its blocks run, and a script of it passes mypy."""

import re
import shutil
import subprocess
import sys
from pathlib import Path

import pytest

from asking import standing_in
from helpers import Room

for package in ("geopandas", "osmium", "scipy", "pyproj"):
    pytest.importorskip(package)

ROOT = Path(__file__).resolve().parents[2]
PAGE = ROOT / "docs" / "howto" / "r5py.md"
BLOCK = re.compile(r"^```python\n(.*?)^```$", re.MULTILINE | re.DOTALL)
MAKERS = ("feedgen.py", "streetgen.py")


@pytest.fixture
def blocks() -> list[str]:
    if not PAGE.is_file():
        pytest.skip("without docs/howto/r5py.md")
    return BLOCK.findall(PAGE.read_text())


def test_each_block_of_the_page_runs(
    room: Room, program: str, blocks: list[str], monkeypatch: pytest.MonkeyPatch
) -> None:
    if not all((ROOT / "bench" / name).is_file() for name in MAKERS):
        pytest.skip("without the makers of the town")
    monkeypatch.setenv("TTM_PROGRAM", program)
    monkeypatch.setenv("TTM_CACHE", room.path("cache"))
    commands = re.findall(r"^    python3 (bench/.*)$", PAGE.read_text(), re.MULTILINE)
    assert [command.split()[0] for command in commands] == [f"bench/{name}" for name in MAKERS]
    assert len(blocks) == 7
    names: dict[str, object] = {}
    with standing_in(room.folder):
        for command in commands:
            script, *arguments = command.split()
            subprocess.run([sys.executable, str(ROOT / script), *arguments], check=True, capture_output=True)
        for block in blocks:
            exec(compile(block, str(PAGE), "exec"), names)


def test_the_scripts_of_the_page_pass_mypy(room: Room, blocks: list[str]) -> None:
    if shutil.which("mypy") is None or not (ROOT / "tools" / "pyproject.toml").is_file():
        pytest.skip("without mypy")
    (room.folder / "client.py").write_text("".join(blocks))
    arguments = ["mypy", "--strict", "--config-file", str(ROOT / "tools" / "pyproject.toml"), "--cache-dir", "cache"]
    environment = {"MYPYPATH": str(ROOT / "tools" / "src"), "PATH": "/usr/bin:/bin"}
    ran = subprocess.run([*arguments, "client.py"], cwd=room.folder, env=environment, capture_output=True, text=True)
    assert (ran.returncode, ran.stdout) == (0, "Success: no issues found in 1 source file\n"), ran.stdout
