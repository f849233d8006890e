"""The script that makes the pictures of `explore`, with the real program in a real browser."""

import struct
import sys
from pathlib import Path

import pytest

import feedgen
from browser import lacking

pytestmark = [pytest.mark.program, pytest.mark.xdist_group("browser")]
for package in ("selenium", "PIL", "flask", "jinja2", "pandas"):
    pytest.importorskip(package)

ROOT = Path(__file__).resolve().parents[2]
sys.path.append(str(ROOT / "packaging"))

import explore_pictures  # noqa: E402


def test_the_page_shows_the_pictures() -> None:
    text = (ROOT / "docs" / "howto" / "explore.md").read_text()
    assert [name for name in explore_pictures.NAMES if f"](../images/{name})" not in text] == []


def test_each_picture_is_another_one_of_the_whole_window(program: str, tmp_path: Path) -> None:
    if lacking():
        pytest.skip(str(lacking()))
    feedgen.write_feed("town", 1, str(tmp_path))
    (tmp_path / "out").mkdir()
    explore_pictures.make(tmp_path, tmp_path / "out", program)
    found = [(tmp_path / "out" / name).read_bytes() for name in explore_pictures.NAMES]
    assert [struct.unpack(">II", item[16:24]) for item in found] == [explore_pictures.SIZE] * len(found)
    assert len(set(found)) == len(explore_pictures.NAMES)
