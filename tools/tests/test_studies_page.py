"""The page of four studies: each of its commands runs, in order, and prints what the page says."""

import sys
from pathlib import Path

import pytest

from helpers import Room
from test_pages import PATH, environment_of, make_town, needs_maps_and_page

ROOT = Path(__file__).resolve().parents[2]
sys.path.insert(0, str(ROOT / "packaging"))
import pages  # noqa: E402

PAGE = ROOT / "docs" / "howto" / "studies.md"


def test_each_study_answers_as_the_page_says(room: Room, program: str) -> None:
    needs_maps_and_page()
    pytest.importorskip("h5py")
    make_town(room, program)
    text = PAGE.read_text()
    pages.write_files(text, room.folder)
    page = [pages.Command(PATH), *pages.commands(text)]
    assert len(page) > 18
    assert pages.differences(page, room.folder, environment_of(room)) == []
