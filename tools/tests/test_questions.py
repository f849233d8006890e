"""The page of questions: each of its commands runs, in order, and prints what the page says."""

import os
import sys
from pathlib import Path

from helpers import Room
from test_pages import environment_of, make_town, needs_maps_and_page

ROOT = Path(__file__).resolve().parents[2]
sys.path.insert(0, str(ROOT / "packaging"))
import pages  # noqa: E402

PAGE = ROOT / "docs" / "howto" / "questions.md"


def test_each_command_prints_what_the_page_says(room: Room, program: str) -> None:
    needs_maps_and_page()
    make_town(room, program)
    text = PAGE.read_text()
    pages.write_files(text, room.folder)
    path = f"export PATH={os.path.dirname(program)}:$PWD/tools:$PATH; unzip -q town.zip -d town"
    edits = "printf 'action,id,seconds\\nremove_route,L0013,\\n' > no13.csv"
    page = [pages.Command(f"{path}; {edits}; ttm-tools walks town 2> walks.txt"), *pages.commands(text)]
    assert len(page) > 20
    assert pages.differences(page, room.folder, environment_of(room)) == []
