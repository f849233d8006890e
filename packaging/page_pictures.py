#!/usr/bin/env python3
"""Makes the maps of the tutorial and of the how-to pages, and the picture of the tutorial's page, by the commands of
these pages. Each command must print what its page says.

    page_pictures.py PROGRAM [--out FOLDER]

PROGRAM is a built `ttm`. Without --out the pictures go to docs/images. Needs zip and unzip, matplotlib, selenium,
Chromium, Pillow and jinja2.
"""

import contextlib
import os
import re
import subprocess
import sys
import tempfile
from pathlib import Path

import pages
from explore_pictures import ROOT, Browser, fewer_colours, parser_of

PAGES = ("tutorial", "howto/plans", "howto/points")  # in the order in which their commands run
MAPS = {"lost.png": "picture.png", "tram.png": "tram.png", "doors.png": "cells.png"}  # names there, and in docs/images
PAGE, SIZE = "page.png", (1280, 800)


def lay_out(folder: Path, program: Path) -> None:
    """Writes what the pages assume in a clone: the sample, the program and the tools."""
    (folder / "crates" / "ttm").mkdir(parents=True)
    for name, there in {"bench": ROOT / "bench", "tools": ROOT / "tools", "crates/ttm/out": program.parent}.items():
        os.symlink(there, folder / name)
    tutorial = (ROOT / "docs" / "tutorial.md").read_text(encoding="utf-8")
    found = re.search(r"^In a clone(?:.+\n)*\n((?:    .*\n)+)", tutorial, re.MULTILINE)
    assert found, "tutorial.md: no commands for a clone"
    subprocess.run(["bash", "-e", "-c", found[1]], cwd=folder, check=True, stdout=subprocess.DEVNULL)


def run_pages(folder: Path) -> list[str]:
    """Runs the commands of the pages; one text for each whose output differs from its page."""
    texts = [(ROOT / "docs" / f"{name}.md").read_text(encoding="utf-8") for name in PAGES]
    for text in texts:
        pages.write_files(text, folder)
    path = os.pathsep.join([os.path.dirname(sys.executable), os.environ["PATH"]])
    environment = {**os.environ, "PATH": path, "LC_ALL": "C.UTF-8"}
    return pages.differences([one for text in texts for one in pages.commands(text)], folder, environment)


def page_picture(page: Path) -> bytes:
    """The window of a browser that opens a page of `ttm-tools page`."""
    with contextlib.closing(Browser()) as browser:
        browser.size(*SIZE)
        browser.open(page)
        found: bytes = browser.driver.get_screenshot_as_png()
        return found


def make(program: Path, out: Path) -> list[str]:
    """Writes the pictures into a folder, unless a command prints something else than its page says: then returns it."""
    with tempfile.TemporaryDirectory(prefix="ttm-pictures-") as name:
        folder = Path(name)
        lay_out(folder, program.resolve())
        if differing := run_pages(folder):
            return differing
        for there, here in MAPS.items():
            (out / here).write_bytes(fewer_colours((folder / there).read_bytes()))
        (out / PAGE).write_bytes(fewer_colours(page_picture(folder / "page.html")))
        return []


def main() -> int:
    parser = parser_of(__doc__)
    parser.add_argument("program", type=Path)
    parser.add_argument("--out", type=Path, default=ROOT / "docs" / "images")
    differing = make(**vars(parser.parse_args()))
    for text in differing:
        print(text)
    return 1 if differing else 0


if __name__ == "__main__":
    sys.exit(main())
