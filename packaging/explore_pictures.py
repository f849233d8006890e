#!/usr/bin/env python3
"""Makes the pictures of `ttm-tools explore`, by clicks in headless Chromium with the real program: what a stop reaches,
with a journey; the same before a change, the route that is changed, and what becomes faster; both networks side by
side; and cells.

    explore_pictures.py TOWN [--out FOLDER] [--program PATH]

TOWN is the folder that `feedgen.py town TOWN` writes. Without --out the pictures go to docs/images. Needs selenium,
Chromium, Pillow, flask and jinja2.
"""

import contextlib
import io
import shutil
import subprocess
import sys
from pathlib import Path
from typing import Iterator

ROOT = Path(__file__).resolve().parent.parent
sys.path[:0] = [str(ROOT / folder) for folder in ("bench", "tools/tests", "tools/src")]

from browser import Browser as Browser  # noqa: E402
from shared import DATE, TOOLS, parser_of as parser_of  # noqa: E402

START, END, CELL = "B00170S", "B00088N", "r10c07"
ROUTE, EVERY = "0013 (L0013)", "6"  # minutes
GRID = "300"  # metres
SIZE = 1280, 800
COLOURS = 256
IDLE = "while (document.body.dataset.busy === '1') await new Promise((it) => setTimeout(it, 20)); await show();"
NAMES = (
    "explore_look.png",
    "explore_before.png",
    "explore_route.png",
    "explore_after.png",
    "explore_both.png",
    "explore_cells.png",
)


@contextlib.contextmanager
def served(feed: Path, program: str | None, *more: str) -> Iterator[str]:
    """A server of a feed while the block runs: its address."""
    shutil.copy(feed / "opportunities.csv", feed / "jobs.csv")  # the page calls them as the file
    jobs = ["--opportunities", str(feed / "jobs.csv")]
    words = [str(feed), "--date", DATE, *jobs, *(["--program", program] if program else []), "--no-browser", *more]
    process = subprocess.Popen([sys.executable, TOOLS, "explore", *words], stdout=subprocess.PIPE, text=True)
    try:
        assert process.stdout is not None
        yield process.stdout.readline().strip()
    finally:
        process.terminate()
        process.wait(30)


def pictures_of_stops(browser: Browser) -> Iterator[bytes]:
    """What a stop reaches, with a journey and without; the route that is changed; and the change in two ways."""
    browser.click(START)
    browser.press("#areas")
    browser.press("#tools [value=end]")
    browser.click(END)
    browser.press("#tools [value=start]")
    browser.awaited("while (journey.found === null) await new Promise((it) => setTimeout(it, 20));")
    yield picture_of(browser)
    browser.run("journey.end = -1")
    yield picture_of(browser)
    browser.press("#areas")
    browser.awaited("await routes.read_;")
    browser.press("#tools [value=route]")
    browser.choose("route", ROUTE)
    browser.run("document.getElementById('headway-every').value = arguments[0]", EVERY)
    yield picture_of(browser)
    browser.press("#headway")
    browser.awaited(IDLE)
    browser.press("#tools [value=start]")
    yield picture_of(browser)
    browser.press("#view-beside")
    yield picture_of(browser)


def pictures_of_cells(browser: Browser) -> Iterator[bytes]:
    """What a cell reaches."""
    browser.click(CELL)
    yield picture_of(browser)


def picture_of(browser: Browser) -> bytes:
    """The window, with the answer from its beginning on; nothing has the focus."""
    browser.run("document.activeElement.blur(); document.getElementById('tip').hidden = true")
    browser.run("document.getElementById('answer').scrollTop = 0")
    browser.settle()
    found: bytes = browser.driver.get_screenshot_as_png()
    return found


def fewer_colours(picture: bytes) -> bytes:
    """The same picture in a third of the bytes."""
    from PIL import Image

    out = io.BytesIO()
    Image.open(io.BytesIO(picture)).convert("RGB").quantize(COLOURS).save(out, "PNG", optimize=True)
    return out.getvalue()


def pictures(town: Path, program: str | None) -> Iterator[bytes]:
    """The pictures, in the order of their names."""
    footpaths = ["--footpaths", str(town / "footpaths.csv")]
    for make, words in ((pictures_of_stops, footpaths), (pictures_of_cells, ["--grid", GRID])):
        with served(town, program, *words) as address, contextlib.closing(Browser()) as browser:
            browser.size(*SIZE)
            browser.visit(address)
            yield from make(browser)


def make(town: Path, out: Path, program: str | None) -> None:
    """Writes the pictures into a folder."""
    for name, picture in zip(NAMES, pictures(town, program), strict=True):
        (out / name).write_bytes(fewer_colours(picture))


def main() -> None:
    parser = parser_of(__doc__)
    parser.add_argument("town", type=Path)
    parser.add_argument("--out", type=Path, default=ROOT / "docs" / "images")
    parser.add_argument("--program")
    make(**vars(parser.parse_args()))


if __name__ == "__main__":
    main()
