"""The document of a page: a template with the files of `assets`, Leaflet, and parts of numbers.

All text is set as text: a stop's name is never code.
"""

import base64
import hashlib
import itertools
import json
from dataclasses import asdict, dataclass, field
from pathlib import Path
from typing import Any, BinaryIO, Iterator, Sequence
from urllib.parse import urlsplit

import numpy as np

from ...core.errors import MissingDependencyError
from ...core.shipped import LEAFLET
from ...core.walking import Walking
from ...core.text import display_text
from ...matrices import Share
from ...views.classes import TABLE
from ..bundling import MODULES, bundled
from ..styling import FONT, font_style, token_style
from .content import Content
from .ground import PageGround
from .lines import Lines
from .parts import Element, blocks_of, part, rows_in_block
from .places import degrees_of, rings_of
from .streets import ASIDE, PageStreets

ASSETS = Path(__file__).resolve().parent / "assets"
STYLES = ("page.css",)
LICENCES = (MODULES / "leaflet" / "LICENSE.txt", FONT / "LICENSE.txt")


@dataclass(frozen=True)
class Frame:
    """What stands around the numbers of a page."""

    title: str
    note: str
    scenarios: list[str]  # the base first
    shares: list[Share]
    meanings: list[str]  # for each share
    sources: list[tuple[str, str]]
    sentences: list[str]  # what a reader needs to know of what is shown
    minutes: int  # at which the slider begins
    walking: Walking = Walking()  # on from a stop
    tiles: str | None = None  # where a map is fetched from that is drawn below
    attribution: str = ""
    leaflet: str = LEAFLET
    streets: PageStreets | None = None  # along which travellers walk on
    ground: PageGround | None = None  # what is drawn below all else


def leaflet_files(folder: str) -> tuple[str, str]:
    """Leaflet's script and style; which package lacks, where they aren't there."""
    found = []
    for name in ("leaflet.min.js", "leaflet.css"):
        path = Path(folder) / name
        if not path.is_file():
            raise MissingDependencyError(f"no {path}, which the page needs: apt-get install libjs-leaflet")
        found.append(path.read_text(encoding="utf-8"))
    return found[0], found[1]


def parts_of(content: Content, lines: Lines) -> Iterator[Element]:
    """All numbers of a page, as `web/assets/page/data.js` reads them."""
    ground = content.ground
    yield part("places", degrees_of(ground.places))
    for name, sides in zip(("widths", "heights"), np.nan_to_num(ground.places.sides()).T):
        yield part(name, sides.astype(np.float32))
    for name, rings in zip(("area-rings", "area-corners"), rings_of(ground.places)):
        yield part(name, rings)
    for name, names in (("columns", ground.columns), ("origins", ground.origins), ("rows", ground.rows)):
        yield part(name, ground.at(names))
    yield part("counts", content.counts.numbers.T)
    yield part("running", lines.running)
    for scenario, change in enumerate(lines.changes):
        for name in ("taken", "changed", "added"):
            yield part(f"{name}-{scenario}", getattr(change, name))
    for scenario, by_share in enumerate(content.times):
        for share, (cells, access) in enumerate(by_share):
            key = f"{scenario}-{share}"
            yield part(f"access-{key}", access.T)
            below = content.times[0][share][0] if scenario else None
            for number, block in enumerate(blocks_of(cells, below)):
                yield part(f"cells-{key}-{number}", block)


def head_of(content: Content, lines: Lines, frame: Frame) -> dict[str, Any]:
    """What a page's numbers are, as the first of its parts says it."""
    ground, names = content.ground, content.counts.names
    return {
        "title": frame.title,
        "scenarios": [display_text(name) for name in frame.scenarios],
        "shares": frame.shares,
        "minutes": frame.minutes,
        "walk": frame.walking.max_seconds,
        "pace": frame.walking.straight_speed,
        "streets": {"speed": frame.streets.speed, "aside": ASIDE} if frame.streets else None,
        "identifiers": [display_text(name) for name in ground.places.identifiers],
        "names": ground.places.names,
        "columns": len(ground.columns),
        "origins": len(ground.origins),
        "rows": len(ground.rows),
        "rowsInBlock": rows_in_block(len(ground.columns)),
        "counts": names,
        "people": names[len(names) - content.people :],
        "reached": [number for number, name in enumerate(names) if name not in (*content.hidden, *content.away)],
        "measures": [asdict(measure) for measure in content.measures],
        "meanings": frame.meanings,
        "lines": {"source": lines.source},
        "ground": {"attribution": frame.ground.attribution} if frame.ground else None,
        "tiles": {"url": frame.tiles, "attribution": frame.attribution} if frame.tiles else None,
    }


def as_json(head: dict[str, Any]) -> str:
    """A text that no reader of HTML takes for more than text."""
    text = json.dumps(head, ensure_ascii=False, separators=(",", ":"))
    for letter in "<>&\u2028\u2029":
        text = text.replace(letter, f"\\u{ord(letter):04x}")
    return text


@dataclass(frozen=True)
class PageKind:
    """The files that a page consists of: those of the page to send, or of one with a live source."""

    template: str = "page.html"
    folders: tuple[Path, ...] = (ASSETS,)
    entry: str = "page/main.js"  # the module of the scripts that needs all others
    styles: tuple[str, ...] = STYLES
    connects: bool = False  # whether it sends requests to the server that it comes from
    known: dict[str, Any] = field(default_factory=dict)  # what else its template shows

    def texts(self, names: Sequence[str]) -> list[str]:
        """Files of these folders, each from the first that has it."""
        paths = [next(path for path in (folder / name for folder in self.folders) if path.is_file()) for name in names]
        return [path.read_text(encoding="utf-8") for path in paths]


def host_of(tiles: str) -> str:
    """Returns the only host that tiles come from, as a content policy names it; `{s}` becomes `*`."""
    parts = urlsplit(tiles)
    return f"{parts.scheme}://{parts.netloc.replace('{s}', '*')}"


def policy_of(scripts: Sequence[str], styles: Sequence[str], tiles: str | None, connects: bool = False) -> str:
    """What a browser may run and fetch: these scripts and styles, by their checksums, tiles if there are any, and
    what the page's own server answers where it has one.
    """

    def sums(texts: Sequence[str]) -> str:
        found = [base64.b64encode(hashlib.sha256(text.encode()).digest()).decode("ascii") for text in texts]
        return " ".join(f"'sha256-{digest}'" for digest in found)

    images = "data:" if tiles is None else f"data: {host_of(tiles)}"
    rest = ("connect-src 'self'; " if connects else "") + "base-uri 'none'; form-action 'none'"
    return (
        f"default-src 'none'; script-src {sums(scripts)}; style-src {sums(styles)}; font-src data:; img-src {images}; "
        f"{rest}"
    )


def write_page(out: BinaryIO, content: Content, lines: Lines, frame: Frame, kind: PageKind = PageKind()) -> None:
    """Writes the page, some of it at a time."""
    from jinja2 import Environment, FileSystemLoader, StrictUndefined

    script, style = leaflet_files(frame.leaflet)
    scripts = [script, bundled(MODULES / kind.entry)]
    styles = [style, font_style(), token_style(), *kind.texts(kind.styles)]
    blocks: dict[str, Any] = {"trim_blocks": True, "lstrip_blocks": True}
    rooms = Environment(loader=FileSystemLoader(kind.folders), autoescape=True, undefined=StrictUndefined, **blocks)
    known = {
        "frame": frame,
        "policy": policy_of(scripts, styles, frame.tiles, kind.connects),
        "scripts": scripts,
        "styles": styles,
        "licences": [path.read_text(encoding="utf-8") for path in LICENCES],
        "head": as_json(head_of(content, lines, frame)),
        "classes": as_json(TABLE),
        "parts": itertools.chain(parts_of(content, lines), *(it.parts() for it in (frame.streets, frame.ground) if it)),
        "people": content.people,
        **kind.known,
    }
    for piece in rooms.get_template(kind.template).generate(known):
        out.write(piece.encode("utf-8", "replace"))
