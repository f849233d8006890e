"""The page of an exploration: that of `ttm-tools page`, whose travel times come from the network that answers."""

import os
from dataclasses import replace
from pathlib import Path
from typing import Any, BinaryIO

from ..core.text import display_text
from ..core.walking import Walking
from .networks import FIRST
from .page import document as page, sources
from .page.content import Content
from .session import ExploreSession

ASSETS = Path(__file__).resolve().parent / "assets"
MINUTES = 30  # at which the slider stands first


def kind_of(session: ExploreSession) -> page.PageKind:
    """The files of the page, with those that send requests to the server."""
    known = {"asked": page.as_json(beginning_of(session))}
    folders, styles = (ASSETS, page.ASSETS), (*page.STYLES, "explore.css")
    return page.PageKind("explore.html", folders, "explore/main.js", styles, True, known)


def beginning_of(session: ExploreSession) -> dict[str, Any]:
    """With what the page begins."""
    options, plan = session.options, session.first
    first, last = options.window
    known = {"version": FIRST, "first": first, "last": last, "trips": options.trips, "walk": plan.walk}
    known |= {"most_walk": options.most_walk, "actions": plan.actions, "told": plan.sentences}
    return {**known, "date": options.date.isoformat()}


def frame_of(session: ExploreSession) -> page.Frame:
    """What stands around the numbers."""
    options = session.options
    arguments = sources.RunArguments(f"--date {options.date:%Y%m%d}")
    name = display_text(options.name or os.path.basename(os.path.abspath(options.feed)))
    return page.Frame(
        options.title or f"Explore: {name}",
        "",
        session.first.scenarios,
        list(options.shares),
        [sources.meaning(share, arguments) for share in options.shares],
        [("Feed", name), ("Date", options.date.isoformat()), ("Written by", "ttm-tools explore")],
        [],
        MINUTES,
        tiles=options.tiles,
        attribution=options.attribution or "",
        walking=Walking(options.kmh, options.detour),
        leaflet=options.leaflet,
        ground=session.background,
    )


def write_document(out: BinaryIO, session: ExploreSession) -> None:
    """Writes the page of the network that answers now."""
    content = Content(session.ground, session.counts, 0, [], [], [], [])
    lines = replace(session.feed_lines.whole, changes=session.first.changes)
    page.write_page(out, content, lines, frame_of(session), kind_of(session))
