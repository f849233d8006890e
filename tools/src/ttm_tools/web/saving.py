"""Saves an exploration as a study that computes all of it, in a folder of its own."""

import os
import shlex
from pathlib import Path
from typing import Any, Callable, Sequence

from ..core.errors import ArgumentError
from ..core.folders import numbered_folder
from ..core.question import MAX_RIDES
from ..core.stop_lists import write_stops
from ..plans.plan_text import toml_value
from .changes import number, setting_in
from .live_network import Plan
from .options import ExploreOptions
from .point import FEED, Point, WALKS, Walk
from .question import origin_of, window_of
from .session_inputs import copy_generated, copy_with_point, with_copies

STUDY, PLAN, ORIGINS = "study.toml", "plan.toml", "origins.csv"


Walker = Callable[[Point], list[Walk]]


def save(options: ExploreOptions, plan: Plan, columns: Sequence[str], body: Any, walker: Walker) -> dict[str, Any]:
    """Writes a study of a network into a new folder, for a window, trips, and an origin or all. For a point that is no
    stop, the study has a copy of the feed with the point as one more stop.
    """
    if not isinstance(body, dict) or not {"first", "last", "trips", "origin"} <= body.keys():
        raise ArgumentError("a study needs first, last, trips and origin")
    window = window_of({key: str(body[key]) for key in ("first", "last")})
    trips, point = setting_in(body, MAX_RIDES), point_in(body["origin"])
    origin = -1 if point else number(body["origin"], "origin", -1, len(columns) - 1)
    with numbered_folder(options.out) as new:
        aside = new.aside
        named = columns[origin] if origin >= 0 else None
        if point is not None:
            named = copy_with_point(options, aside, point, walker(point))
        elif options.generated:
            copy_generated(options, aside)
        tables = tables_of(with_copies(options, aside), plan, aside, (window, trips))
        if named is not None:
            tables["run"]["origins"] = ORIGINS
            with open(aside / ORIGINS, "wb") as file:
                write_stops(file, [named])
        (aside / STUDY).write_text(text_of(options, tables), encoding="utf-8")
        if plan.text:
            (aside / PLAN).write_text(plan.text, encoding="utf-8")
    path = new.folder / STUDY
    return {"path": str(path), "command": f"ttm-tools study {shlex.quote(str(path))}"}


def point_in(origin: Any) -> Point | None:
    """The point of the map at which journeys begin; None for a place of the page."""
    if not isinstance(origin, dict):
        return None
    found = origin_of({str(key): str(value) for key, value in origin.items() if key in ("lat", "lon")}, 0)
    assert isinstance(found, Point)
    return found


def tables_of(
    options: ExploreOptions, plan: Plan, folder: Path, times: tuple[tuple[str, str], int]
) -> dict[str, dict[str, Any]]:
    """The tables of the study's file. Paths are relative to its folder, which may already contain feed and walks."""

    def path(name: str) -> str:
        return os.path.relpath(name, folder)

    window, trips = times
    run: dict[str, Any] = {"from": window[0], "to": window[1], "trips": trips, "walk": plan.walk}
    run |= {"shares": list(options.shares), "back": options.back, "ahead": options.ahead}
    feed = FEED if (folder / FEED).exists() else path(options.feed)
    table = WALKS if (folder / WALKS).exists() else options.footpaths and path(options.footpaths)
    walks: dict[str, Any] = {"none": True} if table is None else {"table": table}
    tables = {"feed": {"files": [feed], "ready": True}, "run": run, "walks": walks}
    if options.opportunities:
        tables["opportunities"] = {"files": [path(opportunity) for opportunity in options.opportunities]}
    if plan.text:
        tables["scenarios"] = {"plan": PLAN}
    tables["results"] = {"maps": False}
    return tables


def text_of(options: ExploreOptions, tables: dict[str, dict[str, Any]]) -> str:
    """The study's file; a date of TOML has no quotes."""
    lines = [f"title = {toml_value(options.title or 'An exploration')}"]
    for name, values in tables.items():
        lines += ["", f"[{name}]"]
        lines += [f"date = {options.date.isoformat()}"] if name == "run" else []
        lines += [f"{key} = {toml_value(value)}" for key, value in values.items()]
    return "\n".join(lines) + "\n"
