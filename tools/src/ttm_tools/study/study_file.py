"""A study's file, read: each value of its kind, fields that go together, and files that are there. A fault names the
line and the nearest right name.
"""

import os
from dataclasses import MISSING, fields, replace
from pathlib import Path
from typing import Any, TypeVar

from ..core.toml_file import Entry, LineNumbers, read_entry
from ..measures.registry import DECAYS
from .kinds import FILE, FILES
from .settings import About, NAMES, NEEDED, Study, TABLES

Settings = TypeVar("Settings")


def read_study(path: str) -> Study:
    """Reads and checks a study's file."""
    text, top = read_entry(path)
    top.only([*names_of(About), *TABLES])
    entries = {name: top.table(name) for name in TABLES if top.has(name)}
    for name in NEEDED:
        if name not in entries:
            raise top.fault(f"no table [{name}], which is needed")
    about = Entry(path, {key: value for key, value in top.values.items() if key not in TABLES}, top.lines)
    read: dict[str, Any] = {name: settings_of(TABLES[name], entry) for name, entry in entries.items()}
    study = completed(Study(Path(os.path.abspath(path)), settings_of(About, about), **read, text=text))
    for name, entry in entries.items():
        log_lost_files(study, TABLES[name], entry)
    agree(study, {name: entries.get(name, Entry(path, {}, LineNumbers(1))) for name in TABLES})
    return study


def completed(study: Study) -> Study:
    """The study with limits in seconds, as `ttm` has them, and with the first of its dates and windows as its own."""
    run, results = study.run, study.results
    if run.cutoffs is not None:
        run = replace(run, limits=tuple(round(60 * cutoff) for cutoff in run.cutoffs))
    if results.cutoff is not None:
        results = replace(results, within=round(60 * results.cutoff))
    if run.dates:
        run = replace(run, date=run.dates[0])
    if run.windows:
        run = replace(run, first=run.windows[0].first, last=run.windows[0].last)
    return replace(study, run=run, results=results)


def names_of(kind: type[Any]) -> list[str]:
    """The fields of a table as the file has them."""
    return [NAMES.get(field.name, field.name) for field in fields(kind)]


def settings_of(kind: type[Settings], entry: Entry) -> Settings:
    """A table's values, each of its kind."""
    entry.only(names_of(kind))
    values: dict[str, Any] = {}
    for field in fields(kind):
        key = NAMES.get(field.name, field.name)
        if entry.has(key):
            values[field.name] = entry.read(key, field.metadata["kind"])
        elif field.default is MISSING and not entry.has(field.metadata["instead"] or ""):
            raise entry.fault("is needed", key, allowed=field.metadata["kind"].allowed)
        elif field.default is MISSING:
            values[field.name] = ""
    return kind(**values)


def log_lost_files(study: Study, kind: type[Any], entry: Entry) -> None:
    """Refuses the first file that a table names and that isn't there."""
    for field in fields(kind):
        if field.metadata["kind"] not in (FILE, FILES) or not entry.has(field.name):
            continue
        for path in [entry.values[field.name]] if field.metadata["kind"] is FILE else entry.texts(field.name):
            if not os.path.exists(study.at(path)):
                raise entry.fault("isn't there", field.name, path, "a path, relative to this file's folder")


def refuse_both(entry: Entry, *keys: str) -> None:
    """Refuses the second of some fields that don't go together."""
    found = [key for key in keys if entry.values.get(key) not in (None, False, [])]
    if len(found) > 1:
        raise entry.fault(f"doesn't go with {found[0]}", found[1], allowed=f"one of {', '.join(keys)}")


def agree(study: Study, entries: dict[str, Entry]) -> None:
    """Refuses fields that don't go together."""
    feed, run, walks, points = (entries[name] for name in ("feed", "run", "walks", "points"))
    for key, several in (("date", "dates"), ("from", "windows"), ("to", "windows")):
        refuse_both(run, key, several)
    if study.run.last < study.run.first:
        raise run.fault("is before from", "to", study.run.last)
    if not study.feed.files:
        raise feed.fault("names no feed", "files", allowed='["feed.zip"]')
    if study.feed.ready and len(study.feed.files) != 1:
        raise feed.fault("is for one folder, and files names several", "ready")
    for key in ("repair", "same_clock", "box", "area", "routes", "agencies", "only_days"):
        refuse_both(feed, "ready", key)
    refuse_both(run, "limits", "cutoffs")
    refuse_both(entries["results"], "within", "cutoff")
    refuse_both(walks, "none", "streets", "table")
    refuse_both(walks, "kmh", "speed")
    for key in ("limit", "kmh", "speed", "detour") if study.walks.table and not study.results.isochrones else ():
        if walks.has(key):
            raise walks.fault("doesn't go with table, whose walks are taken as they are", key, str(walks.values[key]))
    if study.walks.limit is not None and study.walks.limit > study.run.walk:
        message = f"is more than walk of [run], {study.run.walk}, so ttm would ignore the longer walks"
        raise walks.fault(message, "limit", str(study.walks.limit), "at most walk of [run]")
    for key in ("grid_area", "grid_people"):
        if points.has(key) and study.points.grid is None:
            raise points.fault("needs grid", key)
    if study.points.are_any:
        agree_on_points(study, run, walks, points)
    refuse_both(entries["scenarios"], "files", "plan")
    agree_on_results(study, entries["results"], entries["opportunities"])


def agree_on_points(study: Study, run: Entry, walks: Entry, points: Entry) -> None:
    for key in ("none", "table"):
        if walks.values.get(key):
            raise walks.fault("doesn't go with [points], whose walks are computed", key)
    if run.has("origins"):
        raise run.fault("doesn't go with [points], at which journeys begin", "origins")
    both = study.points.origins and study.points.destinations
    if study.points.grid is not None and both:
        raise points.fault("goes with origins or with destinations: cells are the other end", "grid")
    if not study.points.files and not both and study.points.grid is None:
        raise points.fault("needs files, or origins and destinations: journeys begin and end somewhere")


def agree_on_results(study: Study, results: Entry, opportunities: Entry) -> None:
    settings = study.results
    for key, name in (("share", "shares"), ("within", "limits")):
        value, among = getattr(settings, key), getattr(study.run, name)
        if value is not None and value not in among:
            raise results.fault(f"is not among {name} of [run]", key, str(value), ", ".join(map(str, among)))
    if settings.max_minutes is not None and study.within > 60 * settings.max_minutes:
        message, allowed = "ends before the limit of tables and maps", f"at least {study.within / 60:g}"
        raise results.fault(message, "max_minutes", str(settings.max_minutes), allowed)
    has_people = study.opportunities.people or study.points.grid and study.opportunities.groups  # of cells
    if (settings.bands or settings.nearest_bands) and not (settings.access and has_people):
        key = "bands" if settings.bands else "nearest_bands"
        raise results.fault("needs access, and people of [opportunities]", key)
    if settings.who_gains and not (settings.access and has_people):
        raise results.fault("needs access, and people of [opportunities]", "who_gains")
    if settings.nearest_bands and not settings.nearest:
        raise results.fault("needs nearest", "nearest_bands")
    needs_value = bool(DECAYS[settings.decay].value)
    if needs_value and not settings.decay_value:
        raise results.fault("needs decay_value, minutes above 0", "decay", settings.decay)
    if settings.decay_value is not None and not needs_value:
        raise results.fault(f"goes with linear and logistic, not with {settings.decay}", "decay_value")
    if settings.decay == "exponential" and min(study.cutoffs) < 0.01:
        raise results.fault("needs cutoffs above 0: they are half-lives", "decay", settings.decay)
    if study.opportunities.column and not study.opportunities.files and not study.points.are_any:
        raise opportunities.fault("belongs to no file: name one in files", "column", study.opportunities.column)
