"""The counts of a study, for the tools and for `ttm`: opportunities where journeys end, and people where they begin."""

import os
from pathlib import Path
from typing import Collection, Sequence

import numpy as np

from ..api.count_files import OWN_NAME, called, columns_of, identifier_of, read_counts
from ..core.errors import InputError
from ..core.files import sha256_of_file
from ..core.scaling import scale_of, times
from ..core.stop_lists import origins_in
from ..core.tables import RoundingCounter, names_of, rows as table_rows, write_rows
from ..core.text import counted, display_text, first_few, quantity, short_number
from ..measures.opportunities import Counts
from ..places.read import read_points
from .settings import Study
from .sources import Sources
from .stages import Record, Stage

ORIGINS, OPPORTUNITIES = "inputs/origins.csv", "inputs/opportunities.csv"
COUNTED, PEOPLE = "inputs/counted/opportunities.csv", "inputs/people.csv"
LEFT_OUT, LEFT_OUT_COLUMNS = "inputs/left_out.csv", ("column", "left_out")  # people at points that are left out
OF_POINTS = "point of the study"
NOT_COUNTED = "not counted, at"
REACH_NOTHING = "reach nothing, at"
SCALE = "scale"  # a column of `OPPORTUNITIES`


def columns_or_none(path: str) -> list[str]:
    """The columns of numbers of a file of points; there may be none."""
    try:
        return [called(name, path) for name in columns_of(path)]
    except InputError:
        return []


def own_columns(path: str, known: Sequence[str], destinations: Sequence[str]) -> list[str]:
    """The columns of the study's points that say something of a destination; there may be none."""
    if not columns_or_none(path):
        return []
    found = at(known, destinations, read_counts([path], known, OF_POINTS))
    return [name for name, total in zip(found.names, found.numbers.sum(axis=0).tolist()) if total > 0]


def at(known: Sequence[str], stops: Sequence[str], counts: Counts) -> Counts:
    """What is counted at some of the places that are known."""
    places = {name: place for place, name in enumerate(known)}
    return Counts(counts.names, counts.numbers[[places[stop] for stop in stops]])


def counted_columns(study: Study, tables: Sequence[str], own: Sequence[str]) -> list[str]:
    """The columns that are counted, in the order of the files; of the points' own file, which is the first, those that
    say something of a destination, or that are named.
    """
    named = study.opportunities.named
    found = [called(name, path) for path in tables for name in columns_of(path)]
    refuse_unknown(study, found)
    if study.opportunities.columns:
        return [name for name in found if name in named]
    idle = set(columns_or_none(tables[0])) - set(own) if study.points.all and tables else set()
    return [name for name in found if name not in idle or name in named]


def refuse_unknown(study: Study, found: Sequence[str]) -> None:
    """Refuses a column of [opportunities] that isn't found."""
    lost = next((name for name in study.opportunities.named if name not in found), None)
    if lost is not None:
        there = ", ".join(map(display_text, found)) or "no columns of numbers"
        raise InputError(study.path, f"[opportunities] names a column {display_text(lost)}; there are {there}")


def all_points(study: Study, only_begins: bool = False) -> list[str]:
    """The points of a study's files that may be left out, by their names in the feed; or those where journeys begin."""
    settings = study.points
    if not settings.leave_out:
        return []
    chosen = (*settings.files, *settings.origins) if only_begins else settings.all
    named = [(Path(path).stem, read_points(study.at(path)).identifiers) for path in chosen]
    return [name for stem, own in named for point in own for name in (point, f"{stem}:{point}")]


def sentences_on_unknown(whole: Counts, known: Sequence[str], unknown: dict[str, list[str]], what: str) -> list[str]:
    """How much of what is counted is at places of some files that the study doesn't have.

    The rows of `whole` are those of the known places and, behind them, of the others.
    """
    lost = list(dict.fromkeys(name for names in unknown.values() for name in names))
    if not lost:
        return []
    files = ", ".join(Path(path).name for path, names in unknown.items() if names)
    places = f"{quantity(len(lost), 'place')} that {'is' if len(lost) == 1 else 'are'} no {what}"
    found = Counts(whole.names, whole.numbers[: len(known)])
    return sentences_on_lost(whole, found, f"{files}: {NOT_COUNTED} {places} ({first_few([*map(display_text, lost)])})")


def sentences_on_lost(whole: Counts, chosen: Counts, what: str) -> list[str]:
    """How much of what is counted is at places that don't count."""
    lost = (whole.numbers.sum(axis=0) - chosen.numbers.sum(axis=0)).tolist()
    numbers = [
        counted(round(number, 6), display_text(name)) for name, number in zip(whole.names, lost) if round(number, 6) > 0
    ]
    return [f"{what}: {', '.join(numbers)}"] if numbers else []


def counts_stage(
    study: Study, stops_sum: str | None, tables: list[str], columns: list[str], known: list[str], stops: list[str]
) -> Stage:
    """What there is at each place at which journeys end, in one table; a table may say something of other places."""
    kind = OF_POINTS if study.points.all else "stop of the feed"
    given = list(map(study.at, study.opportunities.files))
    own = {os.path.relpath(path, study.folder): sha256_of_file(path) for path in tables if path not in given}

    def make() -> list[str]:
        every = list(dict.fromkeys([*known, *all_points(study)]))
        unknown = {path: unknown_in(path, set(every)) for path in given}
        others = dict.fromkeys(name for names in unknown.values() for name in names)
        whole = read_counts(tables, [*every, *others], kind, columns)
        found, counts = Counts(whole.names, whole.numbers[: len(every)]), at([*every, *others], stops, whole)
        write_counts(study.folder / COUNTED, stops, counts)
        lost = sentences_on_lost(found, counts, f"{NOT_COUNTED} places where no journey ends")
        lost += sentences_on_unknown(whole, every, unknown, kind)
        return [f"{COUNTED}: {', '.join(map(display_text, counts.names))} at {quantity(len(stops), 'place')}", *lost]

    facts = {"stops": stops_sum, "columns": columns, "ends": stops, "own": own}
    return Sources(study.at, study.opportunities.files).stage("counted", facts, [COUNTED], make)


def unknown_in(path: str, known: Collection[str]) -> list[str]:
    """Returns the places that a file of people or opportunities names and that are not known.

    Returns none of them if the file names no other, since then it is a file for another study: `read_counts` refuses
    its first record.
    """
    named = [place for _, (place,) in table_rows(path, [identifier_of(path)])]
    unknown = [place for place in named if place not in known]
    return unknown if len(unknown) < len(named) else []


def people_stage(study: Study, origins: Record, path: str) -> Stage:
    """How many people live at each origin; those who live elsewhere are reported, and not counted."""
    groups, kind, leaves_out = study.opportunities.groups, "origin of the study", study.points.leave_out

    def make() -> list[str]:
        names = origins_in(str(study.folder / ORIGINS))
        known = list(dict.fromkeys([*names, *all_points(study, only_begins=True)]))
        unknown = unknown_in(path, set(known))
        whole = read_counts([path], [*known, *unknown], kind, groups)
        counts = at([*known, *unknown], names, whole)
        write_counts(study.folder / PEOPLE, names, counts)
        found = Counts(whole.names, whole.numbers[: len(known)])
        lost = sentences_on_lost(found, counts, f"{REACH_NOTHING} points that are left out")
        if leaves_out:
            numbers = (found.numbers.sum(axis=0) - counts.numbers.sum(axis=0)).round(6).tolist()
            with open(study.folder / LEFT_OUT, "wb") as file:
                write_rows(file, LEFT_OUT_COLUMNS, zip(counts.names, map(short_number, numbers)))
        lost += sentences_on_unknown(whole, known, {path: unknown}, kind)
        return [f"{PEOPLE}: {', '.join(map(display_text, counts.names))} at {quantity(len(names), 'origin')}", *lost]

    facts = {"origins": origins.outputs, "groups": groups}
    outputs = [PEOPLE, LEFT_OUT] if leaves_out else [PEOPLE]
    return Sources(study.at, [study.opportunities.people]).stage("people", facts, outputs, make)


def write_counts(path: Path, stops: Sequence[str], counts: Counts) -> None:
    lines = ([stop, *map(short_number, numbers)] for stop, numbers in zip(stops, counts.numbers.tolist()))
    with open(path, "wb") as file:
        write_rows(file, ["stop_id", *counts.names], lines)


def scale_in(path: str) -> int:
    """By what the counts in a file of `opportunities_stage` were multiplied."""
    if SCALE not in names_of(path):
        return 1
    return next((int(scale) for _, (scale,) in table_rows(path, [SCALE])), 1)


def opportunities_stage(study: Path, counted: Record, column: str) -> Stage:
    """What `ttm` counts at each place, in whole numbers: times a power of ten if there are decimals."""
    path = str(study / COUNTED)

    def make() -> list[str]:
        stated = list(table_rows(path, ["stop_id", column]))
        numbers = np.array([float(number) for _, (_, number) in stated])
        scale, rounded = scale_of(numbers), RoundingCounter()
        counts = {
            stop: rounded.to_int(times(number, scale), path, record, column, up=False)
            for record, (stop, number) in stated
            if number != "0"
        }
        more = [scale] if scale > 1 else []
        rows = [[stop, count, *more] for stop, count in counts.items()]
        with open(study / OPPORTUNITIES, "wb") as file:
            write_rows(file, ["stop_id", OWN_NAME, *([SCALE] if more else [])], rows)
        total = sum(counts.values()) / scale
        scaled = f", times {scale:,} for ttm; access is divided by that" if scale > 1 else ""
        own = np.array([counts.get(stop, 0) / scale for _, (stop, _) in stated])
        apart, given = float(np.abs(own - numbers).sum()), short_number(round(float(numbers.sum()), 6))
        by = f"; rounded, {short_number(round(total, 6))} of {given}, and no sum differs by more than {apart:.6g}"
        whole = by if apart > 1e-6 else ""
        return [f"{OPPORTUNITIES}: {display_text(column)} at {quantity(len(rows), 'place')}{scaled}{whole}"]

    facts = {"column": column, "counted": counted.outputs}
    return Stage("opportunities", facts, [OPPORTUNITIES], make)
