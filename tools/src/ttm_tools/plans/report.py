"""Reports what each action did: sentences, and lists of actions, trips and new stops."""

from pathlib import Path
from typing import Iterator, Sequence

from ..core.notices import Notice
from ..core.tables import write_rows
from ..core.text import first_few
from .apply import ActionResult, ScenarioResult
from .writing import Written, used_stops

COUNTS = {"trips": "trips", "stops": "stops", "events": "stop times"}  # with their nouns in sentences
KINDS = ("taken out", "shifted", "changed", "added")
FIELDS = {"taken out": "removed", "shifted": "shifted", "changed": "changed", "added": "added"}
ACTIONS = ["scenario", "action", "line", "do", "about"]
ACTIONS += [f"{name}_{when}" for name in COUNTS for when in ("before", "after")]
ACTIONS += [kind.replace(" ", "_") for kind in KINDS]
CHANGES = ["scenario", "action", "line", "do", "what", "trip", "now", "route", "seconds"]
STOPS = ["stop_id", "stop_name", "stop_lat", "stop_lon", "scenarios"]


def action_rows(finished: Sequence[ScenarioResult]) -> Iterator[list[object]]:
    for done in (done for scenario in finished for done in scenario.done):
        counts = [part[name] for name in COUNTS for part in (done.before, done.after)]
        yield [*begin_of(done), " ".join(done.about), *counts, *map(done.count, KINDS)]


def action_fields(finished: Sequence[ScenarioResult]) -> Iterator[dict[str, object]]:
    """The actions for programs: docs/reference/json.md has each field."""
    for done in (done for scenario in finished for done in scenario.done):
        yield {
            "scenario": done.scenario,
            "number": done.number,
            "line": done.entry.lines.line,
            "do": done.what,
            "about": done.about,
            **{
                f"{noun.replace(' ', '_')}_{when}": part[name]
                for name, noun in COUNTS.items()
                for when, part in (("before", done.before), ("after", done.after))
            },
            **{FIELDS[kind]: done.count(kind) for kind in KINDS},
            "notes": list(done.notes),
        }


def begin_of(done: ActionResult) -> list[object]:
    """The fields that say which action it is."""
    return [done.scenario, done.number, done.entry.lines.line, done.what]


def change_rows(written: Written) -> Iterator[list[object]]:
    """A line for each trip that an action changed."""
    for scenario in written.finished:
        for done in scenario.done:
            for change in done.changes:
                now = written.names.now(scenario.state, change.now) if change.now else ""
                yield [*begin_of(done), change.what, change.trip, now, change.route, change.seconds or ""]


def stop_rows(written: Written) -> Iterator[list[object]]:
    """A line for each new stop, with the scenarios that call there."""
    places = written.base.places
    for stop in used_stops(written):
        names = [scenario.name for scenario in written.finished if scenario.state.calls[stop]]
        where = (places.latitudes[stop], places.longitudes[stop])
        yield [places.identifiers[stop], places.names[stop], *where, " ".join(names)]


def write_lists(written: Written, folder: Path) -> None:
    for name, header, rows in (
        ("actions.csv", ACTIONS, action_rows(written.finished)),
        ("changes.csv", CHANGES, change_rows(written)),
        ("new_stops.csv", STOPS, stop_rows(written)),
    ):
        with open(folder / name, "wb") as file:
            write_rows(file, header, rows)


def sentences(finished: Sequence[ScenarioResult]) -> list[str]:
    """What each action did, and below it what it chose."""
    return [
        line
        for scenario in finished
        for done in scenario.done
        for line in (sentence_of(done), *(f"  {note}" for note in done.notes))
    ]


def sentence_of(done: ActionResult) -> str:
    """What an action did to its scenario."""
    kinds = [f"{done.count(kind):,} {kind}" for kind in KINDS if done.count(kind)]
    counts = [
        f"{noun} {done.before[name]:,}" + (f" to {done.after[name]:,}" if done.after[name] != done.before[name] else "")
        for name, noun in COUNTS.items()
    ]
    begin = f"{done.scenario}: {done.number} {done.what} {first_few(done.about)}"
    return f"{begin}: trips {', '.join(kinds)}; {', '.join(counts)}"


def unused(written: Written) -> list[str]:
    """The plan's stops at which no scenario calls, which are left out."""
    base, used = written.base, set(used_stops(written))
    stops = enumerate(base.places.identifiers[base.old_stops :], base.old_stops)
    lost = [name for place, name in stops if place not in used]
    return [Notice(f"stop {name} is left out: no trip calls there", "left out", 1) for name in lost]
