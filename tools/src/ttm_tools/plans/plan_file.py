"""A plan as it is written, in TOML: its scenarios, with their actions, and its new stops."""

import re
from dataclasses import dataclass, field

from ..core.errors import LimitError
from ..core.scenarios import BASE, TODAY
from ..core.toml_file import Entry, read_entry

NAME = re.compile(r"[^\s.@#/\\\"',](?:[^@#/\\\"',\x00-\x1f\x7f]*[^\s@#/\\\"',\x00-\x1f\x7f])?")
TAKEN = (BASE, TODAY)  # names that scenarios of a plan can't have
MOST_SCENARIOS = 14  # in addition to these two: `ttm` takes sixteen


@dataclass(frozen=True)
class PlannedScenario:
    """A scenario of a plan: its name, and its actions in order."""

    name: str
    entry: Entry
    actions: list[Entry]


@dataclass(frozen=True)
class PlanFile:
    """What a plan says."""

    path: str
    scenarios: list[PlannedScenario]
    stops: list[Entry] = field(default_factory=list)  # new ones


def read_plan(path: str) -> PlanFile:
    """Reads a plan; its actions are checked when they are carried out."""
    _, whole = read_entry(path)
    whole.only(("scenario", "stop"))
    stops = whole.inner("stop") if whole.has("stop") else []
    scenarios = [planned(entry) for entry in whole.inner("scenario")]
    seen = set[str]()
    for number, scenario in enumerate(scenarios):
        if scenario.name in seen:
            raise scenario.entry.fault("occurs twice", "name", scenario.name)
        if number >= MOST_SCENARIOS:
            message = f"is scenario {number + 1}; ttm takes {MOST_SCENARIOS} in addition to base and today"
            at = scenario.entry.fault(message, "name")
            place = f"{at.file}: line {at.record}"
            found = LimitError(place, message, column="name", value=scenario.name, limit=MOST_SCENARIOS)
            raise found.noting(file=at.file, record=at.record)
        seen.add(scenario.name)
    return PlanFile(path, scenarios, stops)


def planned(entry: Entry) -> PlannedScenario:
    entry.only(("name", "action"))
    name = entry.text("name")
    if name in TAKEN or not NAME.fullmatch(name) or len(name.encode("utf-8", "replace")) > 100:
        allowed = "at most 100 bytes, no dot or space in front, none of / \\ @ # , and quotes; base and today are taken"
        raise entry.fault("can't be a scenario's name", "name", name, allowed)
    return PlannedScenario(name, entry, entry.inner("action"))
