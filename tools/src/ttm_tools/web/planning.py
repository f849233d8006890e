"""Carries out a plan of the changes made on the page, on a feed that was read once."""

import contextlib
import os
import tempfile
from pathlib import Path
from typing import Sequence

from ..core.errors import InputError
from ..core.files import remove
from ..core.scenarios import TODAY
from ..plans.apply import apply_scenario
from ..plans.base import Base
from ..plans.limits import refuse_limits
from ..plans.plan_file import read_plan
from ..plans.plan_text import scenario_text
from ..plans.report import sentences
from ..plans.scenario_files import write_scenarios
from ..plans.writing import write_all, written_of
from .changes import Values, name_among
from .lines import FeedLines
from .live_network import Plan
from .timetables import own_timetable

PLAN, FEED, SCENARIOS = "plan.toml", "feed", "scenarios"


def text_of(plan: str, actions: Sequence[Values]) -> str:
    """The plan of the command, followed by a scenario of the changes made on the page."""
    if not actions:
        return plan
    import tomllib

    names = [scenario["name"] for scenario in tomllib.loads(plan).get("scenario", [])]
    return (f"{plan.rstrip()}\n\n" if plan else "") + scenario_text(name_among(names), actions)


def written(base: Base, lines: FeedLines, text: str, room: Path, walk: int, actions: list[Values]) -> Plan:
    """Writes the feed of all scenarios of a plan, if it has trips of its own, and their files; if it fails, none."""
    own = Path(tempfile.mkdtemp(prefix="plan.", dir=room))
    with contextlib.ExitStack() as undoing:
        undoing.callback(remove, own)
        path, feed = own / PLAN, base.folder
        try:
            path.write_text(text, encoding="utf-8")
        except UnicodeEncodeError:
            raise InputError("the plan", "a name in it is not UTF-8") from None
        finished = [apply_scenario(base, scenario) for scenario in read_plan(str(path)).scenarios]
        refuse_limits(str(path), base, [scenario.state for scenario in finished])
        found = written_of(base, finished, alone=False)
        if found.own:
            feed = own / FEED
            feed.mkdir()
            write_all(found, feed)
        names = write_scenarios(found, own / SCENARIOS)
        if not found.own:  # of the feed as it is scenarios take out and shift alone, so that today's is the feed itself
            names.remove(f"{TODAY}.csv")
        files = [os.fspath(own / SCENARIOS / name) for name in names]
        told, changes = list(sentences(finished)), lines.changes(found)
        trips = own_timetable(found, lines.stops)
        undoing.pop_all()
    return Plan(os.fspath(feed), files, walk, actions, text, told, own, trips, changes)
