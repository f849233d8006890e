"""Which lines a map shows below its stops, and how: where vehicles run, and what a scenario takes out, changes and
adds.
"""

import os
from dataclasses import dataclass
from typing import Sequence

from ..core.scenarios import TODAY, scenario_name
from ..gtfs.shapes import pieces
from .drawn_lines import DrawnLines, on_grid, plan_files
from .map_lines import MapLines, running, styled


@dataclass(frozen=True)
class Planned:
    """Two scenarios of a plan, by their files: today, and the one that is drawn."""

    base: str
    scenario: str
    loses: bool  # whether what is taken out is drawn, too


def planned_of(folder: str, edits: Sequence[str], base: str, scenario: str, loses: bool) -> Planned | None:
    """The files of today and of a scenario of a plan, those that are named or those in the feed's folder that
    `ttm-tools scenarios` wrote; none where these aren't there.
    """
    files = plan_files(folder, (base, scenario)) | {scenario_name(path): path for path in edits}
    is_plan = base == TODAY and os.path.isfile(files[base]) and os.path.isfile(files[scenario])
    return Planned(files[base], files[scenario], loses) if is_plan else None


def changed_trips(removed: dict[str, set[str]], base: str | None) -> tuple[set[str], set[str]]:
    """The trips that go and those that come from the base to the scenario, by what each file removes; a file that
    doesn't bear the base's name is the scenario's.
    """
    before = removed.get(base, set()) if base is not None else set()
    after = set[str]().union(*(trips for name, trips in removed.items() if name != base))
    return after - before, before - after


def lines_of_edits(drawn: DrawnLines, edits: Sequence[str], base: str | None) -> list[MapLines]:
    """The lines of a feed, and over them those of the trips that scenario files take out and add."""
    lines = [running(pieces(drawn.points))]
    if not edits:
        return lines
    gone, new = changed_trips({scenario_name(path): drawn.removed(path) for path in edits}, base)
    for kind, chosen in (("taken", gone), ("added", new)):
        found = drawn.pieces(chosen)
        lines += [styled(kind, found)] if len(found) or kind == "taken" and not new else []
    return lines


def lines_of_plan(drawn: DrawnLines, planned: Planned) -> list[MapLines]:
    """The lines of two scenarios of a plan, without those of others; and over them what changes from today on."""
    before, after = drawn.removed(planned.base), drawn.removed(planned.scenario)
    hidden = before & after if planned.loses else after
    lines = [running(drawn.pieces(set(drawn.trips.trips) - hidden))]
    change = on_grid(drawn.pieces(after - before), drawn.pieces(before - after))
    for kind in ("changed", "taken", "added") if planned.loses else ("added",):
        found = getattr(change, kind)
        lines += [styled(kind, found)] if len(found) else []
    return lines
