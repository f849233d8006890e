"""The scenario files of a feed that has the trips of all scenarios: each takes out what a scenario hasn't."""

from pathlib import Path
from typing import Iterator

import numpy as np

from ..core.errors import InputError
from ..core.scenarios import TODAY
from ..core.tables import write_rows
from .apply import ScenarioResult
from .new_records import own_routes
from .state import State
from .writing import Written

HEADER = ["action", "id", "seconds"]
MOST_RECORDS = 100_000
Record = tuple[str, str, str]


def records_of(written: Written, mine: ScenarioResult | None) -> list[Record]:
    """The records of a scenario's file; of that of today, which changes nothing, if no scenario is given."""
    records = [] if mine is None else list(own_records(mine.state))
    for other in written.finished:
        if mine is None or other.name != mine.name:
            state = other.state
            records += [("remove_route", written.names.route(state, route), "") for route in own_routes(state)]
    return records


def own_records(state: State) -> Iterator[Record]:
    """What a scenario takes out of the feed, and what it shifts."""
    base, runs = state.base, state.base.lengths > 0
    for route, places in base.by_route.items():
        if not len(places) or not runs[places].any():
            continue
        if not state.kept[places].any():
            yield ("remove_route", route, "")
            continue
        yield from (("remove_trip", base.trips[place], "") for place in places[runs[places] & ~state.kept[places]])
    for place in np.flatnonzero(state.kept & (state.shift != 0)):
        yield ("shift_trip", base.trips[place], str(int(state.shift[place])))


def too_long(mine: ScenarioResult | None, count: int) -> InputError:
    """The fault of a scenario whose file is longer than `ttm` takes."""
    if mine is None:
        what = f"would have {count:,} records, and ttm takes {MOST_RECORDS:,}"
        return InputError(f"{TODAY}.csv", what, limit=MOST_RECORDS)
    what = f"takes a scenario file of {count:,} records, and ttm {MOST_RECORDS:,}: change fewer trips, or whole routes"
    return mine.planned.entry.fault(what, "name", mine.name).noting(limit=MOST_RECORDS)


def write_scenarios(written: Written, folder: Path) -> list[str]:
    """Writes the files of today and of all scenarios to a folder, and gives their names, that of today first."""
    folder.mkdir()
    names = []
    for mine in (None, *written.finished):
        records = records_of(written, mine)
        if len(records) > MOST_RECORDS:
            raise too_long(mine, len(records))
        names.append(f"{TODAY if mine is None else mine.name}.csv")
        with open(folder / names[-1], "wb") as file:
            write_rows(file, HEADER, records)
    return names
