"""The timetable of a changed network in the memory of explore, compared with that of the feed written for it."""

import datetime
import random
from pathlib import Path

import numpy as np
import pytest

from drawn_plans import DATE, DrawnPlan

from ttm_tools.core.toml_file import Entry, LineNumbers
from ttm_tools.gtfs.footpaths import read_walks
from ttm_tools.gtfs.stops import read_stops
from ttm_tools.gtfs.timetable import Runs, Timetable, read_edits, read_timetable, runs_of
from ttm_tools.journeys import network
from ttm_tools.journeys.network import Schedule
from ttm_tools.journeys.search import durations
from ttm_tools.plans.base import read_taken_base
from ttm_tools.plans.plan_text import scenario_text
from ttm_tools.web.lines import FeedLines
from ttm_tools.web.live_network import Plan
from ttm_tools.web.planning import written
from ttm_tools.web.timetables import Timetables, run_of, timetable_of

WALK, DAYS = 600, (1, 1)
MIDNIGHT = 86_400  # of the date, on the axis
HALF_AN_HOUR = 1800
Event = tuple[str, int, int, bool, bool]


def events_of(timetable: Timetable, trip: int) -> list[Event]:
    """The stops of a trip by name, with times and whether boarding and alighting are allowed."""
    events = timetable.events
    own = slice(events.begins[trip], events.begins[trip + 1])
    names = [timetable.stops[stop] for stop in events.stop[own].tolist()]
    columns = (events.arrive[own], events.depart[own], events.board[own], events.alight[own])
    return list(zip(names, *(column.tolist() for column in columns)))


def planned(drawn: DrawnPlan, folder: Path) -> tuple[Timetables, Plan]:
    """The timetables of a drawn plan, and the plan whose feed is written."""
    base = read_taken_base(str(drawn.folder), [Entry("plan", stop, LineNumbers(1)) for stop in drawn.stops])
    text = "\n".join(scenario_text(name, actions) for name, actions in drawn.scenarios)
    stops = read_stops(str(drawn.folder))
    plan = written(base, FeedLines(str(drawn.folder), stops), text, folder, WALK, [])
    own = [] if plan.trips is None else [plan.trips]
    return Timetables([timetable_of(base, stops), *own], None, WALK), plan


def ran(timetable: Timetable, trip: int, shift: int) -> tuple[str, str, int, list[Event]]:
    return timetable.trips[trip], timetable.routes[trip], shift, events_of(timetable, trip)


def assert_same_runs(parts: list[tuple[Timetable, Runs]], expected: tuple[Timetable, Runs]) -> None:
    """Each run is there, with its trip, route, times and stops."""
    count = sum(len(runs.trip) for _, runs in parts)
    runs = [run_of(parts, number) for number in range(count)]
    whole, its_runs = expected
    rows = zip(its_runs.trip.tolist(), its_runs.shift.tolist())
    assert sorted(ran(run.timetable, run.trip, run.shift) for run in runs) == sorted(ran(whole, *row) for row in rows)


@pytest.mark.parametrize("seed", range(25))
def test_runs_and_durations_are_those_of_the_feed_that_is_written(
    tmp_path: Path, monkeypatch: pytest.MonkeyPatch, seed: int
) -> None:
    drawn, draw = DrawnPlan(seed, tmp_path / "feed"), random.Random(seed)
    if not drawn.scenarios:
        pytest.skip("the plan that is drawn changes nothing")
    monkeypatch.setattr(network, "CHOSEN_AT_ONCE", draw.choice([1, 3, 1 << 16]))
    timetables, plan = planned(drawn, tmp_path)
    assert plan.files
    whole = read_timetable(read_stops(plan.folder))
    assert [name for part in timetables.parts for name in part.trips] == whole.trips
    date = datetime.datetime.strptime(DATE, "%Y%m%d").date()
    departures = [MIDNIGHT + HALF_AN_HOUR * number for number in range(0, 48, 5)]
    for path in plan.files:
        edits = read_edits(path)
        parts = [(part, runs_of(part, date, DAYS, edits)) for part in timetables.parts]
        runs = runs_of(whole, date, DAYS, edits)
        assert_same_runs(parts, (whole, runs))
        more = [(part.events, some) for part, some in parts[1:]]
        for name in whole.stops[:4]:
            begin, own = timetables.stops.index(name), whole.stops.index(name)
            walks = read_walks(whole, None, WALK, own)
            found = Schedule(parts[0][0].events, parts[0][1], *timetables.walks(begin), departures[0], more)
            expected = Schedule(whole.events, runs, *walks, departures[0])
            for other in whole.stops:
                ends = timetables.stops.index(other), whole.stops.index(other)
                assert durations(found, begin, ends[0], departures, 3) == durations(
                    expected, own, ends[1], departures, 3
                )


@pytest.mark.parametrize("seed", range(8))
def test_walks_begin_at_any_stop(tmp_path: Path, seed: int) -> None:
    """Also at one at which no vehicle calls."""
    timetables, _ = planned(DrawnPlan(seed, tmp_path / "feed"), tmp_path)
    for start in range(len(timetables.stops)):
        walks, changes = timetables.walks(start)
        begins = timetables.called.copy()
        begins[start] = True
        every, expected = read_walks(timetables.parts[0], None, WALK)
        kept = every.of(begins[every.begin])
        assert np.array_equal(changes, expected)
        for name in ("begin", "end", "seconds"):
            assert np.array_equal(getattr(walks, name), getattr(kept, name))
