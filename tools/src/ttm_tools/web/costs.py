"""What a change costs: departures and vehicle hours on the day, before and after the last action of a plan."""

import datetime
import os
import tempfile
from pathlib import Path
from typing import Any, Iterable

from ..plans.apply import apply_scenario
from ..plans.base import Base
from ..plans.days import runs_of
from ..plans.plan_file import read_plan
from ..plans.state import State


def runs_on(base: Base, service: str, date: datetime.date) -> bool:
    """Whether a service runs on a day."""
    runs, place = runs_of(base, service), date.toordinal() - base.days.first
    return 0 <= place < len(runs) and bool(runs[place])


def service_of_day(state: State, routes: Iterable[str], date: datetime.date) -> tuple[int, float]:
    """Departures on a day of some routes, and the hours from the first departure to the last arrival of their trips."""
    departures, seconds = 0, 0
    for route in routes:
        for trip in state.of_route(route):
            if runs_on(state.base, trip.service, date):
                count = len(trip.departures)
                departures += count
                seconds += count * trip.seconds
    return departures, seconds / 3600


def cost_of(base: Base, before: str, after: str, date: datetime.date, room: Path) -> dict[str, Any]:
    """Returns by how much the last action of a plan changes departures and vehicle hours; the plans are texts, with
    and without it. Nothing of the feed in memory is changed.
    """
    services = dict(base.new_services)
    try:
        states = [last_state(base, text, room) for text in (before, after)]
        changed = states[1].changes
        routes = {change.route for change in changed}
        (count, hours), (later, later_hours) = (service_of_day(state, routes, date) for state in states)
    finally:
        base.new_services.clear()
        base.new_services.update(services)
    return {"departures": later - count, "hours": round(later_hours - hours, 1), "before": count}


def last_state(base: Base, text: str, room: Path) -> State:
    """The state of the last scenario of a plan; that of the feed for an empty text."""
    if not text:
        return State(base, "")
    with tempfile.TemporaryDirectory(prefix="cost.", dir=room) as folder:
        path = os.path.join(folder, "plan.toml")
        Path(path).write_text(text, encoding="utf-8")
        return apply_scenario(base, read_plan(path).scenarios[-1]).state
