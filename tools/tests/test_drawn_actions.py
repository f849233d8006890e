"""Drawn plans over drawn feeds, next to the plain actions of `plain_plans`, which share no code with the tools."""

import datetime
import random
from collections import Counter
from pathlib import Path
from typing import Any, Sequence

import pytest

pytest.importorskip("pyproj")
import plain_plans  # noqa: E402
from drawn_actions import DAYS, FIRST, NEW, as_toml, draw_action, write_feed  # noqa: E402
from drawn_feeds import rows_of, runs_on, seconds_of  # noqa: E402
from helpers import Room  # noqa: E402
from plain_trips import Action, Town, Trip, Trips, runs_of  # noqa: E402


def trips_in(folder: Path, edits: Sequence[dict[str, str]] = ()) -> Trips:
    """The trips of a feed after the edits of a scenario file; routes and trips have the names of the plan."""
    gone = {(row["action"], row["id"]) for row in edits}
    services = {row["service_id"] for row in rows_of(folder, "trips")}
    dates = [FIRST + datetime.timedelta(number) for number in range(-2, DAYS + 2)]
    days = {name: frozenset(date for date in dates if runs_on(folder, name, date)) for name in services}
    times, headways = dict[str, list[Any]](), dict[str, list[int]]()
    for row in sorted(rows_of(folder, "stop_times"), key=lambda row: int(row["stop_sequence"])):
        both = seconds_of(row["arrival_time"]), seconds_of(row["departure_time"])
        times.setdefault(row["trip_id"], []).append((row["stop_id"], *both))
    for row in rows_of(folder, "frequencies"):
        span = seconds_of(row["start_time"]), seconds_of(row["end_time"]), int(row["headway_secs"])
        headways.setdefault(row["trip_id"], []).extend(range(*span))
    found = list[Trip]()
    for row in rows_of(folder, "trips"):
        name, route = row["trip_id"], row["route_id"]
        if ("remove_trip", name) in gone or ("remove_route", route) in gone:
            continue
        first = times[name][0][2]
        more = sum(int(edit["seconds"]) for edit in edits if (edit["action"], edit["id"]) == ("shift_trip", name))
        calls = tuple((stop, arrival - first, departure - first) for stop, arrival, departure in times[name])
        departures = tuple(time + more for time in headways.get(name, [first]))
        about = route.split("@")[0], row["direction_id"], row["service_id"], days[row["service_id"]]
        found.append(Trip(name, *about, calls, departures))
    return found


def counts_of(trips: Trips) -> list[str]:
    """Trips, stops at which they call, and calls."""
    stops = {stop for trip in trips for stop in trip.pattern}
    return [str(number) for number in (len(trips), len(stops), sum(len(trip.calls) for trip in trips))]


class DrawnPlan:
    """A drawn feed and plan, the trips of each scenario by the plain actions, and counts after each action."""

    def __init__(self, room: Room, seed: int) -> None:
        draw = random.Random(seed)
        self.folder = write_feed(room, draw)
        self.today = trips_in(self.folder)
        places = {
            row["stop_id"]: (float(row["stop_lat"]), float(row["stop_lon"])) for row in rows_of(self.folder, "stops")
        }
        dates = frozenset(FIRST + datetime.timedelta(number) for number in range(DAYS))
        services = {f"M{n}": frozenset(day for day in dates if runs_on(self.folder, f"M{n}", day)) for n in range(3)}
        self.town = Town(places | NEW, dates, services)
        self.actions = dict[str, list[Action]]()
        self.trips, self.counts = dict[str, Trips](), dict[str, list[list[str]]]()
        for name in ("s0", "s1", "s2"):
            self.actions[name], self.trips[name], self.counts[name] = [], list(self.today), []
            for _ in range(60):
                self.try_action(name, draw_action(draw, self.trips[name]))
                if len(self.actions[name]) == 4:
                    break

    def try_action(self, name: str, action: dict[str, Any]) -> None:
        """Carries out an action, unless it changes nothing."""
        before = self.trips[name]
        if action["do"] in ("remove_route", "shift_route"):
            routes = action["route"] if isinstance(action["route"], list) else [action["route"]]
            if not {trip.route for trip in before} >= set(routes):
                return
        if action["do"] in ("remove_trip", "shift_trip") and action["trip"] not in [trip.label for trip in before]:
            return
        after = plain_plans.CARRY_OUT[action["do"]](self.town, before, action)
        if after is not None and runs_are_known(after):
            self.trips[name] = after
            self.actions[name].append(action)
            self.counts[name].append([action["do"], *counts_of(before), *counts_of(after)])

    def text(self) -> str:
        lines = list[str]()
        for stop, (latitude, longitude) in NEW.items():
            lines += ["[[stop]]", f'id = "{stop}"', f'name = "{stop}"', f"lat = {latitude}", f"lon = {longitude}"]
        for name, actions in self.actions.items():
            lines += ["[[scenario]]", f'name = "{name}"']
            for action in actions:
                lines += ["[[scenario.action]]", *(f"{key} = {as_toml(value)}" for key, value in action.items())]
        return "\n".join(lines) + "\n"


def runs_are_known(trips: Trips) -> bool:
    """Whether all times are after midnight, as a feed has them."""
    return all(min(trip.departures) + trip.calls[0][1] >= 0 for trip in trips)


def differences(found: Counter[Any], wanted: Counter[Any]) -> list[Any]:
    """Some runs of one of two scenarios alone."""
    return [*sorted((found - wanted).elements())[:3], "instead of", *sorted((wanted - found).elements())[:3]]


def check_runs(name: str, found: Trips, wanted: Trips, text: str) -> None:
    one, other = runs_of(found), runs_of(wanted)
    assert one == other, (name, differences(one, other), text)


@pytest.mark.parametrize("seed", range(20))
def test_drawn_scenarios_have_the_runs_of_plain_actions(room: Room, seed: int) -> None:
    drawn = DrawnPlan(room, seed)
    text, out = drawn.text(), room.folder / "out"
    plan = room.folder / "plan.toml"
    plan.write_text(text)
    _, errors, status = room.ran("scenarios", str(drawn.folder), str(plan), "--out", str(out))
    assert status == 0, (errors, text)
    for name, wanted in {"today": drawn.today, **drawn.trips}.items():
        check_runs(name, trips_in(out, rows_of(out / "scenarios", name, "csv")), wanted, text)
    heads = ["do", *(f"{what}_{when}" for when in ("before", "after") for what in ("trips", "stops", "events"))]
    counts = [[row[head] for head in heads] for row in rows_of(out, "actions", "csv")]
    assert counts == [row for rows in drawn.counts.values() for row in rows]
    for name, wanted in drawn.trips.items():
        alone = room.folder / name
        assert room.ran("scenarios", str(drawn.folder), str(plan), "--only", name, "--out", str(alone))[2] == 0
        check_runs(f"{name} alone", trips_in(alone), wanted, text)


def test_all_actions_are_drawn(room: Room) -> None:
    kinds = Counter[str]()
    for seed in range(20):
        own = Room(room.folder / str(seed), room.captured)
        own.folder.mkdir()
        kinds.update(action["do"] for actions in DrawnPlan(own, seed).actions.values() for action in actions)
    assert set(kinds) == set(plain_plans.CARRY_OUT) and min(kinds.values()) >= 8, kinds
