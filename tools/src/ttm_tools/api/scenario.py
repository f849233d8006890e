"""Scenarios: changes of a timetable, as a plan file has them."""

from collections.abc import Mapping, Sequence
from dataclasses import dataclass, field
from os import PathLike
from pathlib import Path
from typing import Any, Literal

from ..core.errors import ArgumentError, InputError, LimitError
from ..core.files import atomic_path
from ..core.question import Duration, TimeOfDay, not_allowed
from ..gtfs.modes import MODES
from ..plans.plan_file import PlanFile, read_plan as read_plan_file
from ..plans.plan_text import scenario_text, table_text
from .frames import Places
from .plan_keys import NEW_STOPS, clock, days_of, decimal, names, one_end, way_of, whole_seconds

Mode = Literal["tram", "metro", "rail", "bus", "ferry", "cable_tram", "aerial", "funicular", "trolleybus", "monorail"]
Departures = Sequence[tuple[TimeOfDay, TimeOfDay, Duration]]  # first, last, every


@dataclass(frozen=True)
class Scenario:
    """Changes of a timetable, in order. Each method returns a new scenario, so a cell may be run twice.

    Names are checked when a network takes the scenario. `direction` is a `direction_id` of the feed; `pattern` is a
    trip, and selects those that call at the same stops.

    Parameters
    ----------
    name
        What the scenario is called in results.
    actions
        The actions, with the keys of a plan file.

    Examples
    --------
    >>> change = Scenario("change").remove_routes("13").shift_route("10", by="-2 min")
    >>> [action["do"] for action in change.actions]
    ['remove_route', 'shift_route']
    """

    name: str
    actions: tuple[Mapping[str, object], ...] = field(default=())

    def __post_init__(self) -> None:
        if not isinstance(self.name, str) or not self.name:
            raise not_allowed("name", self.name, "a text that is not empty")
        object.__setattr__(self, "actions", tuple(self.actions))

    def and_then(self, do: str, **keys: object) -> "Scenario":
        """Return the scenario with one more action; keys whose value is None are left out."""
        action: dict[str, object] = {"do": do}
        action |= {key.rstrip("_"): value for key, value in keys.items() if value is not None}
        return Scenario(self.name, (*self.actions, action))

    def remove_routes(self, *routes: str) -> "Scenario":
        """Without the trips of these routes."""
        return self.and_then("remove_route", route=names("routes", routes))

    def remove_modes(self, *modes: Mode) -> "Scenario":
        """Without the routes of these modes."""
        for mode in modes:
            if mode not in MODES:
                raise not_allowed("modes", mode, ", ".join(MODES))
        return self.and_then("remove_mode", mode=names("modes", modes))

    def remove_trips(self, *trips: str) -> "Scenario":
        """Without these trips."""
        return self.and_then("remove_trip", trip=names("trips", trips))

    def remove_stops(self, *stops: str, route: str | None = None) -> "Scenario":
        """Trips, of one route or all, no longer call there; other times stay."""
        return self.and_then("remove_stop", stop=names("stops", stops), route=route)

    def shift_route(self, route: str, by: Duration, *, direction: int | None = None) -> "Scenario":
        """All times of a route later, or earlier with ``"-2 min"``."""
        return self.and_then("shift_route", route=route, seconds=whole_seconds("by", by), direction=direction)

    def shift_trips(self, trips: Sequence[str], by: Duration) -> "Scenario":
        """All times of these trips later or earlier."""
        return self.and_then("shift_trip", trip=names("trips", trips), seconds=whole_seconds("by", by))

    def set_headway(
        self,
        route: str,
        *,
        every: Duration,
        start: TimeOfDay,
        end: TimeOfDay,
        direction: int | None = None,
        pattern: str | None = None,
        service: str | None = None,
    ) -> "Scenario":
        """Copies of a typical trip, `every` so often, replace the trips that leave from `start` to before `end`."""
        which = {"direction": direction, "pattern": pattern, "service": service}
        times = {"from_": clock("start", start), "to": clock("end", end)}
        return self.and_then("headway", route=route, **which, every=whole_seconds("every", every), **times)

    def double_frequency(
        self, route: str, *, start: TimeOfDay = "00:00", end: TimeOfDay = "30:00", direction: int | None = None
    ) -> "Scenario":
        """All trips stay, and one more leaves halfway to the next."""
        times = {"from_": clock("start", start), "to": clock("end", end)}
        return self.and_then("headway", route=route, direction=direction, times=2, **times)

    def change_speed(
        self,
        route: str,
        *,
        factor: float = 1.0,
        dwell: Duration = "0 s",
        between: tuple[str, str] | None = None,
        direction: int | None = None,
    ) -> "Scenario":
        """Run times times `factor` (0.85 is faster), dwell times plus `dwell`; `between` two stops or everywhere."""
        ends = {} if between is None else {"from_stop": between[0], "to_stop": between[1]}
        seconds, changed = whole_seconds("dwell", dwell), self
        if factor == 1 and not seconds:
            raise ArgumentError("change_speed changes nothing; allowed: a factor other than 1, or a dwell")
        if factor != 1:
            changed = changed.and_then("speed", route=route, direction=direction, **ends, factor=decimal(factor))
        if seconds:
            changed = changed.and_then("speed", route=route, direction=direction, **ends, dwell=seconds)
        return changed

    def add_line(
        self,
        route: str,
        stops: Places,
        *,
        departures: Departures,
        kmh: float | None = None,
        run_times: Sequence[Duration] | None = None,
        dwell: Duration = "0 s",
        both_ways: bool = True,
        mode: Mode = "bus",
        days: str = "daily",
    ) -> "Scenario":
        """A new route along `stops`: identifiers, or points in order, of which unknown ones become new stops.

        Give the speed along straight lines, `kmh`, or `run_times` from stop to stop. `days` is daily, weekdays, names
        of days such as "monday tuesday", or a service of the feed.
        """
        if mode not in MODES:
            raise not_allowed("mode", mode, ", ".join(MODES))
        way = way_of(stops, kmh, run_times, dwell)
        periods = [
            {
                "first": clock("departures", first),
                "last": clock("departures", last),
                "every": whole_seconds("every", every),
            }
            for first, last, every in departures
        ]
        if not periods:
            raise not_allowed("departures", departures, "tuples of first, last and every")
        kind = {"type": MODES[mode], **way, "both": both_ways, "departures": periods}
        return self.and_then("add_line", route=route, **kind, **days_of(days))

    def extend_route(
        self,
        route: str,
        stops: Places,
        *,
        after: str | None = None,
        before: str | None = None,
        kmh: float | None = None,
        run_times: Sequence[Duration] | None = None,
        dwell: Duration = "0 s",
        direction: int | None = None,
    ) -> "Scenario":
        """Trips that end at the stop `after` go on to `stops`, or trips that begin at `before` begin earlier."""
        way = way_of(stops, kmh, run_times, dwell)
        return self.and_then("extend", route=route, direction=direction, **one_end(after, before), **way)

    def cut_route(
        self, route: str, *, after: str | None = None, before: str | None = None, direction: int | None = None
    ) -> "Scenario":
        """Trips end at the stop `after`, or begin at the stop `before`."""
        return self.and_then("cut", route=route, direction=direction, **one_end(after, before))

    def to_toml(self) -> str:
        """Return the scenario as a plan file has it."""
        return plan_text([self])

    def _repr_html_(self) -> str:
        from html import escape

        lines = "".join(
            f"<li>{escape(', '.join(f'{key} {value}' for key, value in one.items()))}</li>" for one in self.actions
        )
        return f"<p>Scenario <b>{escape(self.name)}</b></p><ol>{lines}</ol>"


def new_stops(scenarios: Sequence[Scenario], known: Sequence[str] = ()) -> list[Mapping[str, Any]]:
    """Return the stops that scenarios add, each once; those that are `known` are stops of the feed."""
    found: dict[str, Mapping[str, Any]] = {}
    for scenario in scenarios:
        for action in scenario.actions:
            for stop in action.get(NEW_STOPS, ()):  # type: ignore[attr-defined]
                if stop["id"] not in known and found.setdefault(stop["id"], stop) != stop:
                    raise ArgumentError(f"stop {stop['id']!r} is at two places; allowed: one place for each new stop")
    return list(found.values())


def plan_text(scenarios: Sequence[Scenario], known: Sequence[str] = ()) -> str:
    """Return a plan file of some scenarios; stops that are `known` are those of the feed."""
    stops = [table_text("stop", stop) for stop in new_stops(scenarios, known)]
    own = [
        scenario_text(one.name, [{k: v for k, v in action.items() if k != NEW_STOPS} for action in one.actions])
        for one in scenarios
    ]
    return "\n".join([*stops, *own])


def by_action(error: InputError, path: str, scenarios: Sequence[Scenario], text: str) -> InputError:
    """Return an error in the text of a plan as one that names the scenario and the action, not a line of the text."""
    if error.file != path or error.record is None:
        return error
    ahead = text.splitlines()[: error.record]  # the record of an error in a plan is its line
    begins = [place for place, one in enumerate(ahead) if one == "[[scenario]]"]
    kind = LimitError if isinstance(error, LimitError) else InputError
    if not begins:
        return kind("new stops", error.what, column=error.column, value=error.value, allowed=error.allowed)
    scenario, number = scenarios[len(begins) - 1], ahead[begins[-1] :].count("[[scenario.action]]")
    place = f"scenario {scenario.name}"
    if number:
        place += f", action {number} ({scenario.actions[number - 1]['do']})"
    found = kind(place, error.what, column=error.column, value=error.value, allowed=error.allowed)
    found.limit = error.limit
    return found


def read_plan(path: str | PathLike[str]) -> list[Scenario]:
    """Read the scenarios of a plan file, such as one that `ttm-tools explore` saved."""
    plan: PlanFile = read_plan_file(str(path))
    added = {str(entry.values["id"]): entry.values for entry in plan.stops if "id" in entry.values}
    scenarios = []
    for scenario in plan.scenarios:
        actions = [dict(entry.values) for entry in scenario.actions]
        for action in actions:
            named = action.get("stops", ())
            new = tuple(added[name] for name in named if name in added) if isinstance(named, list) else ()
            action |= {NEW_STOPS: new} if new else {}
        scenarios.append(Scenario(scenario.name, tuple(actions)))
    return scenarios


def write_plan(scenarios: Sequence[Scenario], path: str | PathLike[str]) -> None:
    """Write a plan file, for ``ttm-tools scenarios`` and studies."""
    with atomic_path(str(path)) as aside:
        Path(aside).write_text(plan_text(scenarios), encoding="utf-8")
