"""Journeys of the network that answers, by the search of `ttm-tools explain`."""

import math
from dataclasses import dataclass, replace
from typing import Any, Sequence

from ..core.errors import ArgumentError
from ..core.text import display_text
from ..core.times import minutes_of
from ..engine.arguments import EngineArguments
from ..gtfs.timetable import DAY, Runs, Timetable, read_edits, runs_of
from ..journeys.found import ExplainOptions, Found, describe_question, found_by, refuse_difference
from ..journeys.legs import calls_of_ride
from ..journeys.network import Schedule
from ..journeys.search import Leg
from ..views.journeys import names_of_routes
from .live_network import LiveNetwork
from .memory import give_back
from .options import ExploreOptions
from .timetables import Timetables, run_of


@dataclass(frozen=True)
class JourneyQuestion:
    ends: tuple[str, str]  # identifiers of stops
    scenario: int  # its place among those that are shown
    window: tuple[str, str]
    trips: int
    share: int  # percent

    @property
    def minutes(self) -> range:
        """The departures, in minutes since midnight."""
        first, last = map(minutes_of, self.window)
        return range(first, last + 1)


class Journeys:
    def __init__(self, options: ExploreOptions, feed: Timetable) -> None:
        self.options, self.feed = options, feed  # the timetable of the feed that plans begin from
        self.kept: tuple[int, Timetables, dict[str, str]] | None = None

    def of(self, live: LiveNetwork) -> tuple[Timetables, dict[str, str]]:
        """Timetables and names of routes for journeys of a network; those of the network before are dropped."""
        if self.kept is None or self.kept[0] != live.version:
            self.kept, plan = None, live.plan
            parts = [self.feed, *([] if plan.trips is None else [plan.trips])]
            timetables = Timetables(parts, self.options.footpaths, plan.walk)
            self.kept = live.version, timetables, names_of_routes(plan.folder)
        return self.kept[1:]

    def journey(self, live: LiveNetwork, columns: Sequence[str], question: JourneyQuestion) -> dict[str, Any]:
        """A journey and all departures, stops by their numbers among some; an error where `ttm` has another time."""
        (timetables, routes), options, plan = self.of(live), self.options, live.plan
        begin, end = map(timetables.stops.index, question.ends)
        departures = [DAY * options.back + 60 * minute for minute in question.minutes]
        run = EngineArguments(plan.folder, options.date, question.window, question.trips, plan.walk, (question.share,))
        asked = describe_question(replace(run, back=options.back, ahead=options.ahead), options.date)
        explain_options = ExplainOptions(self.feed, begin, end, departures, options.back, question.share, asked)
        if question.scenario >= len(live.scenarios):
            raise ArgumentError(f"the network has no scenario {question.scenario}")
        scenario = live.scenarios[question.scenario]
        path = next((path for path in plan.files if path.endswith(f"/{scenario}.csv")), None)
        edits, days = read_edits(path), (options.back, options.ahead)
        parts = [(timetable, runs_of(timetable, options.date, days, edits)) for timetable in timetables.parts]
        (first, runs), more = parts[0], [(timetable.events, runs) for timetable, runs in parts[1:]]
        schedule = Schedule(first.events, runs, *timetables.walks(begin), departures[0], more)
        found = found_by(explain_options, scenario, question.trips, schedule)
        give_back()
        refuse_difference(found.name, found.cell, seconds_of(live, scenario, question), *question.ends)
        numbers = {stop: number for number, stop in enumerate(columns)}
        places = [numbers.get(stop, -1) for stop in timetables.stops]
        return Shown(explain_options, found, parts, routes, places).as_json()


def seconds_of(live: LiveNetwork, scenario: str, question: JourneyQuestion) -> int | None:
    """The travel time of `ttm`; None where it has none."""
    origin, destination = question.ends
    result = live.ask(origin, question.window, question.trips, [question.share])
    times = result.array(live.plan.name_of(scenario), question.share)
    seconds = float(times[0, result.stops.index(destination)])
    return None if math.isnan(seconds) else int(seconds)


@dataclass(frozen=True)
class Shown:
    """What was found, and what its numbers mean."""

    options: ExplainOptions
    found: Found
    parts: list[tuple[Timetable, Runs]]  # whose runs are numbered on
    routes: dict[str, str]  # what people call them
    places: list[int]  # the stops' numbers on the page, -1 for one that isn't there

    def as_json(self) -> dict[str, Any]:
        """What the page shows of it; stops by their numbers there."""
        found, departures, legs = self.found, self.options.departures, list[dict[str, Any]]()
        if found.chosen is not None:
            times = [departures[found.chosen], *(leg.finish for leg in found.legs)]
            legs = [self.leg_as_json(leg, time) for leg, time in zip(found.legs, times)]
        journey: dict[str, Any] = {"cell": found.cell, "durations": found.durations}
        journey["departures"] = [self.options.clock(departure)[:-3] for departure in departures]
        return {**journey, "chosen": found.chosen, "legs": legs}

    def leg_as_json(self, leg: Leg, time: int) -> dict[str, Any]:
        """A leg, whose traveller is at its start at a time."""
        ends = [self.places[leg.start], self.places[leg.end]]
        begin, end = self.options.clock(leg.begin), self.options.clock(leg.finish)
        fields: dict[str, Any] = {"from": ends[0], "to": ends[1], "begin": begin, "end": end}
        fields |= {"seconds": leg.finish - leg.begin, "via": ends}
        if leg.run is None:
            return fields
        ran = run_of(self.parts, leg.run)
        events, route = ran.timetable.events, ran.timetable.routes[ran.trip]
        fields |= {
            "route": self.routes.get(route, display_text(route)),
            "trip": display_text(ran.timetable.trips[ran.trip]),
        }
        fields |= {"change": leg.change, "wait": leg.begin - time - leg.change}
        called = events.stop[calls_of_ride(events, ran.trip, ran.shift, leg)].tolist()
        return {**fields, "via": [self.places[stop] for stop in called]}
