"""An exploration: its places, the network that answers, and how another one replaces it."""

import contextlib
import json
import tempfile
import threading
from functools import cached_property
from pathlib import Path
from typing import Any, Iterator

from ..api.count_files import read_counts
from ..core.errors import ArgumentError, InputError
from ..gtfs.feeds import refuse_planned
from ..core.walking import Walking
from ..gtfs.stops import Stops, read_stops
from ..matrices.result import Result
from ..measures.opportunities import Counts
from ..places.read import read_points
from ..places.selection import points_in, with_points
from ..plans.base import Base, read_taken_base
from ..plans.plan_file import read_plan
from ..streets.osm import Streets, read_streets
from . import planning
from .changes import Namer, Values
from .costs import cost_of
from .journeys import JourneyQuestion, Journeys
from .latest_only import LatestOnly
from .lines import FeedLines
from .live_network import LiveNetwork, Plan, Seconds
from .memory import give_back
from .networks import FIRST, Networks
from .options import ExploreOptions
from .page.content import PagePlaces
from .page.ground import page_ground
from .page.places import in_order
from .point import Point, Walk, walks_from
from .question import Question
from .routes import Route, routes_of
from .timetables import timetable_of


class ExploreSession:
    """A network that a person explores. Several threads may use it."""

    def __init__(self, options: ExploreOptions, room: Path) -> None:
        refuse_planned(options.feed)
        self.options, self.room = options, room
        self.latest_only, self.reading = LatestOnly(), threading.RLock()
        self.plan_text = Path(options.plan).read_text(encoding="utf-8") if options.plan is not None else ""
        if self.plan_text:
            self.begun(0, self.of_feed(options.walk)).close()  # reports what is wrong with the feed
        self.networks = Networks(self.begun_changed, options.walk)
        self.first = self.networks.start(FIRST).plan  # what a new page shows
        stops, points = read_stops(self.first.folder), points_in(options.feed)
        self.ground = ground_of(stops if points is None else with_points(stops, read_points(points)))
        self.background = page_ground(options.ground, self.ground.places)
        self.counts: Counts = read_counts(options.opportunities, self.ground.places.identifiers, "stop of the feed")

    @cached_property
    def base(self) -> Base:
        """The feed as plans change it, which is read when it is first needed."""
        own_stops = [] if self.options.plan is None else read_plan(self.options.plan).stops
        base = read_taken_base(self.options.feed, own_stops)
        give_back()
        return base

    @cached_property
    def feed_lines(self) -> FeedLines:
        """The lines of the feed, which are read when they are first needed."""
        return FeedLines(self.options.feed, read_stops(self.options.feed))

    @cached_property
    def streets(self) -> Streets | None:
        """The streets for walks from any point, which are read when they are first needed."""
        return None if self.options.streets is None else read_streets(self.options.streets)

    @cached_property
    def of_routes(self) -> list[Route]:
        numbers = {name: number for number, name in enumerate(self.ground.columns)}
        return routes_of(self.base, self.options.date, numbers)

    def read_ahead(self) -> threading.Thread:
        """Starts to read what changes and journeys will need."""
        thread = threading.Thread(target=lambda: self.routes, daemon=True)
        thread.start()
        return thread

    def begun(self, version: int, plan: Plan) -> LiveNetwork:
        """A network that has answered its first question, so that an error of the feed is reported."""
        live = LiveNetwork(version, plan, self.options)
        try:
            first_stop = called_at(read_stops(plan.folder))[:1]
            live.network.matrix((self.options.window[0],) * 2, origins=first_stop)
        except BaseException:
            live.close()
            raise
        return live

    def begun_changed(self, version: int, actions: list[Values], walk: int) -> LiveNetwork:
        return self.begun(version, self.planned(actions, walk))

    def of_feed(self, walk: int) -> Plan:
        return Plan(self.options.feed, [], walk, [], "", [], None)

    def planned(self, actions: list[Values], walk: int) -> Plan:
        """The feed with the plan and a person's changes, written into a folder of its own."""
        if not actions and not self.plan_text:
            return self.of_feed(walk)
        with self.reading:
            named = [Namer(self.ground.columns, self.of_routes).action(action) for action in actions]
            text = planning.text_of(self.plan_text, named)
            return planning.written(self.base, self.feed_lines, text, self.room, walk, actions)

    def times(self, question: Question) -> Seconds:
        """Travel times from a place in a network; `Superseded` by a later question of the same tab."""
        while True:
            self.networks.start(question.version, question.tab)
            with self.latest_only.turn(question.tab, question.turn):
                live = self.networks.find(question.version)
                if live is not None:  # else it was given up while the question waited for its turn
                    seconds = live.seconds(self.asked(live, question), self.ground.columns)
                    self.end(self.networks.give_up(question.tab, question.version))
                    return seconds

    def asked(self, live: LiveNetwork, question: Question) -> Result:
        """The answer of a network."""
        origin = question.origin
        if isinstance(origin, Point):
            with tempfile.TemporaryDirectory(prefix="point.", dir=self.room) as folder:
                return live.ask_from(origin, self.walks_from(live.plan, origin), Path(folder), question)
        return live.ask(self.ground.columns[origin], question.window, question.trips, self.options.shares)

    def end(self, networks: list[LiveNetwork]) -> None:
        """Ends networks that no tab needs, once no journey is searched in one of them."""

        def close() -> None:
            with self.reading:
                for live in networks:
                    live.close()
            give_back()

        if networks:
            threading.Thread(target=close).start()

    @contextlib.contextmanager
    def network(self, version: int, tab: str) -> Iterator[LiveNetwork]:
        """The network of a number, which goes on as long as the block."""
        while True:
            self.networks.start(version, tab)
            with self.reading:
                live = self.networks.find(version)
                if live is not None:
                    yield live
                    return

    def walks_from(self, plan: Plan, point: Point) -> list[Walk]:
        """The walks from a point to the stops of a network."""
        walking = Walking(self.options.kmh, self.options.detour, plan.walk)
        return walks_from(point, read_stops(plan.folder), walking, self.streets)

    def change(self, tab: str, actions: list[Values], walk: int) -> dict[str, Any]:
        """Begins the network of a tab's changes; the one that the tab has answers until then."""
        if self.options.generated and walk > self.options.most_walk:
            raise ArgumentError(f"walk is {walk}; walks were computed up to {self.options.most_walk} seconds")
        live = self.networks.start_changed(tab, actions, walk)
        give_back()
        # what the map draws of each scenario: pieces in millionths of a degree
        kinds, changes = ("taken", "changed", "added"), live.plan.changes
        lines = [{kind: getattr(change, kind).ravel().tolist() for kind in kinds} for change in changes]
        told = live.plan.sentences
        return {"version": live.version, "scenarios": live.scenarios, "told": told, "lines": lines}

    def cost(self, actions: list[Values]) -> dict[str, Any]:
        """What the last of some changes costs on the day, after those before it; nothing is computed of journeys."""
        with self.reading:
            named = [Namer(self.ground.columns, self.of_routes).action(action) for action in actions]
            before = planning.text_of("", named[:-1])
            return cost_of(self.base, before, planning.text_of("", named), self.options.date, self.room)

    @cached_property
    def routes(self) -> bytes:
        """The routes as JSON, and the lines of the feed where the page began without them."""
        with self.reading:
            running = self.feed_lines.from_stop_to_stop(self.base)
            lines = None if running is None else running.ravel().tolist()
            content = {"routes": [route.as_json() for route in self.of_routes], "running": lines}
            encoded = json.dumps(content, separators=(",", ":")).encode()
        del content, lines, running
        give_back()
        return encoded

    @cached_property
    def journeys(self) -> Journeys:
        return Journeys(self.options, timetable_of(self.base, self.feed_lines.stops))

    def journey(self, question: JourneyQuestion, version: int, tab: str) -> dict[str, Any]:
        """The journey from one place to another in a network, leg by leg, and all departures."""
        with self.network(version, tab) as live:
            return self.journeys.journey(live, self.ground.columns, question)

    def close(self) -> None:
        for live in list(self.networks.running.values()):
            live.close()


def ground_of(stops: Stops) -> PagePlaces:
    """All stops at which vehicles may call, each of which is an origin and a destination."""
    if not stops.placed.any():
        raise InputError(stops.path, "none of the stops has coordinates, so there is nothing to show")
    places = in_order(stops.of(called_at(stops)))
    return PagePlaces(places, places.identifiers, places.identifiers, places.identifiers)


def called_at(stops: Stops) -> list[str]:
    return [name for name, kind in zip(stops.identifiers, stops.kinds.tolist()) if kind == 0]
