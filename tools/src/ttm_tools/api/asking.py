"""Questions of a network, split into blocks of origins, and their answers as arrays."""

from collections.abc import Iterator, Sequence
from concurrent.futures import Executor
from dataclasses import dataclass
from functools import partial
from pathlib import Path

import numpy as np
import numpy.typing as npt

from ..core.limits import MOST_WORKERS
from ..core.logs import logger
from ..core.notes import Note
from ..core.question import Question, travel_seconds, walk_seconds, window_of
from ..core.scenarios import BASE, TODAY
from ..core.settings import Progress, settings
from ..core.tables import rows, write_rows
from ..core.text import display_text, first_few, quantity
from ..core.threads import processors
from ..core.times import day_of
from ..core.walking import Walking
from ..engine.network import EngineNetwork, NetworkFiles
from ..matrices import open_matrix
from ..places.doors import DoorToDoorFolder, PreparedFeed, WalkNetwork, folder_of
from .engines import NetworkState
from .executors import in_parts
from .frames import GivenPlaces
from .tracking import Tracker
from .unchanged import sentence_of, unchanged_on

CELLS_AT_ONCE = 3_000_000  # of a question
LEAST_ORIGINS = 64  # of a question, so that each keeps all threads at work
ON_FOOT = "on_foot"
GRID = "grid"  # the argument of places that no caller gave
Arrays = dict[tuple[str, int], npt.NDArray[np.float32]]  # seconds by scenario and percentile; NaN if not reached
NO_WALKS = "no walk leads anywhere"
ALONE = "no two stops are within max_walk of each other, so travellers change between vehicles at one stop alone"
NO_CHANGE = "changes nothing"
NO_SERVICE = ("no trip runs", NO_CHANGE)  # what the engine's warnings of it say


@dataclass(frozen=True)
class Request:
    """A question about places, for some scenarios.

    Attributes
    ----------
    same
        Whether origins and destinations are the same places.
    threads
        Threads of the engine; None takes those of the settings.
    """

    origins: GivenPlaces
    destinations: GivenPlaces
    question: Question
    scenarios: tuple[str, ...]
    same: bool
    threads: int | None = None

    @property
    def sides(self) -> list[GivenPlaces]:
        return [self.origins] if self.same else [self.origins, self.destinations]


@dataclass(frozen=True)
class Reply:
    """The answer to a request: arrays of shape (origins, destinations), and what a reader should know."""

    arrays: Arrays
    notes: tuple[Note, ...]
    unreachable: tuple[list[int], list[int]]  # positions of origins and of destinations


def answer(state: NetworkState, request: Request, progress: Progress = None, executor: Executor | None = None) -> Reply:
    """Answer a request, block of origins by block of origins."""
    folder = folder_for(state, request)
    count = len(folder.ends[0])
    sizes = quantity(count, "origin"), quantity(len(folder.ends[1]), "destination")
    logger.info("%s, %s: %s", *sizes, request.question)
    step = block_size(request)
    spans = [range(begin, min(begin + step, count)) for begin in range(0, count, step)]
    work = partial(answer_span, state, request)
    parts = in_parts(executor, work, spans) if executor is not None else map(work, spans)
    arrays, warnings = empty_arrays(request, (count, len(folder.ends[1]))), dict[str, None]()
    with Tracker(progress, count, "origins") as tracker:
        for span, (found, warned) in zip(spans, parts):
            for key, block in found.items():
                arrays[key][span.start : span.stop] = block
            warnings.update(dict.fromkeys(warned))
            tracker.advance(len(span))
    unreachable = tuple_of_unreached(request, folder)
    notes = *notes_of_warnings(warnings, folder), *notes_of_unchanged(state.feed, request)
    notes = *notes, *notes_of_unreached(request, unreachable)
    return Reply(arrays, notes, unreachable)


def empty_arrays(request: Request, shape: tuple[int, int]) -> Arrays:
    keys = [(scenario, percentile) for scenario in request.scenarios for percentile in request.question.percentiles]
    return {key: np.empty(shape, np.float32) for key in keys}


def block_size(request: Request) -> int:
    """Return how many origins a question has."""
    columns = len(request.destinations.names) * len(request.scenarios) * len(request.question.percentiles)
    return max(LEAST_ORIGINS, CELLS_AT_ONCE // max(1, columns))


def folder_for(state: NetworkState, request: Request) -> DoorToDoorFolder:
    """Return the folder of the request's places, written now or earlier."""
    question, streets = request.question, state.streets
    walk, travel = walk_seconds(question), travel_seconds(question)
    merges = travel is not None and walk >= travel
    network = WalkNetwork(streets[0] if streets else None, streets[1] if streets else "", walking_of(question), merges)
    return folder_of(state.feed, network, request.sides)


def walking_of(question: Question) -> Walking:
    """Return how far and how fast travellers walk."""
    return Walking(question.walking_kmh, question.detour, float(max(1, walk_seconds(question))))


def answer_span(state: NetworkState, request: Request, span: range) -> tuple[Arrays, tuple[str, ...]]:
    """Answer for some of the origins; returns the arrays, and what the engine warned of."""
    folder, question = folder_for(state, request), request.question
    engine, names = engine_for(state, request, folder)
    first, last = window_of(question)
    options: dict[str, object] = {"from": first, "to": last, "trips": max(1, question.max_rides)}
    options["share"] = ",".join(map(str, question.percentiles))
    options["workers"] = min(request.threads or settings.threads or processors(), MOST_WORKERS)
    begins, ends = folder.ends
    files = {"origins": begins[span.start : span.stop], "destinations": ends}
    arrays: Arrays = {}
    with engine.ask(options, files) as answered:
        matrix = open_matrix(str(answered.matrix))
        columns = np.array([matrix.places[name] for name in ends], dtype=np.intp)
        for scenario in request.scenarios:
            for percentile in question.percentiles:
                seconds = matrix.rows(names[scenario], percentile, 0, len(span))[:, columns]
                arrays[scenario, percentile] = limited(with_direct(seconds, folder, span), question)
        return arrays, answered.warnings


def with_direct(seconds: npt.NDArray[np.float32], folder: DoorToDoorFolder, span: range) -> npt.NDArray[np.float32]:
    """Take the walks that the engine doesn't have where they are shorter."""
    if folder.direct is None:
        return seconds
    found: npt.NDArray[np.float32] = np.fmin(seconds, folder.direct[span.start : span.stop]).astype(np.float32)
    return found


def limited(seconds: npt.NDArray[np.float32], question: Question) -> npt.NDArray[np.float32]:
    """Count what takes longer than `max_travel` as not reached."""
    most = travel_seconds(question)
    if most is None:
        return seconds
    found: npt.NDArray[np.float32] = np.where(seconds <= most, seconds, np.float32(np.nan))
    return found


def engine_for(state: NetworkState, request: Request, folder: DoorToDoorFolder) -> tuple[EngineNetwork, dict[str, str]]:
    """Return the engine's network for a request, and the names by which it knows the scenarios."""
    question = request.question
    days, walk = (question.days_before, question.days_after), folder.walk if walk_seconds(question) else 0
    scenarios = scenario_files(folder, question)
    names = {name: name for name in request.scenarios} if folder.scenario_files else {TODAY: BASE}
    if question.max_rides == 0:
        names = dict.fromkeys(request.scenarios, ON_FOOT)
    key = (folder.key, str(question.date), walk, days, question.max_rides == 0)

    def start() -> EngineNetwork:
        files = NetworkFiles(folder.feed.folder, str(question.date), walk, scenarios, folder.footpaths, days)
        return EngineNetwork(files, program=state.program or settings.engine)

    return state.engines.of(key, start), names


def scenario_files(folder: DoorToDoorFolder, question: Question) -> list[Path]:
    """Return the scenario files that the engine is given."""
    return [on_foot(folder)] if question.max_rides == 0 else folder.scenario_files


def on_foot(folder: DoorToDoorFolder) -> Path:
    """Return a scenario file without any route."""
    path = folder.folder / f"{ON_FOOT}.csv"
    if not path.exists():
        routes = [route for _, (route,) in rows(folder.feed.folder / "routes.txt", ["route_id"])]
        aside = path.with_suffix(".part")
        with open(aside, "wb") as out:
            write_rows(out, ["action", "id", "seconds"], [["remove_route", route, ""] for route in routes])
        aside.replace(path)
    return path


def tuple_of_unreached(request: Request, folder: DoorToDoorFolder) -> tuple[list[int], list[int]]:
    return folder.unreached("origins.csv"), folder.unreached("destinations.csv")


def notes_of_warnings(warnings: Sequence[str] | dict[str, None], folder: DoorToDoorFolder) -> list[Note]:
    """Return what the engine warned of as notes; what it says of its options is said of a question's settings.

    The feed of a plan has the trips of all scenarios. The engine compares each scenario with all of these, so that one
    "changes nothing" if it has them all; it needn't be as today.
    """
    texts = [ALONE if text.startswith(NO_WALKS) else text for text in warnings]
    if folder.scenario_files:
        texts = [text for text in texts if NO_CHANGE not in text]
    return [Note("no service" if any(one in text for one in NO_SERVICE) else "engine", text, 0) for text in texts]


def notes_of_unchanged(feed: PreparedFeed, request: Request) -> Iterator[Note]:
    """Yield a note for each scenario that changes nothing on the date."""
    if len(request.scenarios) > (TODAY in request.scenarios) and request.question.max_rides:
        question, date = request.question, day_of(str(request.question.date))
        unchanged = unchanged_on(feed, date, (question.days_before, question.days_after))
        yield from (Note("no service", sentence_of(name, date), 0) for name in request.scenarios if name in unchanged)


def notes_of_unreached(request: Request, unreachable: tuple[list[int], list[int]]) -> Iterator[Note]:
    """Yield a note for each side that has places without a stop within a walk."""
    sides = [(request.origins, unreachable[0])]
    if not request.same:
        sides.append((request.destinations, unreachable[1]))
    for side, positions in sides:
        if positions and side.argument != GRID:
            names = [display_text(str(side.identifiers[place])) for place in positions]
            count = quantity(len(positions), "place")
            text = f"{side.argument}: {count} without a stop within max_walk: {first_few(names)}"
            yield Note("unreachable", text, len(positions))
