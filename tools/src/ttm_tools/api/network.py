"""Networks: streets, a timetable and scenarios, which answer questions about places."""

from collections.abc import Callable, Sequence
from concurrent.futures import Executor
from dataclasses import replace
from os import PathLike
from pathlib import Path
from types import TracebackType
from typing import TYPE_CHECKING, Any, ClassVar, Literal

import geopandas
import numpy as np

from ..core.cache import cached_entry, key_of
from ..core.errors import InputError, needs
from ..core.limits import MOST_WORKERS
from ..core.notes import Note, warn_of
from ..core.question import Question, not_allowed
from ..core.settings import Progress
from ..places.doors import PreparedFeed
from ..plans.make import files_in_order, make as make_plan
from .asking import Request, answer
from .frames import Places, read_places
from .isochrones import isochrone_frame
from .itineraries import itinerary_frame
from .matrix import Matrix
from .matrix_files import matrix_of, open_matrix
from .network_frames import NetworkFrames
from .pages import EXPLORE, ServedPage, call
from .scenario import Scenario, by_action, plan_text
from .tracking import Tracker

if TYPE_CHECKING:
    from xarray import DataArray

LINES, PLAN = "lines.txt", "plan"
PathLikeStr = str | PathLike[str]


class Network(NetworkFrames):
    """Streets, timetable and scenarios, made by `open_network`. It never changes.

    Engine processes start with the first question and keep the network of up to four combinations of places, date and
    longest walk; so the first question about new places also pays for their walks. They end with `close`, with a
    ``with`` block, or with the interpreter. A fork has none of them.
    """

    _of_folder: ClassVar[Callable[..., Any] | None] = None  # what version 2 called by this name, with a feed's folder

    def __new__(cls, *arguments: Any, **named: Any) -> Any:
        if cls._of_folder is not None and arguments and isinstance(arguments[0], (str, PathLike)):
            return cls._of_folder(*arguments, **named)
        return super().__new__(cls)

    def with_scenarios(self, *scenarios: Scenario) -> "Network":
        """A network that also answers for these scenarios: 14 at most, each independent of the others.

        Raises
        ------
        InputError
            An action changes nothing or names something unknown. Says which, and the nearest name.
        """
        if not scenarios:
            unchanged: Network = self._base
            return unchanged
        text = plan_text(scenarios, list(self._base._stops.index))
        base = self._base._state.feed
        key = key_of("plan", base.key, text)

        def write(folder: Path) -> None:
            plan = folder / "plan.toml"
            plan.write_text(text, encoding="utf-8")
            try:
                lines, _ = make_plan(str(base.folder), str(plan), str(folder / PLAN), called=PLAN)
            except InputError as error:
                raise by_action(error, str(plan), scenarios, text) from None
            (folder / LINES).write_text("".join(f"{line}\n" for line in lines), encoding="utf-8")

        entry = cached_entry("plans", key, write)
        files = tuple(Path(path).name for path in files_in_order(str(entry / PLAN)))
        lines = (entry / LINES).read_text(encoding="utf-8").splitlines()
        notes = tuple(Note("scenario", line, 0) for line in lines)
        names = tuple(name.removesuffix(".csv") for name in files)[1:]
        network = Network(
            PreparedFeed(key, entry / PLAN, files), self._state.streets, (*self._base._notes, *notes), names
        )
        network._base = self._base
        return network

    def matrix(
        self,
        origins: Places,
        destinations: Places,
        question: Question,
        *,
        scenarios: Sequence[str] | None = None,
        out: PathLikeStr | None = None,
        threads: int | None = None,
        executor: Executor | None = None,
        progress: Progress = None,
    ) -> Matrix:
        """Travel times from door to door. Each origin is a search, so time grows with the number of origins.

        Parameters
        ----------
        origins, destinations
            The same frame twice is one set of places. A polygon counts as a point inside it.
        question
            When journeys begin, and what they may use.
        scenarios
            Those to compute; by default all.
        out
            An .omx file to write block by block, for results larger than memory. The matrix then reads from it.
        threads
            Threads of the engine; by default those of the settings.
        executor
            Splits the origins over the workers of any `concurrent.futures.Executor`: a process pool, Dask, MPI.
        progress
            Whether, or by which function, progress is reported.

        Returns
        -------
        Matrix
            The travel times of all pairs.

        Warns
        -----
        NoServiceWarning
            No trip runs on the date, or a scenario changes nothing on it.
        UnreachableWarning
            Places have no stop within `max_walk`.
        """
        request = self._request(origins, destinations, question, scenarios, threads)
        reply = answer(self._state, request, progress, executor)
        for note in reply.notes:
            warn_of(note)
        matrix = matrix_of(request, reply, (*self._notes, *reply.notes))
        if out is None:
            return matrix
        matrix.to_omx(out)
        return open_matrix(out)

    def _request(
        self,
        origins: Places,
        destinations: Places,
        question: Question,
        scenarios: Sequence[str] | None,
        threads: int | None,
    ) -> Request:
        """Return a question with its places and scenarios checked."""
        if not isinstance(question, Question):
            raise not_allowed("question", question, "a Question")
        if threads is not None and not 1 <= threads <= MOST_WORKERS:
            raise not_allowed("threads", threads, f"1 to {MOST_WORKERS}")
        named = self.scenarios if scenarios is None else tuple([scenarios] if isinstance(scenarios, str) else scenarios)
        for name in named:
            if name not in self.scenarios:
                raise not_allowed("scenarios", name, ", ".join(self.scenarios))
        begins = read_places("origins", origins, self._stops)
        same = destinations is origins
        ends = begins if same else read_places("destinations", destinations, self._stops)
        return Request(begins, ends, question, tuple(dict.fromkeys(named)), same, threads)

    def by_departure(
        self,
        origins: Places,
        destinations: Places,
        question: Question,
        *,
        threads: int | None = None,
        progress: Progress = None,
    ) -> "DataArray":
        """Seconds for each departure (r5r: expanded_travel_time_matrix), by a search for each; percentiles don't apply.

        Returns
        -------
        DataArray
            float32, dims scenario, departure (datetime64), from_id, to_id.
        """
        needs("xarray")
        from xarray import DataArray

        request = self._request(origins, destinations, question, None, threads)
        departures, found, notes = question.departures, list[Any](), dict[Note, None]()
        with Tracker(progress, len(departures), "departures") as tracker:
            for time in departures:
                at = time.strftime("%H:%M")
                single = question.replace(first=at, last=None, percentiles=(100,))
                reply = answer(self._state, replace(request, question=single), False)
                found.append(np.stack([reply.arrays[name, 100] for name in request.scenarios]))
                notes.update(dict.fromkeys(reply.notes))
                tracker.advance(1)
        for note in notes:
            warn_of(note)
        ids = {"from_id": request.origins.identifiers, "to_id": request.destinations.identifiers}
        coordinates = {"scenario": list(request.scenarios), "departure": departures, **ids}
        seconds = np.stack(found, axis=1)
        return DataArray(seconds, coordinates, list(coordinates), name="seconds", attrs={"units": "s"})

    def isochrones(
        self,
        origins: Places,
        question: Question,
        minutes: Sequence[float],
        *,
        cell_m: float = 100,
        dissolve: bool = False,
        threads: int | None = None,
        progress: Progress = None,
    ) -> geopandas.GeoDataFrame:
        """Areas reached in time: the squares of `cell_m` metres, along streets, whose middles are reached.

        Returns
        -------
        GeoDataFrame
            scenario, percentile, from_id, minutes (float), square_km, geometry (MultiPolygon); widest first, so that a
            plot shows all. With `dissolve`, one area for all origins, without from_id.
        """
        request = self._request(origins, origins, question, None, threads)
        return isochrone_frame(self._state, request, minutes, cell_m, dissolve, progress)

    def itineraries(
        self,
        origins: Places,
        destinations: Places,
        question: Question,
        *,
        pairs: Literal["all", "row_by_row"] = "all",
        scenarios: Sequence[str] | None = None,
        progress: Progress = None,
    ) -> geopandas.GeoDataFrame:
        """Legs of the fastest journeys of the window, found by a second search and compared with the engine.

        Parameters
        ----------
        origins, destinations
            As for `matrix`.
        question
            When journeys begin, and what they may use; percentiles don't apply.
        pairs
            All origins with all destinations, or the first with the first and so on.
        scenarios
            Those to search; by default all.
        progress
            Whether, or by which function, progress is reported.

        Returns
        -------
        GeoDataFrame
            A row for each leg: scenario, from_id, to_id, option, leg, mode (str), route_id, trip_id, from_stop_id,
            to_stop_id, departure and arrival (datetime64), wait_seconds, seconds, metres, geometry (LineString). A
            pair without a journey has none. Meant for some hundreds of pairs.

        Raises
        ------
        InputError
            The engine has another travel time than the second search.
        """
        request = self._request(origins, destinations, question, scenarios, None)
        frame, notes = itinerary_frame(self._state, request, pairs, progress)
        for note in notes:
            warn_of(note)
        return frame

    def explore(self, question: Question, places: Places | None = None, *, open_browser: bool = True) -> ServedPage:
        """Serve an interactive map to this machine, until the page that is returned is closed.

        Parameters
        ----------
        question
            The date, and what the page begins with. `max_walk` is the longest walk that the page offers.
        places
            Places to begin and to end journeys at, in addition to the stops. The page counts their columns of numbers.
        open_browser
            Whether the page is opened in a browser.

        Returns
        -------
        ServedPage
            The page with its `address`: `close` it, or use it in a ``with`` block. `wait` serves it until interrupted.
        """
        page: ServedPage = call(EXPLORE, self, question, places, open_browser)
        return page

    def close(self) -> None:
        """End the engine processes. A later question raises `ArgumentError`."""
        self._state.engines.close()

    def __enter__(self) -> "Network":
        return self

    def __exit__(
        self, kind: type[BaseException] | None, error: BaseException | None, traceback: TracebackType | None
    ) -> None:
        self.close()
