"""The public surface of `ttm_tools`, compared with the package by `test_api_surface.py`."""

import datetime as dt
from collections.abc import Callable, Iterator, Mapping, Sequence
from concurrent.futures import Executor
from dataclasses import dataclass
from os import PathLike
from pathlib import Path
from types import TracebackType
from typing import Literal, NamedTuple

import numpy as np
import numpy.typing as npt
from geopandas import GeoDataFrame, GeoSeries
from pandas import DataFrame, DatetimeIndex, Index, Series
from pyproj import CRS
from shapely.geometry import Polygon
from xarray import DataArray

__version__: str
__all__ = [
    "ArgumentError",
    "Decay",
    "EngineError",
    "InputError",
    "LimitError",
    "Matrix",
    "MissingDependencyError",
    "Network",
    "NoServiceWarning",
    "Note",
    "Question",
    "RepairWarning",
    "RoundingWarning",
    "Sample",
    "Scenario",
    "TtmError",
    "TtmWarning",
    "UnreachableWarning",
    "access_change",
    "allocate",
    "check_feed",
    "engine_version",
    "equity",
    "grid",
    "open_matrix",
    "open_network",
    "people_by_band",
    "prepare_feed",
    "read_plan",
    "run_study",
    "sample",
    "settings",
    "who_gains",
    "write_plan",
]

PathLikeStr = str | PathLike[str]
Date = dt.date | str  # 2026-05-04 or 20260504
TimeOfDay = dt.time | str  # 08:00; in scenarios up to 167:59:59, for trips past midnight
Duration = dt.timedelta | str  # "15 min", "90 s"; a text without a unit is refused
Places = GeoDataFrame | GeoSeries | Sequence[str]  # points or polygons; or identifiers of the feed's own stops
Labels = str | int | Sequence[str] | Sequence[int]
Progress = bool | Callable[[int, int], None] | None  # None: a bar on a terminal or in a notebook, after a second
Mode = Literal["tram", "metro", "rail", "bus", "ferry", "cable_tram", "aerial", "funicular", "trolleybus", "monorail"]
Departures = Sequence[tuple[TimeOfDay, TimeOfDay, Duration]]  # first, last, every

# Networks and questions

def open_network(
    gtfs: PathLikeStr | Sequence[PathLikeStr],
    streets: PathLikeStr | None = None,
    *,
    repair: bool = True,
    allow_loss: bool = False,
    progress: Progress = None,
) -> Network:
    """Read feeds and streets, or take them from the cache if they were read before.

    Parameters
    ----------
    gtfs
        Zip files or folders; several are merged. A folder that holds the scenarios of a plan is refused.
    streets
        A file of OpenStreetMap. Without one, walks are straight lines, made longer by `Question.detour`.
    repair
        Repair what the engine would refuse, with a `RepairWarning`; False raises `InputError` instead.
    allow_loss
        Go on even if a repair removes more than a tenth of a file.
    """

@dataclass(frozen=True)
class Question:
    """When journeys begin, and what they may use. Commands and study files take names and defaults from here.

    Parameters
    ----------
    date, first, last
        Day, first and last departure, one each minute, by the feed's clock. Without `last` there is one departure.
    percentiles
        One to eight of 1 to 100.
    max_walk
        Limit of each walk: to a stop, between stops, from a stop. Two hours at most.
    max_rides
        Vehicles of a journey: 0 (on foot) to 8.
    max_travel
        Slower journeys count as not reached. None is no limit.
    detour
        Metres walked for a metre of straight line, where there are no streets.
    days_before, days_after
        Neighbouring service days whose trips count: 0 to 6. One before takes in trips past midnight.
    """

    date: Date
    first: TimeOfDay
    last: TimeOfDay | None = None
    percentiles: Sequence[int] = (50,)
    max_walk: Duration = "10 min"
    max_rides: int = 4
    max_travel: Duration | None = None
    walking_kmh: float = 4.8
    detour: float = 1.3
    days_before: int = 1
    days_after: int = 1

    @classmethod
    def starting(cls, departure: dt.datetime, window: Duration = "1 h", **settings: object) -> Question:
        """As in r5py and r5r: ``starting(datetime(2026, 5, 4, 8), "1 h")`` has 60 departures, 08:00 to 08:59."""
    @property
    def departures(self) -> DatetimeIndex:
        """All departures, local and without a time zone."""
    def replace(self, **settings: object) -> Question:
        """The same question with other settings, checked again."""
    def to_dict(self) -> dict[str, object]:
        """Settings as JSON has them; ``Question(**settings)`` makes the question again."""

class Note(NamedTuple):
    """Something a reader of the results should know."""

    kind: str  # repaired, no service, unreachable, rounded, scenario, engine
    text: str
    affected: int  # records, places or trips

class ServedPage:
    """A page that this process serves to this machine, until `close`, a ``with`` block or the interpreter ends."""

    address: str  # what a browser opens; it has a token that changes with each start

    @property
    def is_open(self) -> bool:
        """Whether the page is still served."""
    def wait(self) -> None:
        """Serve until interrupted, as by Ctrl-C, and then close."""
    def close(self) -> None:
        """End the server and its engine processes. Closing twice is allowed."""
    def __enter__(self) -> ServedPage: ...
    def __exit__(
        self, kind: type[BaseException] | None, error: BaseException | None, traceback: TracebackType | None
    ) -> None: ...
    def _repr_html_(self) -> str: ...

class Network:
    """Streets, timetable and scenarios, made by `open_network`. It never changes.

    Engine processes start with the first question and keep the network of up to four combinations of places, date and
    longest walk; so the first question about new places also pays for their walks. They end with `close`, with a
    ``with`` block, or with the interpreter. A fork has none of them.
    """

    @property
    def scenarios(self) -> tuple[str, ...]:
        """Names; the first, ``"today"``, is the feed as it is."""
    @property
    def dates(self) -> tuple[dt.date, dt.date]:
        """First and last day on which a trip runs."""
    @property
    def trips_by_date(self) -> Series:
        """Number of trips of each day between them, by date; for choosing a typical day."""
    @property
    def stops(self) -> GeoDataFrame:
        """Stops as points in EPSG:4326, by `stop_id`, with the feed's own columns."""
    @property
    def routes(self) -> GeoDataFrame:
        """Routes as lines in EPSG:4326, by `route_id`, with the feed's own columns and `mode`."""
    @property
    def extent(self) -> Polygon:
        """Rectangle around streets and stops, in EPSG:4326."""
    @property
    def repairs(self) -> DataFrame:
        """Each repair: file, record, column, value, rule, result."""
    @property
    def notes(self) -> tuple[Note, ...]:
        """What was repaired, and what each action of a scenario did."""
    def with_scenarios(self, *scenarios: Scenario) -> Network:
        """A network that also answers for these scenarios: 14 at most, each independent of the others.

        Raises
        ------
        InputError
            An action changes nothing or names something unknown. Says which, and the nearest name.
        """
    def matrix(
        self,
        origins: Places,
        destinations: Places,
        question: Question,
        *,
        scenarios: Sequence[str] | None = None,
        out: PathLikeStr | None = None,
        threads: int | None = None,
        executor: Executor | None = None,
        progress: Progress = None,
    ) -> Matrix:
        """Travel times from door to door. Each origin is a search, so time grows with the number of origins.

        Parameters
        ----------
        origins, destinations
            The same frame twice is one set of places. A polygon counts as a point inside it.
        scenarios
            Those to compute; by default all.
        out
            An .omx file to write block by block, for results larger than memory. The matrix then reads from it.
        executor
            Splits the origins over the workers of any `concurrent.futures.Executor`: a process pool, Dask, MPI.

        Warns
        -----
        NoServiceWarning
            No trip runs on the date, or a scenario changes nothing on it.
        UnreachableWarning
            Places have no stop within `max_walk`.
        """
    def by_departure(
        self,
        origins: Places,
        destinations: Places,
        question: Question,
        *,
        threads: int | None = None,
        progress: Progress = None,
    ) -> DataArray:
        """Seconds for each departure (r5r: expanded_travel_time_matrix), by a search for each; percentiles don't apply.

        Returns
        -------
        DataArray
            float32, dims scenario, departure (datetime64), from_id, to_id.
        """
    def isochrones(
        self,
        origins: Places,
        question: Question,
        minutes: Sequence[float],
        *,
        cell_m: float = 100,
        dissolve: bool = False,
        threads: int | None = None,
        progress: Progress = None,
    ) -> GeoDataFrame:
        """Areas reached in time: the squares of `cell_m` metres, along streets, whose middles are reached.

        Returns
        -------
        GeoDataFrame
            scenario, percentile, from_id, minutes (float), square_km, geometry (MultiPolygon); widest first, so that a
            plot shows all. With `dissolve`, one area for all origins, without from_id.
        """
    def itineraries(
        self,
        origins: Places,
        destinations: Places,
        question: Question,
        *,
        pairs: Literal["all", "row_by_row"] = "all",
        scenarios: Sequence[str] | None = None,
        progress: Progress = None,
    ) -> GeoDataFrame:
        """Legs of the fastest journeys of the window, found by a second search and compared with the engine.

        Returns
        -------
        GeoDataFrame
            A row for each leg: scenario, from_id, to_id, option, leg, mode (str), route_id, trip_id, from_stop_id,
            to_stop_id, departure and arrival (datetime64), wait_seconds, seconds, metres, geometry (LineString). A
            pair without a journey has none. Meant for some hundreds of pairs.
        """
    def service(self, date: Date, *, by: Literal["direction", "route", "stop", "all"] = "route") -> DataFrame:
        """What runs on a day: scenario, identifiers, departures, headway_minutes, vehicles, vehicle_hours, .."""
    def snap(self, points: GeoSeries, radius_m: float = 1600.0) -> GeoSeries:
        """Nearest point on a walkable street, with index and CRS of `points`; an empty point if none is so near."""
    def explore(self, question: Question, places: Places | None = None, *, open_browser: bool = True) -> ServedPage:
        """Serve an interactive map to this machine, until the page that is returned is closed.

        Parameters
        ----------
        question
            The date, and what the page begins with. `max_walk` is the longest walk that the page offers.
        places
            Places to begin and to end journeys at, in addition to the stops. The page counts their columns of numbers.
        """
    def close(self) -> None:
        """End the engine processes. A later question raises `ArgumentError`."""
    def __enter__(self) -> Network: ...
    def __exit__(
        self, kind: type[BaseException] | None, error: BaseException | None, traceback: TracebackType | None
    ) -> None: ...
    def _repr_html_(self) -> str: ...

# Scenarios

@dataclass(frozen=True)
class Scenario:
    """Changes of a timetable, in order. Each method returns a new scenario, so a cell may be run twice.

    Names are checked when a network takes the scenario. `direction` is a `direction_id` of the feed; `pattern` is a
    trip, and selects those that call at the same stops.
    """

    name: str
    actions: tuple[Mapping[str, object], ...] = ()

    def remove_routes(self, *routes: str) -> Scenario:
        """Without the trips of these routes."""
    def remove_modes(self, *modes: Mode) -> Scenario:
        """Without the routes of these modes."""
    def remove_trips(self, *trips: str) -> Scenario:
        """Without these trips."""
    def remove_stops(self, *stops: str, route: str | None = None) -> Scenario:
        """Trips, of one route or all, no longer call there; other times stay."""
    def shift_route(self, route: str, by: Duration, *, direction: int | None = None) -> Scenario:
        """All times of a route later, or earlier with ``"-2 min"``."""
    def shift_trips(self, trips: Sequence[str], by: Duration) -> Scenario:
        """All times of these trips later or earlier."""
    def set_headway(
        self,
        route: str,
        *,
        every: Duration,
        start: TimeOfDay,
        end: TimeOfDay,
        direction: int | None = None,
        pattern: str | None = None,
        service: str | None = None,
    ) -> Scenario:
        """Copies of a typical trip, `every` so often, replace the trips that leave from `start` to before `end`."""
    def double_frequency(
        self, route: str, *, start: TimeOfDay = "00:00", end: TimeOfDay = "30:00", direction: int | None = None
    ) -> Scenario:
        """All trips stay, and one more leaves halfway to the next."""
    def change_speed(
        self,
        route: str,
        *,
        factor: float = 1.0,
        dwell: Duration = "0 s",
        between: tuple[str, str] | None = None,
        direction: int | None = None,
    ) -> Scenario:
        """Run times times `factor` (0.85 is faster), dwell times plus `dwell`; `between` two stops or everywhere."""
    def add_line(
        self,
        route: str,
        stops: Places,
        *,
        departures: Departures,
        kmh: float | None = None,
        run_times: Sequence[Duration] | None = None,
        dwell: Duration = "0 s",
        both_ways: bool = True,
        mode: Mode = "bus",
        days: str = "daily",
    ) -> Scenario:
        """A new route along `stops`: identifiers, or points in order, of which unknown ones become new stops.

        Give the speed along straight lines, `kmh`, or `run_times` from stop to stop. `days` is daily, weekdays, names
        of days such as "monday tuesday", or a service of the feed.
        """
    def extend_route(
        self,
        route: str,
        stops: Places,
        *,
        after: str | None = None,
        before: str | None = None,
        kmh: float | None = None,
        run_times: Sequence[Duration] | None = None,
        dwell: Duration = "0 s",
        direction: int | None = None,
    ) -> Scenario:
        """Trips that end at the stop `after` go on to `stops`, or trips that begin at `before` begin earlier."""
    def cut_route(
        self, route: str, *, after: str | None = None, before: str | None = None, direction: int | None = None
    ) -> Scenario:
        """Trips end at the stop `after`, or begin at the stop `before`."""
    def to_toml(self) -> str:
        """The scenario as a plan file has it."""
    def _repr_html_(self) -> str: ...

def read_plan(path: PathLikeStr) -> list[Scenario]:
    """Read the scenarios of a plan file, such as one that `ttm-tools explore` saved."""

def write_plan(scenarios: Sequence[Scenario], path: PathLikeStr) -> None:
    """Write a plan file, for ``ttm-tools scenarios`` and studies."""

# Matrices

class SavedPage:
    """A page in a file. A notebook shows it inline."""

    path: Path
    def _repr_html_(self) -> str: ...

class Matrix:
    """Seconds by scenario, percentile, origin and destination. It never changes; its arrays are read-only.

    In memory after `Network.matrix`; read in blocks after `open_matrix`. ``len`` and iteration are left out on
    purpose: use `long`, `wide`, `to_xarray` or `blocks`.
    """

    @property
    def scenarios(self) -> tuple[str, ...]:
        """Names, `base` first."""
    @property
    def base(self) -> str:
        """What others are compared with: ``today``, or ``base`` in a file of an engine's run with scenario files."""
    @property
    def percentiles(self) -> tuple[int, ...]:
        """Ascending."""
    @property
    def origins(self) -> GeoDataFrame:
        """The frame that was asked with, or a frame of the feed's stops."""
    @property
    def destinations(self) -> GeoDataFrame:
        """Likewise."""
    @property
    def shape(self) -> tuple[int, int, int, int]:
        """Number of scenarios, percentiles, origins and destinations."""
    @property
    def question(self) -> Question | None:
        """What was asked; None for a file that doesn't say."""
    @property
    def notes(self) -> tuple[Note, ...]:
        """What the engine and the preparation of walks warned of."""
    @property
    def unreachable(self) -> tuple[Index, Index]:
        """Identifiers of the origins and of the destinations without a stop within `max_walk`."""
    def sel(
        self,
        *,
        scenario: str | Sequence[str] | None = None,
        percentile: int | Sequence[int] | None = None,
        from_id: Labels | None = None,
        to_id: Labels | None = None,
    ) -> Matrix:
        """Part of the matrix by labels, as in xarray; dimensions of length one stay."""
    def wide(self, scenario: str | None = None, percentile: int | None = None) -> DataFrame:
        """Origins as rows and destinations as columns, float64 seconds, NaN if not reached.

        The scenario is `base` unless named; the percentile must be named if there are several.
        """
    def long(self, *, unit: Literal["seconds", "minutes"] = "seconds", unreached: bool = True) -> DataFrame:
        """Columns scenario, percentile, from_id, to_id, and `unit` (float64; minutes aren't rounded).

        ``unreached=False`` leaves out pairs without a travel time.
        """
    def to_xarray(self) -> DataArray:
        """float32, dims scenario, percentile, from_id, to_id; ``attrs["units"]`` is "s". Doesn't copy."""
    def blocks(self, rows: int | None = None) -> Iterator[DataArray]:
        """The same, some origins at a time."""
    def load(self) -> Matrix:
        """The matrix in memory."""
    def reaching(self, to_id: str | int, *, scenario: str | None = None, percentile: int | None = None) -> GeoDataFrame:
        """All origins with their `seconds` to one destination: its catchment. Has the origins' index and columns."""
    def reached_from(
        self, from_id: str | int, *, scenario: str | None = None, percentile: int | None = None
    ) -> GeoDataFrame:
        """All destinations with the `seconds` from one origin. Has the destinations' index and columns."""
    def nearest(
        self, opportunity: str | None = None, count: int = 1, *, counted: Literal["opportunities", "places"] = "opportunities"
    ) -> GeoDataFrame:
        """Time to the nearest destination, or until `count` of an opportunity are reached.

        With `counted="places"` each destination with any of it counts once: 2 is the second nearest hospital, whatever
        its beds. Without an opportunity each destination counts once.

        Returns
        -------
        GeoDataFrame
            scenario, percentile, from_id, opportunity, counted, count, to_id (the destination that completes the
            count, of several at the same time the first), seconds, ties (how many others have this time), geometry.
        """
    def nearest_ties(
        self, opportunity: str | None = None, count: int = 1, *, counted: Literal["opportunities", "places"] = "opportunities"
    ) -> GeoDataFrame:
        """All destinations that complete a count at the same time, where several do: columns of `nearest`, no ties."""
    def access(
        self, opportunities: str | Sequence[str], minutes: Sequence[float], *, decay: Decay = ...
    ) -> GeoDataFrame:
        """Opportunities reached by each origin; `opportunities` are numeric columns of the destinations.

        Returns
        -------
        GeoDataFrame
            scenario, percentile, from_id, opportunity, minutes, access (float64), geometry.
        """
    def competition(
        self,
        supply: str,
        demand: str,
        minutes: Sequence[float],
        *,
        method: Literal["floating", "balanced", "availability"] = "floating",
        decay: Decay = ...,
    ) -> GeoDataFrame:
        """Access if people compete; `supply` is a column of the destinations, `demand` of the origins."""
    def difference(
        self, scenario: str, base: str | None = None, *, percentile: int | None = None, tolerance: Duration = "0 s"
    ) -> GeoDataFrame:
        """What a scenario changes, by origin, with the origins' index.

        Returns
        -------
        GeoDataFrame
            from_id; cut_off, slower, unchanged, faster, new (int64, destinations; a change up to `tolerance` is none);
            mean_change (float64, seconds, of destinations that both reach); geometry.
        """
    def difference_by_pair(
        self, scenario: str, base: str | None = None, *, percentile: int | None = None, tolerance: Duration = "0 s"
    ) -> DataFrame:
        """Pairs that change: from_id, to_id, what (cut off, slower, faster, new), before, after, change (seconds)."""
    def to_omx(self, path: PathLikeStr) -> None:
        """Write an Open Matrix file with places, question and notes, from which `open_matrix` restores all."""
    def to_parquet(self, path: PathLikeStr, *, unreached: bool = True) -> None:
        """Write `long`, in blocks. Needs pyarrow."""
    def to_csv(self, path: PathLikeStr, *, unreached: bool = True) -> None:
        """Write `long`, in blocks."""
    def to_html(self, path: PathLikeStr, *, title: str = "", opportunities: Sequence[str] = ()) -> SavedPage:
        """Write an interactive page, one file that needs no network."""
    def _repr_html_(self) -> str: ...
    def __array__(self, dtype: npt.DTypeLike | None = None) -> npt.NDArray[np.float32]: ...

def open_matrix(
    path: PathLikeStr, *, origins: GeoDataFrame | None = None, destinations: GeoDataFrame | None = None
) -> Matrix:
    """Open an .omx file, or a CSV file as `ttm` prints it, without reading its cells.

    `origins` and `destinations` say where places lie if the file doesn't; they must have the same identifiers.
    """

@dataclass(frozen=True)
class Decay:
    """Weight of an opportunity by its travel time, given a limit: names and formulas of R5 and r5r."""

    kind: Literal["step", "linear", "exponential", "logistic"] = "step"
    value: float | None = None

    @classmethod
    def step(cls) -> Decay:
        """1 up to the limit."""
    @classmethod
    def linear(cls, width: float) -> Decay:
        """From 1 to 0 within `width` minutes around the limit."""
    @classmethod
    def exponential(cls) -> Decay:
        """Half at the limit."""
    @classmethod
    def logistic(cls, sd: float) -> Decay:
        """S-shaped, half at the limit; `sd` in minutes."""

# Measures of frames: pure functions, also for access that another program computed

def equity(
    access: DataFrame,
    origins: DataFrame,
    *,
    people: str | Sequence[str],
    by: str | None = None,
    rank: str | None = None,
    poverty_line: float | None = None,
    base: str | None = None,
    loss_percent: float = 10,
) -> DataFrame:
    """How access is spread over people.

    Parameters
    ----------
    access
        from_id, access, and any of scenario, percentile, opportunity, minutes; as `Matrix.access` returns it.
    origins
        Identifiers, and the columns that these name: `people`, numbers of people, each a group; `by`, labels that
        divide them further; `rank`, such as income, which adds `concentration`.
    poverty_line
        Adds fgt0, fgt1 and fgt2.

    Returns
    -------
    DataFrame
        keys of `access`, group, people, mean, median, losers_percent, gini, palma, theil, least_tenth, ..
    """

def people_by_band(
    access: DataFrame, origins: DataFrame, *, people: str | Sequence[str], limits: Sequence[float]
) -> DataFrame:
    """How many people have at least so many opportunities: keys of `access`, group, limit, people, percent."""

def who_gains(
    access: DataFrame,
    origins: DataFrame,
    *,
    people: str | Sequence[str],
    by: str | None = None,
    all: str | None = None,
    thresholds: Sequence[float] = (10, 25),
    least: float = 0,
    base: str | None = None,
) -> DataFrame:
    """How many people gain and how many lose access, by group."""

def access_change(access: GeoDataFrame, scenario: str, base: str | None = None) -> GeoDataFrame:
    """Access before and after: other keys of `access`, before, after, change, percent, what (str), geometry."""

# Feeds, cells, studies

def check_feed(gtfs: PathLikeStr) -> DataFrame:
    """All errors for which the engine would refuse a feed: file, record, column, value, error, allowed."""

def prepare_feed(
    gtfs: PathLikeStr | Sequence[PathLikeStr],
    out: PathLikeStr,
    *,
    repair: bool = True,
    area: GeoDataFrame | None = None,
    routes: Sequence[str] = (),
    agencies: Sequence[str] = (),
    dates: Sequence[Date] = (),
    allow_loss: bool = False,
) -> DataFrame:
    """Merge, repair and clip feeds into the folder `out`; returns the repairs, as `Network.repairs`."""

def grid(area: GeoDataFrame, cell_m: float, *, crs: CRS | str | int | None = None) -> GeoDataFrame:
    """Square cells over polygons, or over the hull of points, with `id`; in `crs`, else in their UTM zone."""

def allocate(source: GeoDataFrame, cells: GeoDataFrame, columns: Sequence[str] | None = None) -> GeoDataFrame:
    """`cells` with numbers of `source`: points count where they lie, polygons are shared out by area."""

def run_study(path: PathLikeStr, out: PathLikeStr | None = None, *, threads: int | None = None) -> Path:
    """Run a study file to its end, or resume it; returns its folder."""

class Sample(NamedTuple):
    """A made town: a feed, its streets, and places as points."""

    gtfs: Path
    streets: Path
    homes: GeoDataFrame  # id, people, income, income_group
    jobs: GeoDataFrame  # id, jobs
    clinics: GeoDataFrame  # id (north, middle, south), beds

def sample() -> Sample:
    """The sample that this documentation uses."""

# Settings, errors, warnings

@dataclass
class Settings:
    """Defaults of this process. `threads`: all processors. `cache`: TTM_CACHE, else the user's cache folder."""

    threads: int | None = None
    progress: Progress = None
    cache: Path = ...
    engine: Path | None = None

settings: Settings

def engine_version() -> str:
    """Version of the engine, and of the toolchain that proved it."""

class TtmError(Exception):
    """Base of all errors of this package. Each can be pickled."""

class ArgumentError(TtmError, ValueError):
    """An argument has a value that isn't allowed; the message says what is."""

class InputError(TtmError, ValueError):
    """Something is wrong with a file or frame."""

    @property
    def source(self) -> str:
        """The file, or an argument such as "origins"."""
    record: int | None  # the header of a file is 1; a frame's rows count from 0
    column: str | None
    value: str | None
    allowed: str | None

class LimitError(InputError):
    """More stops, walks, trips or scenarios than the engine takes: `limit`, and what to do, are in the message."""

    limit: int

class EngineError(TtmError, RuntimeError):
    """The engine ended without an answer: `line` is what it printed, `status` its exit status."""

    line: str
    status: int

class MissingDependencyError(TtmError, ImportError):
    """An optional package isn't installed; the message has the commands for pip and apt."""

class TtmWarning(UserWarning):
    """Base of all warnings of this package."""

class RepairWarning(TtmWarning):
    """A feed was repaired."""

class NoServiceWarning(TtmWarning):
    """No trip runs on the date, or a scenario changes nothing on it."""

class UnreachableWarning(TtmWarning):
    """Places have no stop within the longest walk."""

class RoundingWarning(TtmWarning):
    """Numbers with decimals were rounded for the engine."""
