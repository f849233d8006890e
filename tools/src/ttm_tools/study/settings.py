"""The settings of a study's file: a dataclass for each of its tables, whose fields state what is allowed and the
default.
"""

from dataclasses import dataclass, field, is_dataclass
from pathlib import Path
from typing import Any, get_type_hints

from ..core.limits import (
    MOST_CUTOFF_MINUTES,
    MOST_FOOT_SECONDS,
    MOST_NUMBER,
    MOST_TRIES,
)
from ..core.question import DAYS_AFTER, DAYS_BEFORE, MAX_RIDES, MAX_WALK, PERCENTILES, WALKING, WAY
from ..core.toml_values import TEXT, ascending, number, whole
from ..core.walking import Walking
from .kinds import (
    BOX,
    DATE,
    DATES,
    FILE,
    FILES,
    MINUTE,
    TEXTS,
    WINDOWS,
    Window,
    flag,
    needed,
    of_question,
    setting,
    several,
)
from .result_settings import ResultSettings


@dataclass(frozen=True)
class About:
    """Titles of the report, the maps and the page."""

    title: str = setting(TEXT, "the report's title; without it, the name of this file", '"Without route 13"', "")
    question: str = setting(TEXT, "the study's question, a sentence or more", '"Who loses jobs if route 13 goes?"', "")
    note: str = setting(TEXT, "what else a reader needs to know", '"Jobs are those of the map of 2025."', "")


@dataclass(frozen=True)
class FeedSettings:
    """The timetable."""

    files: tuple[str, ...] = needed(FILES, "published feeds, zip files or folders; several are merged", '["feed.zip"]')
    ready: bool = flag("the feed is one folder that ttm reads; only trips on the date are checked")
    repair: bool = flag("repair errors by the rules of ttm-tools prepare; false refuses them", True)
    allow_loss: bool = flag("continue if a repair removes much of a file, or if no trip runs on the date")
    same_clock: bool = flag("merge feeds of several time zones")
    box: tuple[float, float, float, float] | None = setting(
        BOX, "stops inside are kept; without it, all", "[7.5, 47.4, 7.8, 47.7]"
    )
    area: str | None = setting(FILE, "GeoJSON polygons: stops inside are kept", '"region.geojson"')
    routes: tuple[str, ...] = several(TEXTS, "identifiers of the routes to keep; without it, all", '["L1"]')
    agencies: tuple[str, ...] = several(
        TEXTS, "identifiers of the agencies whose routes to keep; without it, all", '["city"]'
    )
    only_days: bool = flag("keep only trips of services that run on the days of the study")


@dataclass(frozen=True)
class RunSettings:
    """The arguments of ttm: docs/reference/options.md."""

    date: str = needed(DATE, "the day of the departures", "2026-05-04", instead="dates")
    first: str = needed(MINUTE, "the first departure of the window", '"07:30"', instead="windows")
    last: str = needed(MINUTE, "the last departure: there is one each minute", '"08:29"', instead="windows")
    dates: tuple[str, ...] = several(
        DATES, "several days, instead of date: a matrix for each", "[2026-05-04, 2026-05-09]"
    )
    windows: tuple[Window, ...] = several(
        WINDOWS,
        "several windows, instead of from and to: a matrix for each",
        '[{ name = "peak", from = "07:00", to = "08:59" }]',
    )
    trips: int = of_question(MAX_RIDES, "the maximum number of vehicles of a journey")
    walk: int = of_question(MAX_WALK, "the longest walk; 0 for none")
    shares: tuple[int, ...] = setting(
        ascending(PERCENTILES.allowed.least, PERCENTILES.allowed.most, PERCENTILES.allowed.unit),
        "the percentiles of the travel times",
        "[25, 50, 75]",
        (int(PERCENTILES.default),),
    )
    limits: tuple[int, ...] = setting(
        ascending(0, MOST_NUMBER, "seconds"), "limits within which access counts", "[1800]", (1800,)
    )
    cutoffs: tuple[float, ...] | None = setting(
        ascending(0, MOST_CUTOFF_MINUTES, "minutes", False), "the same in minutes, instead of limits", "[30]"
    )
    origins: str | None = setting(
        FILE, "a file with the column stop_id: where journeys begin; without it, all stops, or points", '"few.csv"'
    )
    back: int = of_question(DAYS_BEFORE, "service days before the date that count")
    ahead: int = of_question(DAYS_AFTER, "service days after the date that count")
    tries: int = setting(whole(1, MOST_TRIES), "how many times a row is attempted", "1", 1)


@dataclass(frozen=True)
class WalkSettings:
    """Walks between stops, and to points."""

    none: bool = flag("only the walks of the feed's transfers")
    limit: int | None = setting(
        whole(1, MOST_FOOT_SECONDS, "seconds"), "the longest walk; without it, walk of [run]", "600"
    )
    kmh: float = setting(
        number(WALKING.allowed.least, WALKING.allowed.most, "km/h"), "the walking speed", "4.8", WALKING.default
    )
    speed: float | None = setting(number(0.01, 100, "m/s"), "the same in metres a second, instead of kmh", "1.2")
    detour: float = setting(number(1, 100), "length of a walk, as a multiple of the straight line", "1.3", WAY.default)
    streets: str | None = setting(
        FILE, "a file of OpenStreetMap: walks along its ways; without it, straight lines", '"town.osm.pbf"'
    )
    near: float = setting(number(0, 10000, "metres"), "the greatest distance of a stop from a way", "100", 100.0)
    table: str | None = setting(
        FILE, "walks of your own: from_stop_id, to_stop_id, seconds; decimals are rounded up", '"walks.csv"'
    )


@dataclass(frozen=True)
class PointSettings:
    """Points such as cells, homes or schools, instead of stops: docs/howto/points.md."""

    files: tuple[str, ...] = several(FILES, "points at which journeys begin and end", '["cells.csv"]')
    origins: tuple[str, ...] = several(FILES, "points at which journeys only begin", '["homes.csv"]')
    destinations: tuple[str, ...] = several(FILES, "points at which journeys only end", '["schools.csv"]')
    leave_out: bool = flag("leave out points without a stop in reach")
    grid: float | None = setting(
        number(10, 100000, "metres"),
        "the width of square cells, which are the points where no file names any; without it, none",
        "250",
    )
    grid_area: str | None = setting(
        FILE, "polygons that the cells cover; without it, wherever a stop is within a walk", '"region.geojson"'
    )
    grid_people: tuple[str, ...] = several(
        FILES, "points or polygons whose numbers to sum into the cells", '["addresses.csv"]'
    )

    @property
    def are_any(self) -> bool:
        """Whether journeys begin and end at points."""
        return bool(self.all) or self.grid is not None

    @property
    def all(self) -> tuple[str, ...]:
        """All files, each once."""
        return tuple(dict.fromkeys([*self.files, *self.origins, *self.destinations]))


@dataclass(frozen=True)
class OpportunitySettings:
    """What travellers reach."""

    files: tuple[str, ...] = several(
        FILES, "tables with stop_id (or id) and columns of numbers; points have theirs in their files", '["jobs.csv"]'
    )
    columns: tuple[str, ...] = several(
        TEXTS, "the columns to count in tables and page; without it, all", '["jobs", "schools"]'
    )
    column: str | None = setting(
        TEXT, "the column that ttm counts as access; without it, the only one, else 1 for each stop", '"jobs"'
    )
    people: str | None = setting(
        FILE, "a table with stop_id (or id) and numbers of residents by origin, for equity", '"people.csv"'
    )
    groups: tuple[str, ...] = several(TEXTS, "the columns of people that count; without it, all", '["residents"]')

    @property
    def named(self) -> tuple[str, ...]:
        return (*self.columns, *([self.column] if self.column else []))


@dataclass(frozen=True)
class ScenarioSettings:
    """What is compared with the feed as it is: scenario files of ttm, or a plan of ttm-tools scenarios."""

    files: tuple[str, ...] = several(FILES, "scenario files, named as their scenarios", '["no13.csv"]')
    plan: str | None = setting(FILE, "a plan of new lines, headways and speeds", '"plan.toml"')


@dataclass(frozen=True)
class PartSettings:
    """How the run is cut into parts. The results are the same."""

    count: int | None = setting(whole(1, 9999), "the number of parts; without it, by minutes and memory", "40")
    minutes: float = setting(number(0.1, 10000, "minutes"), "the approximate processor time of a part", "5", 5.0)
    memory: int | None = setting(
        whole(64, 10_000_000, "MB"), "memory of all parts that run at once; without it, most of what is free", "6000"
    )
    keep: bool = flag("keep the parts' matrices after joining")


@dataclass(frozen=True)
class DayWindow:
    """A window of a day, which has a matrix of its own."""

    date: str  # YYYYMMDD
    window: Window

    @property
    def name(self) -> str:
        """What its files are called."""
        return f"{self.date}_{self.window.name}"

    @property
    def day(self) -> str:
        """The day as people write it."""
        return f"{self.date[:4]}-{self.date[4:6]}-{self.date[6:]}"

    @property
    def head(self) -> tuple[str, str, str, str]:
        """The first fields of each line of a table, in the order of `core.columns.WINDOWS`."""
        return self.day, self.window.name, self.window.first, self.window.last

    @property
    def label(self) -> str:
        return f"{self.day}, {self.window.name} ({self.window.first} to {self.window.last})"


@dataclass(frozen=True)
class Study:
    """All that a study's file says, and where it lies: paths are from its folder on."""

    path: Path
    about: About
    feed: FeedSettings
    run: RunSettings
    walks: WalkSettings = field(default_factory=WalkSettings)
    points: PointSettings = field(default_factory=PointSettings)
    opportunities: OpportunitySettings = field(default_factory=OpportunitySettings)
    scenarios: ScenarioSettings = field(default_factory=ScenarioSettings)
    results: ResultSettings = field(default_factory=ResultSettings)
    parts: PartSettings = field(default_factory=PartSettings)

    text: str = field(default="", compare=False)  # of its file
    generated: tuple[str, ...] = ()  # files that it makes itself, by their paths in its folder
    folder: Path = field(default=Path(), compare=False)  # where all that it makes lies

    def at(self, path: str) -> str:
        """A path of the file, as it is opened."""
        return str((self.folder if path in self.generated else self.path.parent) / path)

    @property
    def title(self) -> str:
        return self.about.title or self.path.stem

    @property
    def questions(self) -> list[DayWindow]:
        """The windows of all days, where several are named; the first one's matrix is that of maps and page."""
        run = self.run
        if not run.dates and not run.windows:
            return []
        windows = run.windows or (Window(f"{run.first}-{run.last}".replace(":", ""), run.first, run.last),)
        return [DayWindow(date, window) for date in run.dates or (run.date,) for window in windows]

    @property
    def share(self) -> int:
        """The share of tables and maps."""
        return self.results.share or (50 if 50 in self.run.shares else self.run.shares[0])

    @property
    def within(self) -> int:
        """The limit of tables and maps, in seconds."""
        return self.run.limits[-1] if self.results.within is None else self.results.within

    @property
    def cutoffs(self) -> tuple[float, ...]:
        """The limits of the table of access, in minutes."""
        return self.results.cutoffs or tuple(limit / 60 for limit in self.run.limits)

    @property
    def walking(self) -> Walking:
        """How far and how fast people walk."""
        kmh = self.walks.kmh if self.walks.speed is None else 3.6 * self.walks.speed
        return Walking(kmh, self.walks.detour, self.walk_limit)

    @property
    def walk_facts(self) -> list[float]:
        """The numbers on which walks depend."""
        return [self.walk_limit, self.walking.kmh, self.walks.detour, self.walks.near]

    @property
    def walk_limit(self) -> int:
        """The longest walk, in seconds."""
        return self.walks.limit or max(1, self.run.walk)


TABLES: dict[str, type[Any]] = {
    name: kind for name, kind in get_type_hints(Study).items() if is_dataclass(kind) and kind is not About
}
NAMES = {"first": "from", "last": "to"}  # fields whose names are words of Python, as the file has them
NEEDED = ("feed", "run")
