"""How options are described: each with its meaning, its unit, its range, and its default."""

import argparse
import datetime
import functools
import os
import sys
from typing import TYPE_CHECKING, Any, Callable, Iterable, Sequence

from ..core.console import say
from ..core.errors import ArgumentError, InputError
from ..core.limits import MOST_NUMBER
from ..core.notices import Notice
from ..core.question import DAYS_AFTER, DAYS_BEFORE, MAX_RIDES, MAX_WALK, PERCENTILES, Setting, WALKING, WAY
from ..core.ranges import NotInRange, Range
from ..core.text import first_few
from ..core.times import DATES_ALLOWED, day_of, is_minute
from ..views.picture_files import picture_name
from .values import WrongValue

if TYPE_CHECKING:
    from ..core.arrays import Floats
    from ..gtfs.stops import Stops
    from ..matrices import Matrix
    from ..core.walking import Walking
    from ..views.isochrones import StopGeometry


decimals = functools.partial(Range, whole=False)


def metavar_of(allowed: Range) -> str:
    """Return what stands for a value in help texts."""
    return allowed.unit.upper() if allowed.unit.isalpha() else "N"


def reader_of(read: Callable[[str], Any]) -> Callable[[str], Any]:
    """Return a reader of values whose messages argparse prints."""

    def read_value(text: str) -> Any:
        try:
            return read(text)
        except NotInRange as error:
            raise WrongValue(error.value, error.allowed) from None
        except ValueError as error:
            raise argparse.ArgumentTypeError(str(error)) from None

    return read_value


def day(text: str) -> datetime.date:
    """A day, as `ttm` writes it or as ISO 8601 does."""
    try:
        return day_of(text)
    except ValueError:
        raise WrongValue(text, f"a date, {DATES_ALLOWED}") from None


def clock(text: str) -> str:
    """A minute of the day."""
    if not is_minute(text):
        raise WrongValue(text, "00:00 to 23:59")
    return text


class Parser(argparse.ArgumentParser):
    """The options of a command. `without` says what happens where one isn't given and has no default; an option with
    neither is needed.
    """

    words: Sequence[str] = ()  # what the command was called with

    def parse_known_args(self, args: Any = None, namespace: Any = None) -> Any:
        self.words = list(sys.argv[1:] if args is None else args)
        return super().parse_known_args(args, namespace)

    def given(self) -> set[str]:
        """The options that the words name, by the attributes of their values; names may be cut short."""
        named = {word.partition("=")[0] for word in self.words if word.startswith("--")}
        options = {option: action.dest for action in self._actions for option in action.option_strings}
        ends = {word for word in named if word not in options}
        short = {dest for option, dest in options.items() if any(option.startswith(word) for word in ends)}
        return short | {options[word] for word in named if word in options}

    def add(self, *names: str, what: str, default: object = None, without: str = "", **how: Any) -> None:
        """An option whose help ends with what holds where it isn't given."""
        missing = f"without it, {without}" if without else "needed" if default is None else f"default {default}"
        is_needed = missing == "needed"
        self.add_argument(*names, default=default, required=is_needed, help=f"{what} ({missing})", **how)

    def add_number(self, name: str, what: str, allowed: Range, default: float | None = None, without: str = "") -> None:
        how: dict[str, Any] = {"type": reader_of(allowed.read), "metavar": metavar_of(allowed)}
        self.add(name, what=f"{what}: {allowed}", default=default, without=without, **how)

    def add_setting(self, setting: Setting, what: str) -> None:
        """An option for a setting of a question, with its name, range and default."""
        self.add_number(f"--{setting.option}", what, setting.allowed, setting.default)

    def add_numbers(self, name: str, what: str, allowed: Range, default: str | None = None, without: str = "") -> None:
        """An option with numbers between commas."""
        how: dict[str, Any] = {"type": reader_of(allowed.read_several), "metavar": "N,N.."}
        self.add(name, what=f"{what}: {allowed}", default=default, without=without, **how)

    def add_text(self, name: str, metavar: str, what: str, default: str | None = None, without: str = "") -> None:
        """An option with a text, such as a path or a name."""
        self.add(name, what=what, default=default, without=without, metavar=metavar)

    def add_several(self, name: str, metavar: str, what: str, without: str = "") -> None:
        """An option that may be given more than once."""
        how: dict[str, Any] = {"default": [] if without else None, "metavar": metavar, "action": "append"}
        self.add(name, what=f"{what}; may be given more than once", without=without, **how)

    def add_flag(self, name: str, what: str, without: str) -> None:
        self.add(name, what=what, default=False, without=without, action="store_true")

    def add_choice(
        self, name: str, choices: Iterable[str], what: str, default: str | None = None, without: str = ""
    ) -> None:
        self.add(name, what=what, default=default, without=without, choices=tuple(choices))

    def add_form(self) -> None:
        self.add_choice("--form", ("csv", "markdown"), "the format of the table", "csv")

    def add_day(self, what: str, without: str = "") -> None:
        what = f"{what}, YYYYMMDD or YYYY-MM-DD, of the years 1 to 9999"
        self.add("--date", what=what, without=without, metavar="DATE", type=day)

    def add_window(self, at: str = "", first: str | None = None, last: str | None = None) -> None:
        """The first and the last departure."""
        for name, end, default in (("--from", "first", first), ("--to", "last", last)):
            what = f"the {end} departure{at}, one each minute, 00:00 to 23:59"
            self.add(name, what=what, default=default, dest=end, metavar="HH:MM", type=clock)

    def add_journeys(self, at: str = "") -> None:
        """How many vehicles a journey has, and how far one walks."""
        self.add_setting(MAX_RIDES, f"the maximum number of vehicles of a journey{at}")
        self.add_setting(MAX_WALK, f"the longest walk{at}")

    def add_days_that_count(self) -> None:
        for setting, where in ((DAYS_BEFORE, "before"), (DAYS_AFTER, "after")):
            self.add_setting(setting, f"service days {where} the date that count")

    def add_program(self) -> None:
        without = "TTM_PROGRAM, else the one on the PATH, else the one built here"
        self.add_text("--program", "PATH", "the program ttm", without=without)

    def add_matrix(self) -> None:
        what = "a matrix as ttm prints it, or an Open Matrix file of ttm-tools omx"
        self.add_argument("matrix", metavar="MATRIX", help=what)
        what = "the greatest travel time: a pair that takes longer counts as not reached"
        self.add_number("--max-minutes", what, decimals("minutes", 0, 10000), without="each counts")

    def add_share(self, without: str = "the only one") -> None:
        what = "the percentile: a travel time that at least this percentage of departures achieves"
        self.add_number("--share", what, PERCENTILES.allowed, without=without)

    def add_within(self, without: str = "the only one") -> None:
        """The limit of access, in minutes as all tools have it, or in seconds as `ttm` has it."""
        minutes, what = (
            decimals("minutes", 0, MOST_NUMBER // 60),
            f"the limit of access: 0 to {MOST_NUMBER // 60:,} minutes",
        )
        how: dict[str, Any] = {"type": reader_of(lambda text: round(60 * minutes.read(text))), "metavar": "MINUTES"}
        self.add("--cutoff", "--cutoffs", what=what, without=without, dest="within", **how)
        self.add_number(
            "--within", "the same in seconds, as for ttm", Range("seconds", 0, MOST_NUMBER), without=without
        )

    def add_cutoffs(self, what: str, least: float, most: float, default: str) -> None:
        """Limits of access, in minutes as all tools have them, or in seconds as `ttm` has them."""
        minutes, seconds = decimals("minutes", least, most), decimals("seconds", 60 * least, 60 * most)
        how: dict[str, Any] = {"type": reader_of(minutes.read_several), "metavar": "N,N.."}
        self.add("--cutoffs", "--cutoff", what=f"{what}: {minutes}", default=default, **how)
        how["type"] = reader_of(lambda text: [second / 60 for second in seconds.read_several(text)])
        what, default = f"the same in seconds, as for ttm: {seconds}", argparse.SUPPRESS
        self.add("--within", what=what, default=default, without="--cutoffs", dest="cutoffs", **how)

    def add_base(self) -> None:
        about = "the scenario to compare with, or another file of the same kind, whose base to compare with"
        self.add_text("--base", "NAME|FILE", about, without="base, or today for a plan")
        self.add_base_scenario()

    def add_base_scenario(self) -> None:
        what = "the scenario of the file that --base names"
        self.add_text("--base-scenario", "NAME", what, without="its base, or today")

    def add_feed_of_matrix(self) -> None:
        self.add_text("--feed", "FOLDER", "the unpacked feed of the matrix")

    def add_out(
        self, what: str, without: str = "standard output", default: str | None = None, kind: Callable[[str], str] = str
    ) -> None:
        what = f"{what}, which appears only when it is complete"
        self.add("--out", what=what, default=default, without=without, metavar="FILE", type=kind)
        self.add_force()

    def add_picture(self, what: str) -> None:
        what = f"{what}, as PNG, or as SVG or PDF if its name ends so"
        self.add("--picture", what=what, without="none is drawn", metavar="FILE", type=picture_name)

    def add_force(self) -> None:
        what = "replace files even if this command did not write them, or they were changed since"
        self.add_flag("--force", what, "such files are an error")

    def add_points(self, without: str = "") -> None:
        what = "a file of points (id, lat, lon, name, width): the command shows only those of the matrix"
        feed = "points.csv in the feed's folder, as ttm-tools points writes it, else all stops"
        self.add_text("--points", "FILE", what, without=without or feed)

    def add_pace(self) -> None:
        """How one walks between stops."""
        what = "walk along the streets of a file of OpenStreetMap (.osm.pbf, .osm); needs pyosmium and scipy"
        self.add_ways("", what, "straight lines")
        what = "with --streets, the greatest distance of a street that counts as near"
        self.add_number("--near", what, decimals("metres", 0, 100000), 100)

    def add_walking(self, of: str = "", there: str = "", along: str = "") -> None:
        """How one walks on from a stop in areas; the texts name the picture."""
        self.add_setting(MAX_WALK, f"the longest walk on from a stop{of}")
        self.add_ways(there, f"a file of OpenStreetMap, along whose ways walks go{along}", "circles")
        self.add_number("--near", "the greatest distance of a stop from a way", decimals("metres", 0, 10000), 100)

    def add_ways(self, there: str, streets: str, without: str) -> None:
        self.add_setting(WALKING, f"the walking speed{there}")
        speed = decimals("m/s", 0.01, 100)
        how: dict[str, Any] = {"type": reader_of(lambda text: 3.6 * speed.read(text)), "metavar": metavar_of(speed)}
        what = f"the same in metres a second: {speed}"
        self.add("--speed", what=what, default=argparse.SUPPRESS, without="--kmh", dest="kmh", **how)
        self.add_setting(WAY, "length of a walk, as a multiple of the straight line")
        self.add_text("--streets", "FILE", streets, without=without)

    def add_people(self) -> None:
        """The files with how many people are at each origin, and which of their columns count."""
        self.add_several("--people", "FILE", "a file with the number of people at each origin")
        self.add_several("--column", "NAME", "a group of people, a column of these files", without="all")


def opened(args: argparse.Namespace) -> "Matrix":
    """The matrix that a command names, with the greatest travel time that it names, and compared with the base of
    another file where --base names one.
    """
    from ..matrices import JoinedMatrix, capped, open_matrix

    own, base = capped(open_matrix(args.matrix), args.max_minutes), getattr(args, "base", None)
    if base is None or not is_file_of_base(base, own.scenarios):
        if getattr(args, "base_scenario", None) is not None:
            raise ArgumentError("--base-scenario goes with a file as --base")
        return own
    matrix = JoinedMatrix(own, capped(open_matrix(base), args.max_minutes), args.base_scenario)
    args.base = None  # what is compared with is the base of the whole
    say(*matrix.sentences())
    return matrix


def is_file_of_base(base: str, scenarios: Sequence[str]) -> bool:
    """Whether a base is a file, and no scenario of the matrix or table."""
    return base not in scenarios and os.path.isfile(base)


def column_of(
    path: str, stops: Sequence[str], column: str | None, hint: str, kind: str = "stop of the matrix"
) -> "tuple[str, Floats]":
    """The numbers of a file for some stops, by the column that is named, or the only one."""
    from ..api.count_files import read_counts

    counts = read_counts([path], stops, kind, [column] if column else [])
    if len(counts.names) > 1:
        raise InputError(path, f"it has the columns {first_few(counts.names)}: {hint}")
    return counts.names[0], counts.numbers[:, 0]


def ground_of(args: argparse.Namespace, stops: "Stops") -> "tuple[StopGeometry, Walking]":
    """Where stops or points lie, and how one walks on from them."""
    from ..places.selection import points_in
    from ..core.walking import Walking
    from ..views.isochrones import ground_on_foot

    walking = Walking(args.kmh, args.detour, args.walk)
    points = args.points or points_in(args.feed)
    return ground_on_foot(stops, points, walking, args.streets, args.near), walking


def gis_kind(path: str) -> str:
    """The kind of a file for a GIS, by the end of its name."""
    kind = path.rsplit(".", 1)[-1].lower()
    if kind not in ("geojson", "json", "gpkg"):
        raise ArgumentError("--out ends in .geojson, .json or .gpkg")
    return kind


def scenarios_of(matrix: "Matrix", named: Sequence[str]) -> list[str]:
    """The named scenarios, or all that are compared, with a note on one that is left out."""
    if not named and matrix.left_out:
        say(Notice(matrix.left_out, "scenario"))
    return [matrix.scenario(name) for name in named or matrix.compared]
