import argparse
from typing import TYPE_CHECKING

from ..core.console import say
from ..core.errors import InputError, needs
from ..core.files import output
from ..core.limits import LAST_TIME
from ..core.progress import reported
from ..core.times import clock_seconds
from ..views.picture_files import write_picture
from .machine import add_json, give, is_json
from .options import Parser
from .values import WrongValue

if TYPE_CHECKING:
    from ..api.service import Day, Groups

SUMMARY = "the service: departures, headways, speeds, vehicles, hours and kilometres"
HELP = """\
Shows what runs on a service day, by route, direction and period, for the feed as it is and for each scenario file:
departures, the median headway and the greatest gap (minutes, at the stop at which most vehicles of the direction call;
empty for both directions together), first departure, last arrival, kilometres an hour, the maximum number of vehicles
under way at once, vehicle hours and vehicle kilometres (in straight lines from stop to stop). A departure counts in the
period in which it leaves its first stop, with its whole time and distance; trips after midnight belong to the day of
their service. --by chooses what a line stands for: a direction of a route, a route, everything, or a stop with its
departures an hour: of the period, or of 24 hours if it is longer. For a feed of ttm-tools scenarios, its own scenario
files are the default, in the plan's order. A line on standard error compares the totals of each scenario with those of
the first.

--page writes an HTML page like a timetable at a stop: minutes of departure by hour, scenarios side by side. --picture
draws a map on which a wider line has more vehicles an hour; needs matplotlib. docs/reference/measures.md defines each
number. Needs pandas. Memory: some 150 MB, and 300 bytes for each stop time of the day and scenario."""


def times(text: str) -> list[int]:
    """Ascending times of a day, in seconds."""
    found = [clock_seconds(part) if part.count(":") == 1 else None for part in text.split(",")]
    seconds = [number for number in found if number is not None]
    grows = all(low < high for low, high in zip(seconds, seconds[1:]))
    if len(seconds) < max(2, len(found)) or not grows or seconds[-1] > LAST_TIME + 1:
        raise WrongValue(text, "two or more ascending times HH:MM up to 168:00")
    return seconds


def describe(parser: Parser) -> None:
    parser.add_argument("feed", metavar="FEED", help="the folder of an unpacked feed")
    what = "scenario files, each compared with the feed as it is; default: those of the plan"
    parser.add_argument("scenarios", metavar="SCENARIO", nargs="*", help=what)
    parser.add_day("the service day")
    what = "the times at which periods begin and the last one ends: 00:00 to 168:00 between commas"
    parser.add("--periods", what=what, default="00:00,48:00", metavar="TIMES", type=times)
    parser.add_choice("--by", ("direction", "route", "all", "stop"), "what a line stands for", "direction")
    parser.add_text("--page", "FILE", "the file of a page like a timetable, as HTML", without="none is written")
    parser.add_picture("the file of a map of the last scenario in the first period")
    parser.add_out("the file of the table")
    add_json(parser)


def run(args: argparse.Namespace) -> None:
    needs("numpy", "pandas", *(["matplotlib"] if args.picture else []))
    from ..api.service import groups_of, lines_of
    from ..views.service import costs_stated, write_lines, write_stops
    from ..views.service_map import figure_of
    from ..web.service_page import write_page

    found = day_of(args)
    groups = groups_of(found.timetable, "direction" if args.by == "stop" else args.by, list(found.running))
    last = list(found.running)[-1]
    figure = figure_of(found, last, found.periods[0]) if args.picture else None
    if args.out or not is_json(args):
        with output(args.out) as file:
            if args.by == "stop":
                write_stops(file, found)
            else:
                write_lines(file, lines_of(found, groups), groups)
    if is_json(args):
        give(args, rows=rows_of(args, found, groups))
    if args.page:
        with output(args.page) as file:
            own = groups_of(found.timetable, "direction", list(found.running))
            write_page(file, found, own, list(lines_of(found, own)), f"What runs on {args.date}")
    if figure is not None:
        write_picture(args.picture, figure)
    say(*costs_stated(found))


def rows_of(args: argparse.Namespace, day: "Day", groups: "Groups") -> list[dict[str, object]]:
    """The lines of the table, for programs."""
    from ..api.service import lines_of
    from ..core.columns import SERVICE_OF_STOPS, names_of
    from ..views.service import line_values, stop_values

    if args.by == "stop":
        return [dict(zip(names_of(SERVICE_OF_STOPS), values)) for values in stop_values(day)]
    return [line_values(line, groups) for line in lines_of(day, groups)]


def day_of(args: argparse.Namespace) -> "Day":
    """What runs in each scenario: in the feed as it is, unless it is that of a plan, and in each file."""
    from ..gtfs.stops import read_stops
    from ..core.scenarios import BASE, TODAY, scenario_name
    from ..api.service_runs import running_on, straight_lengths
    from ..measures.service import periods_of
    from ..gtfs.timetable import read_edits, read_timetable
    from ..plans.make import files_in_order
    from ..api.service import Day

    files = args.scenarios or files_in_order(args.feed)
    names = [scenario_name(path) for path in files]
    if len(set(names)) < len(names) or BASE in names:
        twice = next(name for place, name in enumerate(names) if name in (BASE, *names[:place]))
        fault = InputError(", ".join(files), "two scenario files have the same name, or one is called base")
        raise fault.noting(file=files[names.index(twice)], value=twice)
    stops = read_stops(args.feed)
    timetable = read_timetable(stops)
    own = stops.of(timetable.stops)
    lengths = straight_lengths(timetable, own.longitudes, own.latitudes)
    files_by_name: dict[str, str | None] = dict(zip(names, files))
    if TODAY not in files_by_name:
        files_by_name = {BASE: None, **files_by_name}
    running = {
        name: running_on(timetable, args.date, read_edits(path), lengths)
        for name, path in reported(files_by_name.items(), len(files_by_name), "scenarios")
    }
    return Day(timetable, running, periods_of(args.periods))
