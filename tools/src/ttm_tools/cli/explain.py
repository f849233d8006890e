import argparse
from typing import TYPE_CHECKING, Iterable, Iterator

from ..core.errors import ArgumentError, InputError, needs
from ..core.files import output
from ..core.question import PERCENTILES
from ..views.picture_files import write_picture
from .machine import add_json, give, is_json
from .options import Parser

if TYPE_CHECKING:
    from ..engine.arguments import EngineArguments
    from ..journeys.found import ExplainOptions, Found

    Explained = tuple[ExplainOptions, list[Found]]

UNUSED = ("within", "workers", "tries", "origins", "opportunities", "destinations")
SUMMARY = "the journey behind a travel time of the matrix, leg by leg, and the durations of all departures"
HELP = """\
Shows the journey behind a travel time of the matrix, leg by leg, with stops, route, trip, times, waits, transfers and
walks. It is the journey of the first departure that has exactly this duration, for the feed as it is and for each
scenario. The durations of all departures follow (minutes and seconds; a star marks the departure of the journey, - one
that never arrives); --picture draws them, minute by minute. With --pairs a table has a line for each pair and scenario:
travel time, departure, its parts in seconds (access, wait, ride, change, walk between rides, egress), the number of
rides, and their routes and trips.

A second search, in Python, finds the journey by the definitions of docs/explanation/definitions.md. This search isn't
proved; ttm runs too (or --matrix has the travel time), and if the travel times differ an error prints both. A time of
24:00:00 or more is on the day after the date. The arguments are those of ttm; scenario files follow the feed directly,
or stand with it at the end. Memory: some 200 MB, and 200 bytes for each stop time of the days that count."""


def describe(parser: Parser) -> None:
    parser.add_argument("feed", metavar="FEED", help="the folder of an unpacked feed")
    what = "scenario files, each compared with the feed as it is"
    parser.add_argument("scenarios", metavar="SCENARIO", nargs="*", help=what)
    for name, what in (("--origin", "where the journey begins"), ("--destination", "where it ends")):
        parser.add_argument(name, metavar="STOP", help=f"the stop {what} (without it, --pairs is needed)")
    what = "a file with the columns origin and destination: write a table of their journeys as CSV"
    parser.add_text("--pairs", "FILE", what, without="one journey is printed leg by leg")
    parser.add_day("the day of the departures")
    parser.add_window()
    parser.add_journeys()
    parser.add_number("--share", "the percentile of the departures", PERCENTILES.allowed, default=50)
    parser.add_days_that_count()
    parser.add_text("--footpaths", "FILE", "walks in addition to those of the feed", without="there are none")
    what = "a matrix that has the travel time, instead of a run of ttm"
    parser.add_text("--matrix", "FILE", what, without="ttm runs")
    parser.add_program()
    parser.add_picture("a picture of the durations by departure; needs matplotlib")
    parser.add_out("the file of the text")
    what = "with --json, the journey of each departure that is the fastest, instead of that of the percentile"
    parser.add_flag("--all-options", what, "one journey for each pair and scenario")
    what = "with --json, a file of OpenStreetMap (.osm.pbf, .osm) along whose ways walks are drawn; needs scipy, osmium"
    parser.add_text("--streets", "FILE", what, without="straight lines")
    add_json(parser)
    for name in UNUSED:
        what = "an option of ttm that changes no journey, and is ignored"
        parser.add_text(f"--{name}", "VALUE", what, without="the same")


def run_of(args: argparse.Namespace) -> "EngineArguments":
    from ..engine.arguments import EngineArguments

    if args.last < args.first:
        fault = ArgumentError("--to is before --from")
        raise fault.noting(column="--to", value=args.last, allowed=f"{args.first} or later")
    files = {} if args.footpaths is None else {"footpaths": args.footpaths}
    how = {"trips": args.trips, "walk": args.walk, "back": args.back, "ahead": args.ahead}
    window = (args.first, args.last)
    return EngineArguments(
        args.feed, args.date, window, shares=[args.share], scenarios=args.scenarios, files=files, **how
    )


def run(args: argparse.Namespace) -> None:
    one = [args.origin, args.destination, args.picture]
    if any(value is not None for value in one) if args.pairs else None in one[:2]:
        fault = ArgumentError("--origin and --destination are needed, or --pairs alone, without --picture")
        raise fault.noting(column="--pairs", value=args.pairs)
    if (args.streets or args.all_options) and not is_json(args):
        raise ArgumentError("--streets and --all-options go with --json").noting(column="--json")
    needs("numpy", "pandas", *(["matplotlib"] if args.picture else []), *(["osmium", "scipy"] if args.streets else []))
    from ..api.explain import all_found
    from ..api.option_checks import checked_options
    from ..views.departures import figure_of
    from ..views.journeys import text_of

    run = run_of(args)
    pairs = pairs_of(args)
    every = all_found(run, args.date, pairs, program=args.program, matrix=args.matrix, all_options=args.all_options)
    if args.all_options and args.matrix is None:
        every = checked_options(run, pairs, every, args.program)
    if is_json(args):
        every = iter(give_journeys(args, every))
    if args.pairs:
        return write_table(args, every)
    ((question, found),) = every
    lines = list(text_of(question, found))
    figure = figure_of(question, found) if args.picture else None
    if args.out or not is_json(args):
        with output(args.out) as file:
            for line in lines:
                file.write(line.encode("utf-8", "backslashreplace") + b"\n")
    if figure is not None:
        write_picture(args.picture, figure)


def pairs_of(args: argparse.Namespace) -> list[tuple[str, str]]:
    """The pairs of an origin and a destination."""
    from ..core.tables import rows

    if not args.pairs:
        return [(args.origin, args.destination)]
    pairs = list(dict.fromkeys((one, other) for _, (one, other) in rows(args.pairs, ["origin", "destination"])))
    if not pairs:
        raise InputError(args.pairs, "no pairs")
    return pairs


def give_journeys(args: argparse.Namespace, every: "Iterator[Explained]") -> "list[Explained]":
    """Sets the journeys as the field of the object, and gives what was found."""
    from ..places.read import read_points
    from ..places.selection import points_in
    from ..streets.osm import read_streets
    from ..views.leg_values import JourneyValues

    found = list(every)
    points = points_in(args.feed)
    places = frozenset(read_points(points).identifiers) if points is not None else frozenset()
    streets = read_streets(args.streets) if args.streets else None
    values = JourneyValues(found[0][0].timetable, found, streets, places)
    give(args, journeys=list(values.journeys()))
    return found


def write_table(args: argparse.Namespace, every: "Iterable[Explained]") -> None:
    """Writes the table of the journeys of many pairs."""
    from ..core.columns import JOURNEYS, names_of
    from ..core.tables import write_rows
    from ..views.itineraries import lines_of

    if args.out or not is_json(args):
        with output(args.out) as file:
            write_rows(file, names_of(JOURNEYS), (line for question, of in every for line in lines_of(question, of)))
