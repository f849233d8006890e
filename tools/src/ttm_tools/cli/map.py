import argparse
import math

from ..core.errors import ArgumentError, needs
from ..views.picture_files import picture_name, write_picture
from ..core.ranges import Range
from .backgrounds import add_ground
from .options import Parser, column_of, decimals, ground_of, opened
from .unused import WALKING, refuse_near_alone, refuse_unused

SUMMARY = "a map of travel times, of access, or of the difference between scenarios"
HELP = """\
Draws a map of a matrix as PNG: travel times from an origin (times), access of all origins (access), or who loses and
who gains in a scenario compared with the base (difference), by the access of each origin, or with --origin by the
travel time to each stop. A stop that is no longer reached, and an origin that loses all access, are in a class of their
own, cut off; a stop that was not reached before, and an origin that had no access, are in another, new. With nearest,
each origin shows the travel time within which --nearest opportunities are reached; with --nearest, a difference shows
how that time changes. With isochrones, the map shows the areas reached from --origin within the minutes of --breaks,
and their square kilometres: cells as a whole, and the walks from stops, as the crow flies or along --streets.

If the matrix has points, only these are drawn: as squares if the file of points has a width, as areas if it has areas.
Stops are drawn at their place in stops.txt, over the lines of shapes.txt, or over straight lines from stop to stop if
there is no such file. --edits draws the lines of the trips that a scenario file removes in black. For a difference from
a base that has a scenario file itself, name both files: the trips that only the scenario has are drawn as added. For a
feed of ttm-tools scenarios, its own scenario files are the default: new lines are drawn as added, and lines with other
trips as changed. Needs matplotlib. Memory: some 150 MB, and 110 bytes for each stop time of the feed."""


def breaks_of(text: str) -> tuple[float, ...]:
    """Ascending numbers between commas."""
    try:
        numbers = [float(part) for part in text.split(",")]
    except ValueError:
        numbers = [math.nan]
    grows = all(low < high for low, high in zip(numbers, numbers[1:]))
    if not (numbers[0] > 0 and grows and math.isfinite(numbers[-1])):
        raise argparse.ArgumentTypeError(f"{text!r} is not ascending numbers above 0, between commas")
    return tuple(int(number) if number.is_integer() else number for number in numbers)


def describe(parser: Parser) -> None:
    pictures = ("times", "access", "nearest", "isochrones", "difference")
    parser.add_argument("picture", choices=pictures, help="what the map shows")
    parser.add_matrix()
    parser.add_feed_of_matrix()
    parser.add_points()
    parser.add_text("--origin", "STOP", "the origin of the journeys", without="access; times and isochrones need it")
    missing = "the base; in a difference the only other one"
    parser.add_text("--scenario", "NAME", "the scenario to draw", without=missing)
    parser.add_base()
    what = "a file with what each stop has, for nearest: a column stop_id (or id), and columns of numbers"
    parser.add_text("--opportunities", "FILE", what, without="an error for nearest")
    parser.add_text("--column", "NAME", "the column of this file to look for", without="the only one")
    what = "the number of these opportunities to reach"
    without = "1; in a difference, access is compared"
    parser.add_number("--nearest", what, decimals("", 1e-9, 1e15), without=without)
    parser.add_share()
    parser.add_within()
    what = "a scenario file, named as its scenario, whose trips to draw"
    parser.add_several("--edits", "FILE", what, without="none")
    parser.add_walking(", in isochrones", " there")
    add_ground(parser)
    parser.add_text("--unit", "WORD", "what access counts, such as jobs", default="opportunities")
    what = "where classes begin, ascending numbers above 0 between commas: minutes, access, or percent"
    default = "default 10,20,30,45,60,90 minutes, for isochrones 15,30,45,60, for a difference 2,5,15 minutes or "
    default += "2,10,25 %%, for access round numbers"
    parser.add_argument("--breaks", metavar="N,N..", type=breaks_of, help=f"{what} ({default})")
    parser.add_text("--title", "TEXT", "the title of the map", without="what it shows")
    parser.add_text("--note", "TEXT", "what else a reader needs to know", without="nothing")
    parser.add_number("--width", "the width of the picture", Range("pixels", 300, 10000), default=1350)
    parser.add_out("the file of the picture, PNG, or SVG or PDF if its name ends so", "", "map.png", picture_name)


def outputs(args: argparse.Namespace) -> list[str]:
    """The file that the command writes; its argument `picture` is the kind of map."""
    return [args.out]


def refuse_unused_of(args: argparse.Namespace, of_nearest: bool) -> None:
    """Refuses options that do nothing in the kind of map."""
    if args.picture == "access":
        refuse_unused(args, "does nothing in a map of access", "origin")
    if args.picture != "access" and (args.picture != "difference" or of_nearest or args.origin is not None):
        refuse_unused(args, "does nothing in a map of travel times", "within")
    if not of_nearest:
        refuse_unused(args, "goes with nearest, or with --nearest", "opportunities", "column")
    if args.picture != "isochrones":
        refuse_unused(args, "goes with isochrones", *WALKING)
    refuse_near_alone(args)


def run(args: argparse.Namespace) -> None:
    if args.picture in ("times", "isochrones") and args.origin is None:
        raise ArgumentError(f"{args.picture} needs --origin")
    of_nearest = args.picture == "nearest" or args.nearest is not None
    if of_nearest and (
        args.picture in ("times", "access", "isochrones") or args.opportunities is None or args.origin is not None
    ):
        raise ArgumentError("--nearest goes with nearest or difference, needs --opportunities, and takes no --origin")
    refuse_unused_of(args, of_nearest)
    shapes = ["shapely", *(["osmium", "scipy"] if args.streets else [])] if args.picture == "isochrones" else []
    needs("numpy", "pandas", "matplotlib", *shapes)
    from ..ground.packing import read_ground_file
    from ..places.selection import select_points
    from ..views.lines import planned_of
    from ..views.maps import Areas, Sheet, figure_of, figure_of_isochrones, picture_of
    from ..views.nearest import Nearest
    from ..views.map_content import PictureOptions

    whole = opened(args)
    matrix, stops = select_points(whole, args.feed, args.points)
    assert stops is not None
    there = stops.of(matrix.stops)
    what = "stops" if matrix is whole else "points"
    base, loses = args.base or matrix.base, args.picture == "difference"
    options = PictureOptions(args.scenario, base, args.share, args.within, args.breaks, args.unit, what)
    scenario = args.scenario or (matrix.other(base, None) if loses else base)
    planned = planned_of(args.feed, args.edits, base, scenario, loses)
    ground = read_ground_file(args.ground) if args.ground else None
    sheet = Sheet(args.title, args.note or "", args.width, args.edits, planned, ground)
    if args.picture == "isochrones":
        areas = Areas(args.origin, options, *ground_of(args, there))
        figure = figure_of_isochrones(matrix, stops, args.feed, sheet, areas)
    else:
        sought = None
        if of_nearest:
            column = column_of(args.opportunities, matrix.stops, args.column, "choose one with --column")
            sought = Nearest(*column, args.nearest or 1.0)
        picture = picture_of(args.picture, matrix, stops, args.origin, options, sought)
        figure = figure_of(picture, matrix, stops, args.feed, sheet, base if loses else None)
    write_picture(args.out, figure)
