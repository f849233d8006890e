import argparse
import sys
from dataclasses import replace
from typing import TYPE_CHECKING

from ..core.errors import ArgumentError, InputError, needs
from ..core.files import output
from .options import Parser, opened, scenarios_of
from .unused import refuse_unused

if TYPE_CHECKING:
    from ..matrices import Matrix
    from ..views.long import TableChoice

SUMMARY = "the matrix in long form: a line for each pair, with names and coordinates"
HELP = """\
Turns a matrix from wide to long: a line for each origin and destination. A line has scenario, share (the percentile, if
the matrix names it), origin, destination and seconds: the travel time, empty if too few departures reach the
destination. --feed adds origin_name, origin_lat, origin_lon, destination_name, destination_lat and destination_lon
(degrees). --access writes no destinations: a line has scenario, share, origin, within (the limit in seconds, if the
matrix names it) and access.

--names r5py writes that library's columns: from_id, to_id, and for each percentile a column such as travel_time_p25, or
travel_time for the median alone, in minutes to the nearest hundredth. If --out ends in .parquet it is Parquet (with
pyarrow or fastparquet), otherwise CSV. Spreadsheets show at most 1,048,576 lines; a CSV with more is written, with a
warning. --csvt writes a second file with the type of each column, so that QGIS keeps leading zeros of identifiers;
spreadsheets drop these unless you import the column as text. A spreadsheet reads a name that begins with =, +, - or @
as a formula: --safe writes an apostrophe before it. Rows are converted in blocks, so a matrix may be larger than the
memory. Memory: some 100 MB."""


def describe(parser: Parser) -> None:
    parser.add_text("--feed", "FOLDER", "an unpacked feed, for names and coordinates", without="there are none")
    parser.add_points()
    for ends in ("origins", "destinations"):
        parser.add_text(f"--{ends}", "FILE", f"the {ends} to write, a file with the column stop_id", without="all")
    parser.add_several("--scenario", "NAME", "a scenario to write", without="all")
    parser.add_share(without="all")
    parser.add_within(without="all; goes with --access")
    parser.add_flag("--reached", "leave out the pairs without a travel time", "their seconds are empty")
    parser.add_flag("--access", "write the access of the origins instead of travel times", "travel times")
    what = "the names of the columns (default ttm); r5py's are for one scenario, in minutes"
    parser.add_argument("--names", choices=("ttm", "r5py"), default="ttm", help=what)
    parser.add_flag("--csvt", "also write the types of the columns, to a file that ends in .csvt, for QGIS", "none")
    parser.add_flag("--safe", "write an apostrophe before names that a spreadsheet reads as formulas", "none")
    parser.add_out("the file of the lines: Parquet if it ends in .parquet, otherwise CSV")
    parser.add_matrix()


def run(args: argparse.Namespace) -> None:
    if args.access:
        refuse_unused(args, "does nothing with --access", "reached", "destinations")
    if args.within is not None and not args.access:
        raise ArgumentError("--within goes with --access")
    if args.names == "r5py" and args.access:
        raise ArgumentError("--names r5py goes with travel times, not with --access")
    parquet = args.out is not None and args.out.endswith(".parquet")
    if parquet and args.access:
        raise ArgumentError("--access is written as CSV")
    if args.csvt and (parquet or args.out is None):
        raise ArgumentError("--csvt needs --out, the name of a CSV")
    needs("numpy", *(["pandas"] if parquet else []))
    from ..places.selection import select_points
    from ..views import long

    matrix, stops = select_points(opened(args), args.feed, args.points)
    if args.safe and stops is not None:
        stops = replace(stops, names=list(map(long.safe, stops.names)))
    choice = choice_of(args, matrix)
    if parquet:
        long.write_parquet(args.out, long.frames_of(matrix, choice, stops))
        return
    count = 0
    with output(args.out) as file:
        if args.access:
            long.write_access(file, matrix, choice, args.within, stops)
        else:
            count = long.write_times(file, matrix, choice, stops)
    if args.csvt:
        header = long.access_header(matrix, stops) if args.access else long.header_of(matrix, choice, stops)
        with output(f"{args.out}t") as file:
            decimals = args.access and long.has_decimals(matrix, choice)
            file.write((",".join(f'"{long.type_of(name, decimals)}"' for name in header) + "\n").encode("ascii"))
    if count > long.MOST_LINES:
        sentence = f"{count:,} lines, of which a spreadsheet shows {long.MOST_LINES:,}: choose some with --origins"
        print(f"{args.out or 'standard output'}: {sentence}", file=sys.stderr)


def choice_of(args: argparse.Namespace, matrix: "Matrix") -> "TableChoice":
    """What is taken of the matrix."""
    from ..gtfs.stops import read_list
    from ..views.long import TableChoice

    named = scenarios_of(matrix, args.scenario)
    scenarios = [name for name in matrix.scenarios if name in named]
    if args.names == "r5py" and len(scenarios) > 1:
        there = ", ".join(scenarios)
        raise InputError(
            args.matrix, f"r5py's columns name no scenario, and it has {there}: choose one with --scenario"
        )
    shares = matrix.shares if args.share is None else [matrix.share(args.share)]
    known = [name for scenario in matrix.scenarios for name in matrix.origins(scenario, shares[0])]
    origins = read_list(args.origins, known, "origin") if args.origins else None
    destinations = read_list(args.destinations, matrix.stops, "stop") if args.destinations else matrix.stops
    return TableChoice(scenarios, shares, origins, destinations, args.reached, args.names == "r5py")
