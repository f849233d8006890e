import argparse

from ..core.errors import ArgumentError, needs
from ..core.files import output
from ..core.question import PERCENTILES
from ..views.picture_files import write_picture
from .options import Parser, decimals

SUMMARY = "the number of people in bands of access, or of the time to the nearest opportunities"
HELP = """\
Counts the people in each band of access, from a table of `ttm-tools access` in its long form and the people at each of
its origins. There is a line for each opportunity, percentile, cutoff, group of people, scenario and band: how many
people have at least the number of opportunities at which the band begins, and what percentage of the group they are.
For a table of `ttm-tools access --nearest`, bands are minutes: how many people have the nearest within them.

Groups are the columns of numbers of --people: a file with the column stop_id (or id). --picture draws a bar for each
group and scenario as PNG, for one opportunity, percentile and cutoff; it needs matplotlib. Memory: some 100 MB, and 300
bytes for each line of the table."""


def describe(parser: Parser) -> None:
    parser.add_argument("access", metavar="ACCESS", help="a table of ttm-tools access in its long form")
    parser.add_people()
    what = "where bands begin, ascending: opportunities, or minutes for a table of the nearest"
    parser.add_numbers("--bands", what, decimals("", 0, 1e15), without="an error")
    parser.add_text("--opportunity", "NAME", "the opportunity to count", without="all")
    parser.add_number("--percentile", "the percentile to count", PERCENTILES.allowed, without="all")
    what = "the cutoff to count, or the number of nearest opportunities"
    parser.add_number("--cutoff", what, decimals("", 0, 1e15), without="all")
    parser.add_form()
    parser.add_picture("the file of a picture")
    parser.add_out("the file of the table")


def run(args: argparse.Namespace) -> None:
    if args.bands is None:
        raise ArgumentError("--bands is needed, such as 1000,10000")
    needs("numpy", *(["matplotlib"] if args.picture else []))
    from ..api.access_files import read_access
    from ..api.count_files import read_counts
    from ..views.bands import bands_of, figure_of, write_bands
    from ..views.equity import chosen_kinds

    table = read_access(args.access)
    people = read_counts(args.people, table.origins, f"origin of {args.access}", args.column)
    kinds = chosen_kinds(table, args.opportunity, args.percentile, args.cutoff)
    figure = figure_of(table, kinds, people, args.bands) if args.picture else None
    with output(args.out) as file:
        write_bands(file, table, bands_of(table, kinds, people, args.bands), args.form)
    if figure is not None:
        write_picture(args.picture, figure)
