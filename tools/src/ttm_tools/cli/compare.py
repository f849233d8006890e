import argparse

from ..core.console import say
from ..core.errors import ArgumentError, InputError, needs
from ..core.files import output
from ..core.limits import MOST_NUMBER
from ..core.ranges import Range
from .options import Parser, opened
from .unused import refuse_unused

SUMMARY = "who loses and who gains between two scenarios"
HELP = """\
Lists who loses and who gains between two scenarios of a matrix: a table of pairs, or of origins.

By pair, a line for each origin and destination whose travel time differs from the base's by more than the limit:
origin, destination, what (cut off, slower, new or faster), before and after in seconds, and change, which is after
minus before. `cut off` is reached only in the base, `new` only in the scenario; these have no change, and count
whatever the limit is. Losers come first: those cut off, then the slower. Winners follow: the new, then the faster. Each
group is sorted by the size of the change, the greatest first.

By origin, a line for each origin that has such a pair or whose access differs: access_before, access_after, change,
percent (of access_before), and to how many destinations it is cut_off, slower, new and faster. Losers of access come
first, then winners, both sorted by the size of the change; then origins whose access is the same.

Travel times and access have separate thresholds: --limit for the seconds by which a pair differs, --least for the
change of access. Access can change if a travel time crossed its limit by less than --limit; --listed times leaves out
an origin for which nothing else differs. --sort and --top write the greatest changes alone.

If one scenario lacks origins that the other has, as in a truncated matrix, a line names them, and the exit status is 1
unless --partial is given. A summary goes to standard error. Memory: by origin some 100 MB, by pair 60 bytes more for
each pair that differs."""


def describe(parser: Parser) -> None:
    parser.add_choice("--by", ("pair", "origin"), "what a line of the table is", "pair")
    what = "travel times that differ by more than this count as slower or faster"
    parser.add_number("--limit", what, Range("seconds", 0, 604800), default=60)
    what = "access that differs by this or more counts as lost or gained"
    parser.add_number("--least", what, Range("opportunities", 1, MOST_NUMBER), without="any change")
    what = "why an origin is listed: a pair that differs, its access, or either"
    parser.add_choice("--listed", ("both", "times", "access"), what, "both")
    what = "how lines are sorted: the greatest loss or gain first, or by percent"
    parser.add_choice("--sort", ("loss", "gain", "relative"), what, without="losers, then winners")
    parser.add_number("--top", "the maximum number of lines of the table", Range("lines", 1, 10**9), without="all")
    parser.add_base()
    parser.add_text("--scenario", "NAME", "the scenario that is compared with the base", without="the only other one")
    parser.add_share()
    parser.add_within()
    parser.add_text("--feed", "FOLDER", "an unpacked feed, for the names of stops", without="there are no names")
    parser.add_points()
    parser.add_flag("--partial", "if one scenario lacks origins, compare the others", "that is an error")
    parser.add_out("the file of the table")
    parser.add_matrix()


def run(args: argparse.Namespace) -> None:
    if args.by == "pair" and (args.least is not None or args.listed != "both"):
        raise ArgumentError("--least and --listed go with --by origin")
    if args.by == "pair":
        refuse_unused(args, "goes with --by origin", "within")
    needs("numpy")
    from ..matrices import pair_of
    from ..measures.comparison import compare
    from ..places.selection import select_points
    from ..views.differences import OriginChoice, summary, write_origins, write_pairs

    (matrix, stops), by_pair = select_points(opened(args), args.feed, args.points), args.by == "pair"
    place = None if by_pair else matrix.limit(args.within)[0]
    pair = pair_of(matrix, args.base, args.scenario, args.share)
    if pair.lacking and not args.partial:
        raise InputError(args.matrix, f"{pair.lacking} (--partial compares the others)")
    choice = OriginChoice(args.sort, args.top, args.listed, args.least)
    comparison = compare(pair.blocks(), args.limit, with_pairs=by_pair)
    with output(args.out) as file:
        if place is None:
            write_pairs(file, pair, comparison.changes, stops, choice)
        else:
            write_origins(file, pair, place, comparison, stops, choice)
    sentences = summary(pair, comparison, args.limit, place, args.least)
    say(*([f"{pair.lacking}: left out"] if pair.lacking else []), *sentences)
