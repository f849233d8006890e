import argparse

from ..core.console import say
from ..core.errors import needs
from ..core.text import quantity
from ..core.ranges import Range
from .options import Parser

SUMMARY = "the origins of a study, cut into parts"
HELP = """\
Cuts the origins of a study into parts, one for each process, processor or machine. With --feed the origins are all
stops of the feed. The files part_0001.csv .. have the origins in their order, in a column stop_id; sizes differ by one
at most, and there are no more parts than origins. origins.csv has all origins, for ttm-tools join."""


def describe(parser: Parser) -> None:
    whole = parser.add_mutually_exclusive_group(required=True)
    what = "the origins, a file with the column stop_id (this or --feed is needed)"
    whole.add_argument("--origins", metavar="FILE", help=what)
    what = "an unpacked feed, whose stops are the origins (this or --origins is needed)"
    whole.add_argument("--feed", metavar="FOLDER", help=what)
    parser.add_number("--parts", "the number of parts", Range("parts", 1, 9999), without="1 part")
    parser.add_text("--out", "FOLDER", "the folder of the parts", default=".")
    parser.add_force()


def run(args: argparse.Namespace) -> None:
    needs("numpy")
    from ..core.stop_lists import origins_in
    from ..gtfs.stops import origins_of_feed
    from ..matrices.parts import write_parts

    origins = origins_in(args.origins) if args.origins else origins_of_feed(args.feed)
    parts = write_parts(origins, args.parts or 1, args.out)
    say(f"{quantity(len(origins), 'origin')} in {quantity(parts, 'part')}")
