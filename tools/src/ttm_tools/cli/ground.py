import argparse

from ..core.console import say
from ..core.errors import needs
from ..core.files import output
from ..core.ranges import Range
from .options import Parser
from .unused import refuse_unused

SUMMARY = "water, parks, railways, streets and names for maps, from an extract of OpenStreetMap"
HELP = """\
Writes the ground of maps from an extract of OpenStreetMap (.osm.pbf, .osm): water, parks and woods, railways, streets
in three ranks, and the names of places, stations, parks and waters. page, explore and map draw it with --ground, and
without a network. --feed clips the ground to the stops of a feed and --margin around them; without it the whole extract
is read.

Points are left out where a line moves by less than 3 metres, and so are areas too small to see, tunnels, sidings,
footways, tracks and service roads. A page has room for 1.5 MB: if more is left, the shortest minor streets are dropped,
then the shortest streets of the middle rank, and the command says how many. The sea is drawn as land, since an extract
has only its coastline. The same extract gives the same bytes. Needs osmium. Memory: some 100 MB, and 100 bytes for each
node of the extract."""


def describe(parser: Parser) -> None:
    parser.add_argument("extract", metavar="EXTRACT", help="a file of OpenStreetMap, .osm.pbf or .osm")
    parser.add_text(
        "--feed", "FOLDER", "an unpacked feed, around whose stops the ground is clipped", without="all of it"
    )
    what = "with --feed, how far around the stops"
    parser.add_number("--margin", what, Range("metres", 0, 100_000), 3000)
    parser.add_out("the file of the ground", "", "ground.bin")


def outputs(args: argparse.Namespace) -> list[str]:
    """The file that the command writes."""
    return [args.out]


def refuse_unused_margin(args: argparse.Namespace) -> None:
    if not args.feed:
        refuse_unused(args, "goes with --feed", "margin")


def run(args: argparse.Namespace) -> None:
    needs("numpy", "osmium")
    from ..gtfs.stops import read_stops
    from ..ground.extract import WORLD, read_ground
    from ..ground.fitting import fitted
    from ..ground.packing import FORM
    from ..ground.summary import box_around, dropped_stated, summary

    refuse_unused_margin(args)
    box = box_around(read_stops(args.feed), args.margin) if args.feed else WORLD
    found = fitted(read_ground(args.extract, box))
    with output(args.out) as file:
        file.write(FORM + found.data)
    say(f"{args.out}: {summary(found)}", *dropped_stated(found))
