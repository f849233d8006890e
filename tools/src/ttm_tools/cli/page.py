import argparse

from ..core.errors import ArgumentError, needs
from ..core.files import output
from ..core.limits import MOST_NUMBER
from ..core.shipped import LEAFLET
from ..core.ranges import Range
from .backgrounds import add_ground, add_tiles, check_tiles
from .options import Parser, decimals, opened, scenarios_of
from .unused import refuse_near_alone

SUMMARY = "one HTML file to send, with travel times and access to explore in a browser"
HELP = """\
Writes a matrix as one HTML file that you can send by mail and open with a double click: any current browser shows it
without a network. It has a map of the stops, coloured by travel time from the stop that you click on; a slider that
counts what is reached within given minutes; the access of every origin with a histogram; the change of both between
scenarios, with a table of the ten greatest losses; with --nearest the time to the nearest opportunities; and the areas
reached (isochrones), with walks from stops as the crow flies, or with --streets along the ways of a file of
OpenStreetMap, of up to 600,000 nodes. It also has a search by name, a legend, and its sources, and works by keyboard,
on a phone, and on paper.

Travel times are in whole minutes, rounded up. The page has all travel times of a matrix of up to 60 million; of a
larger one it has those from the stops of --origins, or from as many drawn at random as there is room for, and access
from all. If the feed has points, only these are shown: as squares if their file has a width, as areas if it has areas.
--edits draws what a scenario's file removes from the base, and adds to it if the base has a file, too; for a feed of
ttm-tools scenarios, its own files are the default.

Needs jinja2, pandas, and with --streets scipy and osmium. Leaflet comes with the tools, or with libjs-leaflet if they
are Debian's; the page contains it with its licence. The same arguments and files give the same bytes. Memory: some 200
MB, a byte for each cell of the page, and 110 bytes for each stop time of the feed."""

OPTION_NAMES = {"scenarios": "scenario", "arguments": "words"}  # of fields, where they differ


def describe(parser: Parser) -> None:
    parser.add_feed_of_matrix()
    parser.add_points()
    what = "a scenario file, named as its scenario, whose lines to draw"
    parser.add_several("--edits", "FILE", what, without="none")
    what = "a file with what each stop has, as for access, whose columns the page counts"
    parser.add_several("--opportunities", "FILE", what, without="it counts stops alone")
    what = "a file with the number of people at each stop, as for equity, whom the page counts, too"
    parser.add_several("--people", "FILE", what, without="none")
    parser.add_several("--scenario", "NAME", "a scenario to show in addition to the base", without="all")
    parser.add_base()
    parser.add_share(without="all")
    parser.add_cutoffs("the limits of access", 1, 250, "15,30,45,60")
    what = "the numbers of nearest opportunities to look for, between commas; needs --opportunities"
    parser.add_numbers("--nearest", what, decimals("", 1e-9, 1e15), without="none")
    parser.add_walking(", in areas", " there", " in areas")
    what = "a file with the column stop_id: the stops from which the page has travel times"
    parser.add_text("--origins", "FILE", what, without="all that there is room for")
    what = "the seed of the draw, if not all stops fit"
    parser.add_number("--seed", what, Range("", 0, MOST_NUMBER), default=1)
    parser.add_text("--unit", "WORD", "what the matrix counts as access, such as jobs", default="opportunities")
    parser.add_text("--title", "TEXT", "the title of the page", without="the feed's name")
    parser.add_text("--note", "TEXT", "what else a reader needs to know", without="nothing")
    what = "the arguments of the run of ttm, between quotes, with its date and departures"
    parser.add_text("--words", "TEXT", what, without="the page names neither")
    add_ground(parser)
    add_tiles(parser)
    parser.add_text("--leaflet", "FOLDER", "the folder of Leaflet", default=LEAFLET, without="the one of the tools")
    parser.add_out("the file of the page", "", "page.html")
    parser.add_matrix()


def run(args: argparse.Namespace) -> None:
    refuse_near_alone(args)
    check_tiles(args)
    args.nearest = args.nearest or []
    if args.nearest and not args.opportunities:
        raise ArgumentError("--nearest needs --opportunities")
    needs("numpy", "pandas", "jinja2", *(["osmium", "scipy"] if args.streets else []))
    from ..core.walking import Walking
    from ..web.page.document import leaflet_files
    from ..web.page.make import page_of, tell
    from ..web.page.settings import PageSettings

    leaflet_files(args.leaflet)
    matrix = opened(args)
    names = PageSettings.__dataclass_fields__.keys() - {"within", "walking"}
    own = {name: getattr(args, OPTION_NAMES.get(name, name)) for name in names}
    settings = PageSettings(**own, walking=Walking(args.kmh, args.detour, args.walk))
    scenarios_of(matrix, args.scenario)  # says which of them is left out
    page = page_of(matrix, settings)
    with output(args.out) as file:
        page.write(file)
    tell(args.out, page)
