import argparse
from typing import TYPE_CHECKING

from ..core.console import say
from ..core.errors import ArgumentError, needs
from ..core.folders import scratch
from ..core.limits import MOST_PORT
from ..core.ranges import Range
from ..core.shipped import LEAFLET
from .backgrounds import add_ground, add_tiles, check_tiles
from .options import Parser, decimals

if TYPE_CHECKING:
    from ..web.options import ExploreOptions

SUMMARY = "a page on this machine: click to see travel times, change the network, and compare"
HELP = """\
Serves a page for this machine alone and opens it in the browser: a map of the network that answers at once. Click on a
stop, or search for it, to see travel times and isochrones from there, with sliders for minutes, percentile, window,
trips and walking, and a curve of the opportunities reached by minutes. Choose a destination to see the journey leg by
leg, and its duration by departure. Remove routes, change how often or how fast they run, end them earlier, extend them
or draw a new line: each change is an action of a plan, and the changed network is compared with today. The address
holds the view; the page saves pictures, numbers, and a study that computes all of it.

With --grid the places are cells as well as stops, and walks begin in the middle of a cell, as with ttm-tools points.
With --streets walks go along streets. Such walks take at most --walk; they are computed at the start, and a saved study
has copies of them.

`ttm` keeps the network in memory and answers the page. The page sends requests only to this server, and with --tiles to
the host of the tiles. Only this machine can send requests to it: the address has a token that changes with each start.
Ctrl-C ends it. Only --out is written to. Needs flask, jinja2 and pandas, with Debian's package also libjs-leaflet.
Memory: that of a run of ttm, 100 MB, and 35 bytes for each stop time, journeys and changes included. While a changed
network starts, `ttm` takes its memory twice."""


def describe(parser: Parser) -> None:
    meaning = "the folder of an unpacked feed that ttm accepts; or a study's file, for its feed, day, window, plan and "
    meaning += "files, in place of which options may name others"
    parser.add_argument("feed", metavar="FEED", help=meaning)
    parser.add_day("the day of the departures", without="that of the study")
    parser.add_window(" at the start", "07:30", "08:29")
    parser.add_journeys(" at the start")
    parser.add_days_that_count()
    parser.add_text("--footpaths", "FILE", "walks in addition to those of the feed", without="there are none")
    meaning = "make walks along the streets of a file of OpenStreetMap (.osm.pbf, .osm); needs pyosmium and scipy"
    parser.add_text("--streets", "FILE", meaning, without="--footpaths, or straight lines to cells")
    meaning = "square cells wherever a stop is within a walk, as places to click on; their side"
    parser.add_number("--grid", meaning, decimals("metres", 10, 100000), without="stops alone")
    parser.add_text("--plan", "FILE", "a plan whose scenarios are compared with today", without="there is none")
    meaning = "a file with what each stop has, whose columns are counted"
    parser.add_several("--opportunities", "FILE", meaning, without="stops")
    add_ground(parser)
    add_tiles(parser)
    parser.add_text("--title", "TEXT", "the title of the page", without="the feed's name")
    parser.add_text("--out", "FOLDER", "where studies are saved", default="explored")
    parser.add_number("--port", "the port of the page; 0 takes a free one", Range("", 0, MOST_PORT), default=0)
    parser.add_flag("--no-browser", "print the address alone", "a browser opens it")
    parser.add_program()
    parser.add_text("--leaflet", "FOLDER", "the folder of Leaflet", default=LEAFLET, without="the one of the tools")


def options_of(args: argparse.Namespace) -> "ExploreOptions":
    from datetime import date

    from ..study.explored import options_of_study
    from ..web.options import OF_NO_OPTION, ExploreOptions

    is_study = args.feed.endswith(".toml")
    if not is_study and args.last < args.first:
        raise ArgumentError("--to is before --from")
    if args.date is None and not is_study:
        raise ArgumentError("--date is needed where no study is named")
    names = [name for name in ExploreOptions.__dataclass_fields__ if name not in OF_NO_OPTION]
    known = {name: getattr(args, name) for name in names}
    options = ExploreOptions(window=(args.first, args.last), date=args.date or date.min, **known)
    if not is_study:
        return options
    found, sentences = options_of_study(args.feed, options, args.parser.given())
    if found.window[1] < found.window[0]:
        raise ArgumentError("--to is before --from")
    say(*sentences)
    return found


def run(args: argparse.Namespace) -> None:
    check_tiles(args)
    needs("numpy", "pandas", "jinja2", "flask")
    options = options_of(args)
    from ..web.server import application
    from ..web.session import ExploreSession
    from ..web.guard import Guard
    from ..web.session_inputs import with_generated
    from ..web.memory import give_back_at_once
    from ..web.serving import bound, serve
    from ..web.page.document import leaflet_files

    leaflet_files(options.leaflet)
    give_back_at_once()
    own = bound(args.port)
    guard = Guard(int(own.getsockname()[1]))
    with own, scratch("explore") as room:
        options, sentences = with_generated(options, room)
        say(*sentences)
        session = ExploreSession(options, room)
        try:
            say("The page is at the address below, for this machine alone, until Ctrl-C ends it.")
            print(guard.address, flush=True)
            session.read_ahead()
            opened = None if args.no_browser else guard.write_redirect(room / "explore.html")
            serve(application(session, guard), own, opened)
        finally:
            session.close()
