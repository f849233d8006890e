import argparse
import contextlib
import importlib
import os
import shlex
from pathlib import Path
from typing import Sequence

from ..core.console import say
from ..core.errors import needs
from ..core.files import output, require_empty
from ..core.limits import MOST_WORKERS
from ..core.question import PERCENTILES
from ..core.ranges import Range
from ..core.shipped import LEAFLET
from ..core.text import quantity, short_number
from ..core.threads import processors
from .options import Parser
from .unused import refuse_near_alone

SUMMARY = "a first matrix from a published feed, with a map and a page, in one command"
HELP = """\
Takes a published feed to a matrix of travel times between all its stops: repairs the feed, writes walks between its
stops, chooses the weekday with the most trips, runs ttm on all processors, and draws a map and a page. It prints each
command that it runs, so that you can run them on your own, one by one and with other options.

The folder --out has feed (the repaired feed, with footpaths.csv), matrix.csv, access.png and page.html. If ttm refuses
the feed or an option, the line says why, as --report does; the repaired feed stays. Needs numpy, pandas, for the map
matplotlib, for the page jinja2 and Leaflet, and with --streets pyosmium and scipy."""

WEEKDAYS = "Monday Tuesday Wednesday Thursday Friday Saturday Sunday".split()
FILES = ("origins", "destinations", "opportunities")


def describe(parser: Parser) -> None:
    parser.add_day("the day", without="a weekday with the most trips")
    parser.add_window("", "08:00", "08:59")
    parser.add_numbers("--share", "the percentiles, ascending, between commas", PERCENTILES.allowed, "50")
    parser.add_cutoffs("the limits of access, ascending, between commas", 0, 10000, "30")
    parser.add_journeys()
    parser.add_days_that_count()
    parser.add_pace()
    parser.add_number("--workers", "the threads of ttm", Range("", 1, MOST_WORKERS), without="all processors")
    parser.add_text("--origins", "FILE", "the stops that have a row, a column stop_id", without="all")
    parser.add_text("--destinations", "FILE", "the stops that have a column of times, a column stop_id", without="all")
    what = "what access counts, columns stop_id and opportunities"
    parser.add_text("--opportunities", "FILE", what, without="the stops")
    parser.add_flag("--no-repair", "refuse a feed with errors", "they are repaired")
    what = "go on even if a repair removes more than a tenth of a file"
    parser.add_flag("--allow-loss", what, "such a loss is an error")
    parser.add_flag("--no-map", "draw no map", "access.png is drawn")
    parser.add_flag("--no-page", "write no page", "page.html is written")
    parser.add_text("--title", "TEXT", "the title of map and page", without="what they show")
    parser.add_text("--out", "FOLDER", "the folder of the results, new or empty", without="the feed's name with -run")
    parser.add_program()
    parser.add_argument("feeds", metavar="FEED", nargs="+", help="a zip file or folder; several are merged")


def folder_named(args: argparse.Namespace) -> str:
    """Return the folder of the results."""
    name = Path(os.path.abspath(args.feeds[0])).name
    return args.out or f"{name.removesuffix('.zip')}-run"


def outputs(args: argparse.Namespace) -> list[str]:
    """The folder that the command writes."""
    return [folder_named(args)]


def run(args: argparse.Namespace) -> None:
    refuse_near_alone(args)
    packages = {"matplotlib": not args.no_map, "jinja2": not args.no_page, "osmium": args.streets}
    needs("numpy", "pandas", "scipy", *(name for name, is_used in packages.items() if is_used))
    from ..engine.arguments import program_at
    from ..web.page.document import leaflet_files

    program_at(args.program)
    if not args.no_page:
        leaflet_files(LEAFLET)
    folder = Path(folder_named(args))
    require_empty(folder)
    folder.mkdir(parents=True, exist_ok=True)
    try:
        prepare(args, folder / "feed")
    except BaseException:
        with contextlib.suppress(OSError):
            folder.rmdir()
        raise
    matrix = compute(args, folder)
    show(args, folder, matrix)
    say(f"{folder}: {', '.join(sorted(path.name for path in folder.iterdir() if path.is_file()))}")


def carry_out(name: str, words: Sequence[str]) -> None:
    """Print another command, and carry it out."""
    say(f"ttm-tools {shlex.join([name, *words])}")
    module = importlib.import_module(f".{name}", __package__)
    parser = Parser(prog=f"ttm-tools {name}")
    module.describe(parser)
    parser.set_defaults(command=name, parser=parser)
    module.run(parser.parse_args(words))


def prepare(args: argparse.Namespace, feed: Path) -> None:
    """Write the feed, and the walks between its stops."""
    flags = {"--repair": not args.no_repair, "--allow-loss": args.allow_loss}
    carry_out("prepare", [*(flag for flag, is_set in flags.items() if is_set), "--out", str(feed), *args.feeds])
    pace = ["--limit", f"{max(1, args.walk):g}", "--kmh", short_number(args.kmh), "--detour", f"{args.detour:g}"]
    streets = ["--streets", args.streets, "--near", f"{args.near:g}"] if args.streets else []
    carry_out("walks", [*pace, *streets, str(feed)])


def compute(args: argparse.Namespace, folder: Path) -> Path:
    """Run `ttm`, and return the matrix."""
    from ..engine.arguments import EngineArguments
    from ..engine.process import EngineProcess
    from ..engine.refusals import warnings_in
    from ..gtfs.feeds import read_folder
    from ..gtfs.service_days import busiest_day

    feed, matrix = folder / "feed", folder / "matrix.csv"
    date = args.date
    if date is None:
        date, trips = busiest_day(read_folder(feed, ()))
        say(f"{date.isoformat()}, a {WEEKDAYS[date.weekday()]}, has the most trips: {quantity(trips, 'trip')}")
    files = {"footpaths": feed / "footpaths.csv"}
    files |= {name: getattr(args, name) for name in FILES if getattr(args, name) is not None}
    arguments = EngineArguments(
        feed,
        date,
        (args.first, args.last),
        args.trips,
        args.walk,
        args.share,
        [round(60 * minutes) for minutes in args.cutoffs],
        workers=args.workers or min(processors(), MOST_WORKERS),
        back=args.back,
        ahead=args.ahead,
        files=files,
        program=args.program,
    )
    command = [*arguments.command(), "--report"]
    say(f"{shlex.join(map(str, command))} > {shlex.quote(str(matrix))}")
    with output(str(matrix)) as file, EngineProcess(command, file) as process:
        report = process.check()
    say(*(f"warning: {line}" for line in warnings_in(report)))
    args.words = shlex.join(map(str, arguments.arguments()))
    return matrix


def show(args: argparse.Namespace, folder: Path, matrix: Path) -> None:
    """Draw the map of access, and write the page."""
    feed = ["--feed", str(folder / "feed")]
    title = ["--title", args.title] if args.title else []
    title += [] if args.opportunities else ["--unit", "stops"]
    if not args.no_map:
        chosen = ["--share", f"{50 if 50 in args.share else args.share[0]:g}", "--cutoff", f"{args.cutoffs[0]:g}"]
        carry_out("map", ["access", *feed, *chosen, *title, "--out", str(folder / "access.png"), str(matrix)])
    if not args.no_page:
        page = ["--words", args.words, "--out", str(folder / "page.html"), str(matrix)]
        carry_out("page", [*feed, *title, *page])
