import argparse
import os
from typing import TYPE_CHECKING

from ..core.console import say
from ..core.errors import ArgumentError, needs
from ..core.files import output
from ..core.question import MAX_WALK
from .machine import add_json, give
from .options import Parser, decimals
from .unused import refuse_near_alone, refuse_unused

if TYPE_CHECKING:
    from ..streets.walks import Walks

SUMMARY = "the footpaths of a feed, from the coordinates of its stops"
HELP = """\
Writes the footpaths of a feed from the coordinates of its stops: straight lines, lengthened by a detour factor. Two
stops have a footpath, in each direction, if the way between them takes at most the limit: the distance on the ground
times the detour factor, at the walking speed, rounded up to whole seconds. ttm itself chains footpaths within its own
--walk, so a limit above that adds nothing.

Stops are those at which vehicles call: location_type 0 or empty. If their station lists entrances (location_type 2),
walks from outside pass an entrance; within one station they are direct (GTFS reference, stops.txt). A stop without
valid coordinates, or at 0 and 0, has no footpath; a line on standard error counts these. The file has the columns
from_stop_id, to_stop_id and seconds, for ttm's --footpaths. In a folder of ttm-tools scenarios with new stops, old
stops that walks by way of these bring nearer to each other are reported.

--streets uses the ways of a file of OpenStreetMap, without a detour factor. A way may be walked if its highway is
primary, secondary, tertiary (and their links), unclassified, residential, living_street, service, road, track, path,
footway, pedestrian, steps, corridor, platform, crossing or elevator; or trunk, cycleway, bridleway or busway if foot
says yes (designated, permissive ..), or trunk with a sidewalk; platforms and piers too. No motorways; not if foot is
no, private or use_sidepath, nor if access is no or private and foot doesn't allow it. oneway:foot, foot:forward and
foot:backward count; oneway is for vehicles. Stops and entrances are joined to the nearest way. Those farther from it
than --near are reported, and joined by a straight line with its detour. Memory: some 100 MB, 150 bytes for each
footpath, and with --streets 800 for each node of the ways."""


def describe(parser: Parser) -> None:
    parser.add_number("--limit", "the longest walk", decimals("seconds", 1, 86400), default=MAX_WALK.default)
    parser.add_pace()
    what = "your own walks, a table with from_stop_id, to_stop_id and seconds; decimals are rounded up, and counted"
    parser.add_text("--table", "FILE", what, without="straight lines")
    parser.add_out("the file of footpaths", without="footpaths.csv in FOLDER")
    add_json(parser)
    parser.add_argument("folder", metavar="FOLDER", help="an unpacked feed")


def file_of(args: argparse.Namespace) -> str:
    """The file that is written."""
    return args.out or os.path.join(args.folder, "footpaths.csv")


def outputs(args: argparse.Namespace) -> list[str]:
    """The files that the command writes."""
    return [file_of(args)]


def unlinked(walks: "Walks") -> dict[str, list[str]]:
    """The stops and points that are far from a street, have none in reach, or no coordinates, for programs."""
    names = {"far_from_street": "far", "without_street": "apart", "without_coordinates": "lost"}
    return {name: walks.named(which) for name, which in names.items()}


def run(args: argparse.Namespace) -> None:
    if args.table and args.streets:
        fault = ArgumentError("--table and --streets are two sources of walks: choose one")
        raise fault.noting(column="--table", value=args.table)
    if args.table:
        own = "does nothing with --table, whose walks have times of their own"
        refuse_unused(args, own, "limit", "kmh", "detour", "near")
    refuse_near_alone(args)
    needs("numpy", "scipy")
    from ..gtfs.stops import read_stops
    from ..plans.nearness import new_stops_in, sentences_on_nearer
    from ..core.walking import Walking
    from ..streets.walks import footpaths_of

    out = file_of(args)
    walking, stops = Walking(args.kmh, args.detour, args.limit), read_stops(args.folder)
    new_stops_in(args.folder)  # an error of these is raised before anything is written
    found, sentence = footpaths_of(stops, args.table, walking, args.streets, args.near)
    with output(out) as file:
        found.write(file)
    say(f"{out}: {sentence}", *sentences_on_nearer(args.folder, out))
    give(
        args,
        feed=args.folder,
        footpaths_file=out,
        footpaths=len(found.seconds),
        unreachable={"origins": [], "destinations": []},
    )
    give(args, **unlinked(found))
