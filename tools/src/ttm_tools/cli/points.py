import argparse
from typing import TYPE_CHECKING

from ..core.console import say
from ..core.errors import ArgumentError, needs
from ..core.limits import MOST_FOOTPATHS, MOST_FOOT_SECONDS, MOST_STOPS
from ..core.question import MAX_WALK
from ..core.ranges import Range
from ..core.text import quantity
from .machine import add_json, give
from .options import Parser, decimals
from .unused import refuse_near_alone
from .walks import unlinked

if TYPE_CHECKING:
    from ..places.read import Points
    from ..core.walking import Walking

SUMMARY = "a feed for journeys from door to door: points as stops, and the walks to them"
HELP = f"""\
Writes a folder for runs of ttm from point to point, such as cells of a grid, homes or schools: the points become stops
without trips, and the walks between points and stops become footpaths. A journey then begins with a walk from a point,
ends with a walk to a point, or is a walk from point to point, and ttm combines walks and rides, minute by minute.

A file of points is a CSV with the columns id, lat and lon (degrees; --id, --lat and --lon name others). It may also
have name, width and height (the size of a cell in metres; a square without height) and columns of numbers from 0 on; a
column without any number has labels. With geopandas, a file of points may be a GeoPackage or GeoJSON, with the property
id: each area gives a point inside it, and its text properties are labels. Journeys begin and end at the points of
POINTS, begin at those of --origins, and end at those of --destinations.

--grid METRES adds square cells of that side as points: those that overlap the polygons of --area, or without --area
those whose middle is within a walk of a stop. The name of a cell is its row from the south and its column from the
west, such as r03c12. Journeys begin and end at the cells; with --destinations they only begin there, with --origins
they only end there. --people sums numbers into the cells: those of points into the cell that contains each, those of
polygons (GeoPackage, GeoJSON) by area. --area and polygons need geopandas.

The folder has feed, the feed with the points; footpaths.csv, the walks within the limit between points and stops,
between stops and between points; origins.csv and destinations.csv, the points; opportunities_NAME.csv for each column,
rounded to whole numbers for ttm; labels.csv, the labels, if there are any; and words.txt, the first arguments of a run.
feed/points.csv has all points with their numbers: because of it, the other commands show only points. map, page and gis
show areas by their shapes, which are in feed/areas.geojson. Identifiers stay as they are; if one is also that of a stop
or of a point in an earlier file, all those of its file begin with the file's name and a colon.

Walks are those of ttm-tools walks, in straight lines or along streets; a point has no entrances. Points with no stop in
reach are reported, and so are old stops that walks by way of a plan's new stops bring nearer to each other. ttm accepts
{MOST_STOPS:,} stops, stations and points, and {MOST_FOOTPATHS:,} walks; more are an error before \
anything is written. Memory: some 150
MB, 150 bytes for each walk, and with --streets 800 for each node of the ways."""


def describe(parser: Parser) -> None:
    parser.add_argument("feed", metavar="FEED", help="an unpacked feed")
    parser.add_argument("points", metavar="POINTS", nargs="*", help="points at which journeys begin and end")
    for name, what in (("--origins", "begin"), ("--destinations", "end")):
        parser.add_several(name, "POINTS", f"points at which journeys only {what}", without="POINTS alone")
    parser.add_text("--out", "FOLDER", "the folder to write; it must be new or empty")
    for name, what in (("id", "identifier"), ("lat", "latitude"), ("lon", "longitude")):
        parser.add_text(f"--{name}", "COLUMN", f"the column of a point's {what}", default=name)
    parser.add_number("--grid", "the side of the cells of a grid", decimals("metres", 10, 100000), without="none")
    what = "polygons that the grid covers (GeoPackage, GeoJSON)"
    parser.add_text("--area", "FILE", what, without="wherever a stop is within a walk")
    what = "points or polygons whose numbers to sum into the cells"
    parser.add_several("--people", "FILE", what, without="none")
    parser.add_number(
        "--limit", "the longest walk, and the --walk of a run", Range("seconds", 1, MOST_FOOT_SECONDS), MAX_WALK.default
    )
    parser.add_pace()
    add_json(parser)
    parser.add_flag("--leave-out", "leave out the points without a stop in reach", "they are reported")


def run(args: argparse.Namespace) -> None:
    refuse_near_alone(args)
    needs("numpy", "scipy")
    from ..plans.nearness import new_stops_in, sentences_on_nearer
    from ..places.read import Columns, read_points
    from ..places.folder import FEED, FOOTPATHS, PointsOptions, folder_of
    from ..core.walking import Walking
    from ..streets.walks import walks_of

    files = list(dict.fromkeys([*args.points, *args.origins, *args.destinations]))
    begins = [path in args.points or path in args.origins for path in files]
    ends = [path in args.points or path in args.destinations for path in files]
    if args.grid is None and (args.area or args.people):
        raise ArgumentError("--area and --people need --grid").noting(column="--grid")
    walking = Walking(args.kmh, args.detour, args.limit)
    if args.grid is not None:
        if args.origins and args.destinations:
            fault = ArgumentError(
                "--grid goes with --origins or with --destinations, not both: cells are the other end"
            )
            raise fault.noting(column="--grid", value=f"{args.grid:g}")
        begins.append(not args.origins)
        ends.append(not args.destinations)
    if not any(begins) or not any(ends):
        raise ArgumentError("journeys need points at which they begin, and points at which they end")
    new_stops_in(args.feed)  # an error of these is raised before anything is written
    called = Columns(args.id, args.lat, args.lon)
    points = [read_points(path, called) for path in files]
    if args.grid is not None:
        cells, sentences = grid_of(args, walking)
        points.append(cells)
        say(*sentences)
    options = PointsOptions(args.feed, args.out, points, begins, ends, args.limit, args.leave_out, args.near)
    made = folder_of(options, lambda stops, first: walks_of(stops, walking, args.streets, args.near, first))
    say(*made.lines)
    feed, footpaths = f"{args.out}/{FEED}", f"{args.out}/{FOOTPATHS}"
    say(*sentences_on_nearer(feed, footpaths, args.limit))
    give(args, folder=args.out, feed=feed, footpaths_file=footpaths, footpaths=len(made.walks.seconds))
    give(args, points=len(made.study.points.identifiers), unreachable=made.unreached, **unlinked(made.walks))


def grid_of(args: argparse.Namespace, walking: "Walking") -> "tuple[Points, list[str]]":
    """The cells of a grid, and what is reported of them."""
    from ..gtfs.stops import read_stops
    from ..places import grid

    stops = read_stops(args.feed)
    cells = (
        grid.grid_over(args.area, args.grid)
        if args.area
        else grid.grid_near(stops, args.grid, walking.max_straight_metres)
    )
    filled = grid.filled(cells, args.people)
    count = f"{quantity(len(filled.points.identifiers), 'cell')} of {args.grid:g} metres"
    return filled.points, [count, *filled.sentences]
