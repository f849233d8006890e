import argparse
import os

from ..core.console import say
from ..core.errors import ArgumentError, needs
from ..core.files import output
from ..core.notices import Notice, note
from ..core.text import quantity
from .machine import add_json, give, is_json
from .options import Parser, decimals, gis_kind, ground_of, opened, scenarios_of
from .unused import refuse_near_alone

STANDARD_OUTPUT = "-"
SUMMARY = "the areas that can be reached from an origin within given minutes"
HELP = """\
Writes the areas that can be reached from an origin within given numbers of minutes: one shape for each band, scenario
and percentile, as GeoJSON (.geojson, .json) or GeoPackage (.gpkg, needs geopandas). A point that has a shape, the
square of its width or the polygon of its file, counts as a whole if its travel time is within the band. From any other
point or stop you walk on for the remaining time, up to --walk: as the crow flies, or with --streets along the ways of a
file of OpenStreetMap, to the squares of 100 metres along them whose middles you reach. Each shape has its area in
square kilometres, the number of stops or points reached, and with --people the sums of a file's columns over them.
Needs shapely; with --streets scipy and osmium."""


def describe(parser: Parser) -> None:
    parser.add_feed_of_matrix()
    parser.add_points()
    parser.add_text("--origin", "STOP", "where the journeys begin")
    what = "the greatest travel times, ascending"
    parser.add_numbers("--bands", what, decimals("minutes", 1, 10000), default="15,30,45,60")
    parser.add_several("--scenario", "NAME", "a scenario to write", without="all")
    parser.add_share(without="all")
    parser.add_text("--base", "FILE", "another matrix, for whose base areas are written too", without="none")
    parser.add_base_scenario()
    parser.add_walking()
    about = "numbers to sum within each band, such as people: a column stop_id or id, and columns of numbers"
    parser.add_text("--people", "FILE", about, without="nothing is summed")
    parser.add_out("the file of the areas: .geojson, .json or .gpkg; - for GeoJSON on standard output", without="")
    add_json(parser)
    parser.add_matrix()


def outputs(args: argparse.Namespace) -> list[str]:
    """The files that the command writes."""
    return [args.out] if args.out != STANDARD_OUTPUT else []


def run(args: argparse.Namespace) -> None:
    refuse_near_alone(args)
    kind = "geojson" if args.out == STANDARD_OUTPUT else gis_kind(args.out)
    streets = ["osmium", "scipy"] if args.streets else []
    needs("numpy", "shapely", *(["geopandas"] if kind == "gpkg" else []), *streets)
    from ..api.count_files import read_counts
    from ..places.selection import select_points
    from ..views import isochrones as areas

    if args.base is not None and not os.path.isfile(args.base):
        raise ArgumentError(f"--base {args.base} is not a file").noting(column="--base", value=args.base)
    matrix, stops = select_points(opened(args), args.feed, args.points)
    assert stops is not None
    ground, walking = ground_of(args, stops.of(matrix.stops))
    counts = read_counts([args.people], matrix.stops, "column") if args.people else None
    shares = matrix.shares if args.share is None else [matrix.share(args.share)]
    bands = areas.Bands(args.origin, scenarios_of(matrix, args.scenario), shares, args.bands, walking)
    found = areas.isochrones_of(matrix, ground, bands, counts)
    lost = int((~ground.placed).sum())
    note(*([Notice(f"{quantity(lost, 'stop')} without coordinates", "place", lost)] if lost else []))
    if args.out == STANDARD_OUTPUT and is_json(args):
        give(args, **areas.collection_of(found, args.origin))
    elif kind == "gpkg":
        areas.write_geopackage(args.out, found, args.origin)
    else:
        with output(None if args.out == STANDARD_OUTPUT else args.out) as file:
            areas.write_geojson(file, found, args.origin)
    if args.out != STANDARD_OUTPUT:
        give(args, file=args.out, areas=len(found))
    named = f"{args.out}: " if args.out != STANDARD_OUTPUT else ""
    say(f"{named}{quantity(len(found), 'area')}; {quantity(lost, 'stop')} without coordinates")
