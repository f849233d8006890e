import argparse

from ..core.console import say
from ..core.errors import ArgumentError, needs
from ..core.files import output
from ..core.text import quantity
from .options import Parser, decimals, gis_kind, opened, scenarios_of

SUMMARY = "stops with access and travel times, for a geographic information system"
HELP = """\
Writes the stops of a matrix for a geographic information system, with their access, and with --origin their travel
times from there. There is a column for each scenario, percentile and limit, such as base_50_access_1800 and
base_50_seconds, empty if the stop is not an origin or is not reached. --opportunities and --nearest add the seconds
within which that number is reached, such as base_50_schools_nearest_1. If --out ends in .geojson or .json it is
GeoJSON, if in .gpkg a GeoPackage (needs geopandas). Stops are points. Cells are polygons: squares if their file has a
width, areas if it has areas; in a GeoPackage all polygons are of the kind MultiPolygon. Stops without coordinates are
left out, and counted. Memory: some 100 MB."""


def describe(parser: Parser) -> None:
    parser.add_feed_of_matrix()
    parser.add_points()
    parser.add_text("--origin", "STOP", "the stop from which travel times are written", without="access alone")
    parser.add_several("--opportunities", "FILE", "a file with what each stop has, for --nearest", without="none")
    what = "the numbers of opportunities to reach, between commas; needs --opportunities"
    parser.add_numbers("--nearest", what, decimals("", 1e-9, 1e15), without="no such columns")
    parser.add_several("--scenario", "NAME", "a scenario to write", without="all")
    parser.add_share(without="all")
    parser.add_out("the file of the points: .geojson, .json or .gpkg", without="")
    parser.add_matrix()


def run(args: argparse.Namespace) -> None:
    kind = gis_kind(args.out)
    if bool(args.opportunities) != bool(args.nearest):
        raise ArgumentError("--opportunities and --nearest go together")
    needs("numpy", *(["geopandas"] if kind == "gpkg" else []))
    from ..api.count_files import read_counts
    from ..places.selection import select_points
    from ..views.gis import features_of, with_nearest, write_geojson, write_geopackage

    matrix, stops = select_points(opened(args), args.feed, args.points)
    assert stops is not None
    scenarios = scenarios_of(matrix, args.scenario)
    shares = matrix.shares if args.share is None else [matrix.share(args.share)]
    counts = read_counts(args.opportunities, matrix.stops, "stop of the matrix") if args.nearest else None
    features = features_of(matrix, stops, scenarios, shares, args.origin)
    if counts is not None:
        features = with_nearest(features, matrix, (scenarios, shares), counts, args.nearest)
    if kind == "gpkg":
        write_geopackage(args.out, features)
    else:
        with output(args.out) as file:
            write_geojson(file, features)
    lost = len(matrix.stops_and_origins()) - len(features.stops.identifiers)
    say(f"{args.out}: {quantity(len(features.stops.identifiers), 'stop')}; {lost:,} without coordinates")
