import argparse

from ..core.errors import needs
from .options import Parser, scenarios_of

SUMMARY = "an Open Matrix file"
HELP = """\
Writes a matrix as an Open Matrix file (OMX, an HDF5 file), which AequilibraE, Visum, Emme and TransCAD load: a matrix
for each scenario and percentile, such as base_50, in seconds, NaN where a stop isn't reached; lookups with the
identifiers of origins and destinations and with numbers from 1 on; and the sums of access. All scenarios and
percentiles have the same origins. Every command of ttm-tools accepts such a file instead of the matrix, so that a large
matrix is read once. Needs h5py. Memory: some 100 MB."""


def describe(parser: Parser) -> None:
    what = "the study's list of origins, a file with the column stop_id: the matrix must have all, in order"
    parser.add_text("--origins", "FILE", what, without="a truncation of all scenarios is not detected")
    parser.add_points("all stops")
    parser.add_out("the Open Matrix file", without="")
    parser.add_argument("matrix", metavar="MATRIX", help="a matrix as ttm prints it")


def run(args: argparse.Namespace) -> None:
    needs("numpy", "h5py")
    from ..matrices import has_all, open_matrix, write_open_matrix
    from ..core.stop_lists import origins_in
    from ..places.selection import select_points

    matrix = open_matrix(args.matrix)
    scenarios_of(matrix, [])
    if args.origins:
        has_all(matrix, origins_in(args.origins), args.origins)
    write_open_matrix(select_points(matrix, None, args.points)[0], args.out)
