import argparse

from ..core.errors import needs
from ..core.files import output
from .options import Parser

SUMMARY = "the whole matrix from the matrices of parts"
HELP = """\
Joins the matrices of the parts of a study, in any order: the bytes are those of one run over all origins. All parts
must have the same header; each origin must be in exactly one part, with the same scenarios, one after another, and a
line for every percentile. Otherwise nothing is written, and the exit status is 1: an error names the part that differs,
is truncated or repeated, or the origins that are in no part. Memory: the names of the origins."""


def describe(parser: Parser) -> None:
    what = "the origins of the whole study in their order, a file with the column stop_id, as split writes it"
    parser.add_text("--origins", "FILE", what)
    parser.add_out("the file of the whole matrix")
    parser.add_argument("matrix", metavar="MATRIX", nargs="+", help="the matrix of a part, as ttm prints it")


def run(args: argparse.Namespace) -> None:
    needs("numpy")
    from ..core.stop_lists import origins_in
    from ..matrices.parts import PartMatrix, in_order, write_whole

    origins = origins_in(args.origins)
    parts = in_order([PartMatrix(path) for path in args.matrix], origins, args.origins)
    with output(args.out) as file:
        write_whole(parts, file)
