"""Options for what lies below a map: a ground that needs no network, or tiles that a browser fetches."""

import argparse

from ..core.errors import ArgumentError
from .options import Parser


def add_ground(parser: Parser) -> None:
    what = "a file of ttm-tools ground, with water, parks, streets and names to draw below"
    parser.add_text("--ground", "FILE", what, without="lines of routes alone")


def add_tiles(parser: Parser) -> None:
    what = "the address of a background map, such as https://tiles.example/{z}/{x}/{y}.png"
    parser.add_text("--tiles", "URL", what, without="none, and the page needs no network")
    parser.add_text("--attribution", "TEXT", "whom the page names for that map; --tiles needs it", without="nobody")


def check_tiles(args: argparse.Namespace) -> None:
    """Refuses tiles without an attribution, and addresses of other kinds."""
    if (args.tiles is None) != (args.attribution is None):
        raise ArgumentError("--tiles and --attribution go together")
    if args.tiles is not None and not args.tiles.startswith(("https://", "http://")):
        raise ArgumentError("--tiles begins with https:// or http://")
