import argparse
import os
import sys

from ..core.console import say
from ..core.errors import needs
from ..plans.action_list import help_table
from .machine import add_json, give, is_json
from .options import Parser

SUMMARY = "a feed with scenario files, from a plan of new lines, headways and speeds"
HELP = """\
Writes a feed with the trips of all scenarios of a plan, and for each scenario a file that removes what it lacks, so
that one run of ttm compares them. FOLDER is a feed by the GTFS reference. It also has scenarios/NAME.csv and
scenarios/today.csv, the feed as it was; scenarios.words, the arguments of the run, which are printed too; scenarios.md,
what each action did; actions.csv, changes.csv and new_stops.csv, the same as tables.

A plan is a TOML file. Each [[scenario]] has a name, and [[scenario.action]] tables, carried out in their order; `do` is
one of:

{actions}

"route .." is a route or several; direction (0 or 1, as in the feed), pattern (a trip: selects those that call at its
stops) and service select some of their trips. Times are "HH:MM" or "HH:MM:SS". A [[stop]] with id, name, lat and lon is
new. An action that changes nothing, names something unknown, or makes times go back is an error with the plan's line.

The feed must be one that ttm accepts (ttm-tools prepare writes one). compare, map, long and others leave out ttm's
scenario `base`, which has the trips of all scenarios at once, and use `today` as the base. Memory: some 200 bytes for
each stop time that is written."""


def describe(parser: Parser) -> None:
    parser.description = HELP.replace("{actions}", help_table())
    parser.add_argument("feed", metavar="FEED", help="the folder of a feed")
    parser.add_argument("plan", metavar="PLAN", help="the plan, a TOML file")
    parser.add_text("--out", "FOLDER", "the folder to write; it must be new or empty")
    what = "the only scenario to carry out: the feed with its trips and no others, and no scenario files"
    parser.add_text("--only", "NAME", what, without="all are in the feed")
    add_json(parser)


def run(args: argparse.Namespace) -> None:
    needs("numpy", "pandas")
    from ..plans.make import files_in_order, planned
    from ..plans.report import action_fields

    made = planned(args.feed, args.plan, args.out, args.only)
    say(*made.lines)
    if made.arguments is not None:
        sys.stdout.buffer.write(os.fsencode(made.arguments) + b"\n")
    if is_json(args):
        give(args, folder=args.out, files=files_in_order(args.out), actions=list(action_fields(made.finished)))
