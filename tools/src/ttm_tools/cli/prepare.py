import argparse
import datetime

from ..core.console import as_line, say
from ..core.errors import ArgumentError, needs
from ..core.files import output
from ..core.folders import scratch
from ..core.limits import MOST_EVENTS, MOST_STOPS, MOST_TRIPS
from ..core.notices import note
from ..core.progress import reported
from ..core.question import DAYS_AFTER, DAYS_BEFORE
from ..prepare.rules import help_table
from .machine import add_json, give, is_json
from .options import Parser, day
from .unused import refuse_unused
from .values import WrongValue

SUMMARY = "a feed that ttm reads, from published feeds: checked, repaired, clipped, merged"
HELP = f"""\
Writes a folder that ttm reads, from published feeds: zip files or folders, with the files in it or one folder below.

--check reports all errors for which ttm would refuse the feed, in ttm's order, and writes no folder. For each check
that fails it prints ttm's line, then the value, what is allowed, and how often it fails. A field that fails several
checks is reported once; references to a missing file are not checked. Warnings follow: the days on which trips run,
misspelt columns, stops without coordinates, at 0 and 0 or far from all others, trips of a single stop, speeds over
300 km/h, stations used as stops, transfers that aren't used. For a feed with errors, the days are those that --repair
would leave, with what it would remove. The exit status is 1 if there is an error.

--out writes the feed; a feed with errors is refused. --repair repairs it first, by the rules below; prepared.csv in the
folder has a line for each repaired record. Then it prints how many records each file has left, and on which days trips
run. The exit status is 1, and no folder is written, if no trip runs on any day, or on those of --date; and with
--repair if no trip runs on --date itself, if a rule (except `same`) removes more than a tenth of a file's records (of
transfers.txt also more than ten), or if a required file has no record left. --allow-loss writes the folder anyway.

{{rules}}

Several feeds are merged: each is checked and repaired by itself. If identifiers of one kind (stops, routes, trips,
services, agencies, shapes, fares, zones ..) collide with those of an earlier feed, all those of the later feed begin
with its name and a colon. Agencies, shapes, fares, pathways, levels, translations, attributions, areas and networks are
merged too; feed_info.txt has one record for all; other files are left out and listed. Routes of a feed with one agency
get its name. Feeds of several time zones are refused without --same-clock.

--box, --area, --routes, --agency and --date clip the feed. Stops outside the region are removed with all that belongs
to them; a trip keeps its calls inside, two at least. Journeys through a place outside are lost; all others stay. Of
stop_times.txt only the trips that call inside are read and held in memory. --routes and --agency remove stops without
trips, --date removes trips whose service doesn't run on the days. In all other files (fare_rules.txt, pathways.txt,
stop_areas.txt, translations.txt, shapes.txt ..) records that name something removed go too, and fares that lose all
their rules; the numbers of removed records are printed. \
More than {MOST_STOPS:,} stops and stations, {MOST_TRIPS:,} trips or
{MOST_EVENTS:,} stop times are refused, with the options that remove some.

No rule replaces a missing file or column. Memory: some 250 bytes for each record of stop_times.txt that is held."""


def describe(parser: Parser) -> None:
    parser.description = HELP.replace("{rules}", help_table())
    parser.add_flag("--check", "report errors, and write no folder", "--out is needed")
    parser.add_text("--faults", "FILE", "with --check, a line for each single error, as CSV", without="none")
    parser.add_text("--out", "FOLDER", "the folder to write; it must be new or empty", without="--check is needed")
    parser.add_force()
    parser.add_flag("--repair", "repair errors", "they are reported and nothing is written")
    what = "write the feed even if a repair removes much of a file, or if no trip runs"
    parser.add_flag("--allow-loss", what, "an error")
    what = "merge feeds of several time zones, and treat their times as those of one"
    parser.add_flag("--same-clock", what, "an error")
    what = "west, south, east, north in degrees, -180 to 180 and -90 to 90: keep the stops inside"
    parser.add("--box", what=what, without="all", type=box, metavar="W,S,E,N")
    parser.add_text("--area", "FILE", "GeoJSON polygons: keep the stops inside; needs shapely", without="all")
    parser.add_several("--routes", "ROUTE_ID", "a route to keep", without="all")
    parser.add_several("--agency", "AGENCY_ID", "an agency whose routes to keep", without="all")
    what = "YYYYMMDD or YYYY-MM-DD: keep services that run --back days before it to --ahead after"
    parser.add("--date", what=what, without="all", type=day, metavar="DATE")
    parser.add_setting(DAYS_BEFORE, "days before the date, as for ttm")
    parser.add_setting(DAYS_AFTER, "days after the date, as for ttm")
    add_json(parser)
    parser.add_argument("feeds", metavar="FEED", nargs="+", help="a zip file or folder")


WRITES = ("repair", "allow_loss", "same_clock", "box", "area", "routes", "agency", "date", "back", "ahead")


def box(text: str) -> tuple[float, float, float, float]:
    """Four numbers of degrees."""
    try:
        west, south, east, north = map(float, text.split(","))
    except ValueError:
        raise WrongValue(text, "W,S,E,N in degrees") from None
    if not (-180 <= west <= 180 and -180 <= east <= 180 and -90 <= south <= north <= 90):
        raise WrongValue(text, "W,S,E,N: -180 to 180, -90 to 90, south not above north")
    return west, south, east, north


def run(args: argparse.Namespace) -> int:
    if not args.date:
        refuse_unused(args, "goes with --date", "back", "ahead")
    if args.check:
        refuse_unused(args, "does nothing with --check", *WRITES)
    needs("numpy", "pandas")
    if args.check == (args.out is not None):
        raise ArgumentError("one of --check and --out is needed").noting(column="--check", allowed="--check or --out")
    if args.faults and not args.check:
        raise ArgumentError("--faults goes with --check").noting(column="--faults", value=args.faults)
    if args.check:
        return check_feeds(args)
    from ..prepare.clip import Clip
    from ..prepare.make import PrepareOptions, prepared

    span = range(-args.back, args.ahead + 1) if args.date else range(0)
    try:
        days = [args.date + datetime.timedelta(number) for number in span]
    except OverflowError:
        fault = ArgumentError("--date with --back and --ahead goes beyond the calendar")
        raise fault.noting(column="--date", value=str(args.date)) from None
    clip = Clip(args.box, args.area, args.routes, args.agency, days)
    with scratch("feed") as room:
        day = args.date if args.repair else None
        options = PrepareOptions(args.feeds, args.out, args.repair, clip, args.allow_loss, day, args.same_clock)
        made = prepared(options, room)
        if is_json(args):
            from ..prepare.fields import fields_of

            give(args, **fields_of(made, args.out))
    say(*made.lines)
    return 0


def check_feeds(args: argparse.Namespace) -> int:
    from ..core.columns import ERRORS, names_of
    from ..core.tables import write_rows
    from ..gtfs.check import check
    from ..gtfs.fault_report import fault_lines, fault_rows
    from ..gtfs.feeds import read_feed
    from ..prepare.fields import error_fields
    from ..prepare.losses import sentences

    rows, errors = list[list[object]](), list[dict[str, object]]()
    for path in reported(args.feeds, len(args.feeds), "feeds"):
        with scratch("feed") as room:
            feed = read_feed(path, room)
            faults = check(feed)
            rows.extend(fault_rows(faults))
            errors.extend(error_fields(path, faults) if is_json(args) else ())
            lines = [*(fault_lines(faults) if faults else ["no errors"]), *sentences(feed, bool(faults))]
            note(*lines)
            print("\n".join(map(as_line, [f"{path}:"] * (len(args.feeds) > 1) + lines)))
    if args.faults:
        with output(args.faults) as file:
            write_rows(file, names_of(ERRORS), rows)
    give(args, errors=errors)
    return 1 if rows else 0
