import argparse
import functools
from dataclasses import replace
from typing import TYPE_CHECKING, Callable, Sequence

from ..core.errors import ArgumentError, needs
from ..core.files import output
from ..measures.registry import COMPETITIONS, DECAYS, OPPORTUNITIES, PLACES
from .options import Parser, column_of, decimals, opened, scenarios_of
from .unused import refuse_unused

if TYPE_CHECKING:
    from ..core.arrays import Floats
    from ..gtfs.stops import Stops
    from ..matrices import Matrix, Share
    from ..measures.access import Decay
    from ..measures.opportunities import Counts
    from ..views.access import Measured

SUMMARY = "opportunities within limits, weighted by travel time, and the time to the nearest"
HELP = """\
Measures what is reached from each origin of a matrix. For each column of each file of opportunities, this is the sum
over all stops within each cutoff (--decay step), or the sum weighted by travel time (linear, exponential, logistic), as
r5r does it. With --nearest it is the time to the nearest opportunities. --interval 15,45 takes the mean of the sums
within 15, 16, .. 45 minutes. With --competition, the people of --demand who reach an opportunity share it, with the
weights of --decay: the result is what each person has (floating, balanced) or what all people of an origin have
(availability). docs/reference/measures.md has each formula and its source.

A file of opportunities has the column stop_id (or id) and one or more columns of numbers from 0 on, with or without
decimals; a stop that is not in the file has none. The columns stop_name, stop_lat, stop_lon, name, lat and lon are not
counted; a column `opportunities` takes the name of its file. A stop that is not in the matrix is an error.

The long form has a line for each number: scenario, id (of the origin), opportunity, percentile, cutoff (minutes) and
accessibility. With --nearest the last ones are nearest, seconds, to_id and to_name (the destination that completes the
number), and ties (how many others have the same travel time); the last four are empty if fewer are reached. A name is
that in a column name or stop_name of the file of opportunities, else that of --points or --feed, else the identifier.
Of destinations with the same travel time the first in the matrix comes first. --of places counts each destination with
any of an opportunity once, so that 2 is the second nearest hospital, whatever its beds. With --scenario there is no
column scenario. The wide form has a line for each origin and percentile, and a column for each opportunity and cutoff.
A travel time equal to the cutoff counts, as it does for ttm: --cutoffs 30 is its --within 1800. Memory: some 300 MB,
and 8 bytes for each number, 40 with --nearest."""


def describe(parser: Parser) -> None:
    parser.add_several("--opportunities", "FILE", "a file with what each stop has")
    parser.add_several("--column", "NAME", "a column to count", without="all")
    what = (
        "how weights fall with travel time: at the cutoff, in a line around it, with it as half-life, or in a sigmoid"
    )
    parser.add_choice("--decay", DECAYS, what, "step")
    parser.add_cutoffs("the limits, between commas; decimals are rounded to whole seconds", 0, 10000, "30")
    what = "the width of the linear fall, or the standard deviation of the logistic one"
    parser.add_number("--decay-value", what, decimals("minutes", 0, 10000), without="none; these two need it")
    what = "instead of access, the time within which this many are reached, between commas"
    parser.add_numbers("--nearest", what, decimals("", 0, 1e15), without="access is measured")
    what = "with --nearest, what a number counts: opportunities, or each destination with any of them once"
    parser.add_choice("--of", (OPPORTUNITIES, PLACES), what, OPPORTUNITIES)
    what = "with --nearest, the unpacked feed of the matrix, for the names of destinations"
    parser.add_text("--feed", "FOLDER", what, without="identifiers")
    what = "the mean over all cutoffs of whole minutes from one number to the other, such as 15,45"
    parser.add_numbers("--interval", what, decimals("minutes", 0, 1000), without="one number for each of --cutoffs")
    what = "access where people compete: a floating catchment, a balanced one, or spatial availability; needs --demand"
    parser.add_choice("--competition", COMPETITIONS, what, without="nobody competes")
    parser.add_text("--demand", "FILE", "how many people are at each origin, for --competition", without="none")
    parser.add_text("--demand-column", "NAME", "its column of people", without="the only one")
    parser.add_text("--scenario", "NAME", "the scenario to measure", without="all")
    parser.add_points()
    parser.add_share(without="all")
    parser.add_choice("--form", ("long", "wide"), "a line for each number, or a column", "long")
    parser.add_out("the file of the table")
    parser.add_matrix()


def run(args: argparse.Namespace) -> None:
    refuse_together(args)
    needs("numpy")
    from ..api.count_files import read_counts
    from ..places.selection import select_points
    from ..views.access import ACCESS, Form, NEAREST, measured, write_access

    matrix, stops = select_points(opened(args), args.feed, args.points)
    scenarios = scenarios_of(matrix, [args.scenario] if args.scenario else [])
    shares = matrix.shares if args.share is None else [matrix.share(args.share)]
    counts = read_counts(args.opportunities, matrix.stops, "stop of the matrix", args.column)
    if args.nearest:
        found = nearest_of(args, (matrix, stops), (scenarios, shares), counts)
    else:
        measure = measure_of(args, matrix, counts)
        found = [measured(matrix, scenario, shares, measure) for scenario in scenarios]
    if args.competition:  # for each person there may be little
        found = [replace(table, decimals=12) for table in found]
    heads, limits = (NEAREST, args.nearest) if args.nearest else (ACCESS, args.cutoffs)
    if args.interval:
        low, high = args.interval
        limits = [f"{low:g}-{high:g}"]
    with output(args.out) as file:
        write_access(file, found, counts.names, limits, Form(heads, args.form, args.scenario is None))


def refuse_together(args: argparse.Namespace) -> None:
    if args.nearest:
        refuse_unused(args, "does nothing with --nearest", "cutoffs", "decay", "decay_value")
    else:
        refuse_unused(args, "goes with --nearest", "of", "feed")
    if args.interval:
        refuse_unused(args, "does nothing with --interval", "cutoffs")
    if args.decay == "exponential" and min(args.cutoffs) < 0.01:
        raise ArgumentError("--decay exponential needs --cutoffs above 0: they are half-lives")
    if args.nearest and min(args.nearest) <= 0:
        raise ArgumentError("--nearest needs numbers above 0")
    others = [name for name in ("nearest", "competition", "interval") if getattr(args, name)]
    if len(others) > 1:
        raise ArgumentError(f"--{others[0]} and --{others[1]} are two measures: choose one")
    if bool(args.competition) != bool(args.demand) or args.demand_column and not args.demand:
        raise ArgumentError("--competition and --demand go together")
    if args.interval and (len(args.interval) != 2 or not all(minutes.is_integer() for minutes in args.interval)):
        raise ArgumentError("--interval is two whole numbers of minutes, such as 15,45")
    if args.interval and args.decay != "step":
        raise ArgumentError("--interval goes with --decay step")


def nearest_of(
    args: argparse.Namespace,
    shown: "tuple[Matrix, Stops | None]",
    kinds: "tuple[Sequence[str], Sequence[Share]]",
    counts: "Counts",
) -> "list[Measured]":
    """The times to the nearest of some scenarios and shares, and their destinations."""
    from ..api.count_files import names_in
    from ..views.access import measured_nearest
    from ..views.nearest_ends import destination_names, nearest_with_ends

    (matrix, stops), (scenarios, shares) = shown, kinds
    numbers = counts.of_places().numbers if args.of == PLACES else counts.numbers
    times = functools.partial(nearest_with_ends, numbers=numbers, counts=args.nearest)
    measure = functools.partial(matrix.measure, function=times)
    names = destination_names(matrix.stops, names_in(args.opportunities), stops)
    return [measured_nearest(matrix, scenario, shares, measure, names) for scenario in scenarios]


def measure_of(args: argparse.Namespace, matrix: "Matrix", counts: "Counts") -> "Callable[[str, Share], Floats]":
    """What is measured of a scenario and a share."""
    from ..measures.access import Decay, Interval, access

    decay = Decay(args.decay, args.decay_value)
    if args.competition:
        return shares_of(args, matrix, counts, decay)
    weighting, cutoffs = (Interval(*map(int, args.interval)), [0.0]) if args.interval else (decay, args.cutoffs)
    sums = functools.partial(access, numbers=counts.numbers, weighting=weighting, cutoffs=cutoffs)
    return functools.partial(matrix.measure, function=sums)


def shares_of(
    args: argparse.Namespace, matrix: "Matrix", counts: "Counts", decay: "Decay"
) -> "Callable[[str, Share], Floats]":
    """What people have of what they compete for, in a scenario and a share."""
    import numpy as np

    from ..measures.competition import Market, competition

    known = matrix.stops_and_origins()
    _, people = column_of(args.demand, known, args.demand_column, "choose one with --demand-column")
    demand = dict(zip(known, people.tolist()))

    def shares(scenario: str, share: "Share") -> "Floats":
        own = np.array([demand[name] for name in matrix.origins(scenario, share)])
        market = Market(args.competition, counts.numbers, own, decay)
        return competition(lambda: (block.seconds for block in matrix.tracked(scenario, share)), market, args.cutoffs)

    return shares
