import argparse
from typing import TYPE_CHECKING, Sequence

from ..core.console import say
from ..core.errors import ArgumentError, InputError, needs
from ..core.files import output
from ..core.question import PERCENTILES
from ..core.text import first_few, quantity
from ..measures.registry import FAIRNESS
from ..views.picture_files import write_picture
from .options import Parser, column_of, decimals, is_file_of_base
from .unused import refuse_unused

if TYPE_CHECKING:
    from ..measures.access_table import AccessTable, AccessKind
    from ..measures.opportunities import Counts

SUMMARY = "the distribution of access among people, by group and scenario"
HELP = """\
Measures how access is distributed among people, from a table of `ttm-tools access` in its long form and the people at
each of its origins. There is a line for each opportunity, percentile, cutoff, group of people and scenario. Its columns
are people; mean and median access by people; losers_percent (the percentage of people who lose --lose percent of the
base's access or more); gini; palma (the mean of the tenth with the most access, as a multiple of that of the two fifths
with the least); least_tenth (the mean of the tenth with the least access); and least_tenth_change (the mean change of
the people who are that tenth in the base). Gini and Palma also fall if the well served lose: read them together with
mean and losers. docs/reference/measures.md has each formula, its source, and what can mislead.

For a table of `ttm-tools access --nearest` the columns are people; reached_percent (those who reach the number of
opportunities); their mean time; median_minutes and nine_tenths_minutes (the least time within which half, and nine
tenths, of all people reach it); and losers_percent (those who need --lose percent longer or more, or no longer reach
it). --cutoff chooses the number of opportunities.

--gains 10,25 prints who gains and who loses instead, by scenario, group and threshold: how many people gain or lose
at least that percentage of the base's access, which part of the group they are, and the access of the mean person
before and after. The last group is all: the sum of the groups, or the one that --all names.

--measure theil prints Theil's T of each group and of all together, with its parts within and between groups;
concentration prints the concentration index by --rank, such as the mean income of an origin; poverty prints the
measures of Foster, Greer and Thorbecke (fgt0, fgt1, fgt2) for people below --line.

Groups are the columns of numbers of --people: a file with the column stop_id (or id). --picture draws Lorenz curves and
the mean change of each tenth of the people as PNG, for one opportunity, percentile, cutoff and group; it needs
matplotlib. Memory: some 100 MB, and 300 bytes for each line of the table."""


def describe(parser: Parser) -> None:
    parser.add_argument("access", metavar="ACCESS", help="a table of ttm-tools access in its long form")
    parser.add_people()
    parser.add_text("--opportunity", "NAME", "the opportunity to measure", without="all")
    parser.add_number("--percentile", "the percentile to measure", PERCENTILES.allowed, without="all")
    parser.add_number("--cutoff", "the cutoff to measure", decimals("minutes", 0, 1e15), without="all")
    parser.add_base()
    what = "the loss, in percent of the base's access, from which people count as losers"
    parser.add_number("--lose", what, decimals("percent", 0, 100), default=10)
    what = "print who gains and who loses at least these percentages of the base's access instead"
    parser.add_numbers("--gains", what, decimals("percent", 0.1, 100), without="none")
    what = "with --gains, the number of opportunities below which a change counts as none"
    parser.add_number("--gain-least", what, decimals("", 0, 1e15), default=0)
    what = "with --gains, the group that counts everyone, or sum"
    parser.add_text("--all", "NAME", what, without="the sum of all groups")
    what = "print Theil's T, the concentration index, or poverty of access instead"
    parser.add_choice("--measure", FAIRNESS, what, without="none")
    what = "a file with a column such as income, which ranks the origins; concentration needs it"
    parser.add_text("--rank", "FILE", what, without="none")
    what = "the access below which people are poor; poverty needs it"
    parser.add_number("--line", what, decimals("", 1e-9, 1e15), without="none")
    parser.add_form()
    parser.add_picture("the file of a picture")
    parser.add_out("the file of the table")


def run(args: argparse.Namespace) -> None:
    needed = {"concentration": args.rank, "poverty": args.line}
    if any((args.measure == name) != (value is not None) for name, value in needed.items()):
        raise ArgumentError("--measure concentration needs --rank, and poverty --line; no other measure takes them")
    instead = "--measure" if args.measure else "--gains" if args.gains else ""
    if args.measure:
        refuse_unused(args, "does nothing with --measure", "lose", "gains")
    elif args.gains:
        refuse_unused(args, "does nothing with --gains", "lose")
    if not args.gains:
        refuse_unused(args, "does nothing without --gains", "gain_least", "all")
    if instead and args.picture:
        raise ArgumentError(f"--picture does not go with {instead}")
    needs("numpy", *(["matplotlib"] if args.picture else []))
    from ..matrices.joined import labels_of
    from ..api.access_files import read_access
    from ..measures.access_table import beside, sentences_on_lost
    from ..api.count_files import read_counts
    from ..views.equity import EquityOptions, chosen_kinds, figure_of, measured, write_equity

    table = read_access(args.access)
    if args.base is not None and is_file_of_base(args.base, table.scenarios):
        other = read_access(args.base)
        say(*sentences_on_lost(table, other))
        table = beside(table, other, labels_of(args.access, args.base), args.base_scenario)
        args.base = None
    elif args.base_scenario is not None:
        raise ArgumentError("--base-scenario goes with a file as --base")
    people = read_counts(args.people, table.origins, f"origin of {args.access}", args.column)
    kinds = chosen_kinds(table, args.opportunity, args.percentile, args.cutoff)
    options = EquityOptions(args.base or table.base, args.lose, kinds)
    if args.measure:
        return further(args, table, people, kinds)
    if args.gains:
        return gains(args, table, people, kinds)
    figure = figure_of(table, people, options) if args.picture else None
    with output(args.out) as file:
        write_equity(file, measured(table, people, options), args.form)
    if figure is not None:
        write_picture(args.picture, figure)


def gains(args: argparse.Namespace, table: "AccessTable", people: "Counts", kinds: "Sequence[AccessKind]") -> None:
    """Writes who gains and who loses."""
    from ..views.gains import GainOptions, gain_rows, groups_of, write_gains

    if table.of_times:
        raise InputError(table.path, "--gains needs a table of access, and this one has times to the nearest")
    if len(table.scenarios) < 2:
        raise InputError(table.path, "--gains compares scenarios, and there is one: name another table as --base")
    groups = groups_of(", ".join(args.people), people, args.all)
    options = GainOptions(args.base or table.base, args.gains, args.gain_least)
    with output(args.out) as file:
        write_gains(file, gain_rows(table, kinds, groups, options), args.form)


def further(args: argparse.Namespace, table: "AccessTable", people: "Counts", kinds: "Sequence[AccessKind]") -> None:
    """Writes one of the further measures."""
    from ..core.tables import rows
    from ..core.text import display_text
    from ..api.count_files import identifier_of
    from ..views.fairness import FairnessOptions, lines_of, write_fairness

    rank = None
    if args.rank:
        _, rank = column_of(args.rank, table.origins, None, "a rank has one", f"origin of {args.access}")
        named = {name for _, (name,) in rows(args.rank, [identifier_of(args.rank)])}
        lost = [display_text(name) for name in table.origins if name not in named]
        if lost:
            raise InputError(
                args.rank, f"no ranks for {quantity(len(lost), 'origin')} of {args.access}: {first_few(lost)}"
            )
    with output(args.out) as file:
        lines = lines_of(table, people, FairnessOptions(args.measure, kinds, rank, args.line))
        write_fairness(file, lines, args.measure, args.form)
