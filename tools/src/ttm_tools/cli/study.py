import argparse
import sys
from pathlib import Path

from ..core.errors import ArgumentError, needs
from ..core.limits import MOST_NUMBER
from ..core.signals import Interrupted
from ..core.ranges import Range
from .options import Parser

SUMMARY = "a whole study from one file: feed, runs in parts, matrix, tables, maps, report"
HELP = """\
Runs a whole study from one file, in one folder: prepares the feed, makes walks between its stops (or points), runs ttm
in parts of the origins, and joins the parts to a matrix, from which it writes tables, maps and a report. --new prints a
file with a comment for each field.

A study that was stopped at any moment, by a signal or a power cut, resumes with the same command: it does what is
missing, and redoes what depends on a changed input. A part of the run is done if its matrix is complete and has the
checksum of its inputs, arguments and version of ttm. A part that fails is reported with ttm's line, and the others go
on; the exit status is then 1.

Parts run on the processors of this machine, as many at once as its memory allows by ttm's own estimate. With --slurm
they are an array of a cluster that shares the folder, with --hosts they run on hosts that you reach by ssh and that
share it; --option goes to sbatch, or to parallel, such as --option partition=long. If the command ends, an array
continues, and the same command waits for it.

--verify FOLDER compares the checksums of a study's files, recomputes a random tenth of the rows, and compares their
bytes. Memory: what ttm takes for all parts that run at once, and then what map, page and compare take."""


def describe(parser: Parser) -> None:
    parser.add_argument("study", metavar="STUDY", nargs="?", help="the study's file, or with --part its folder")
    parser.add_flag("--new", "print a new file with a comment for each field", "a study runs")
    parser.add_text("--out", "FOLDER", "the study's folder", without="the file's name without .toml")
    what = "the number of parts that run at once on this machine"
    parser.add_number("--workers", what, Range("processes", 1, 1024), without="one on each processor")
    parser.add_flag("--slurm", "run the parts as an array under Slurm", "here")
    parser.add_text("--hosts", "HOSTS", "run the parts with GNU parallel, such as 8/one,8/two", without="here")
    what = "an option of sbatch or parallel, such as partition=long"
    parser.add_several("--option", "NAME=VALUE", what, without="none")
    what = "compute one part, as the tasks of --slurm and --hosts do"
    parser.add_number("--part", what, Range("", 1, 9999), without="all")
    parser.add_text("--verify", "FOLDER", "recompute a tenth of a study's rows", without="the study runs")
    without = "drawn at random, and printed"
    parser.add_number("--seed", "chooses the rows of --verify", Range("", 0, MOST_NUMBER), without=without)


def refuse_others(args: argparse.Namespace) -> None:
    if sum([args.new, args.verify is not None, args.study is not None]) != 1:
        raise ArgumentError("one of STUDY, --new and --verify is needed")
    if args.part is not None and args.study is None:
        raise ArgumentError("--part goes with the folder of a study")
    if args.seed is not None and args.verify is None:
        raise ArgumentError("--seed goes with --verify")
    if args.slurm and args.hosts:
        raise ArgumentError("--slurm and --hosts are two ways: choose one")
    if args.option and not (args.slurm or args.hosts):
        raise ArgumentError("--option goes with --slurm and --hosts")


def run(args: argparse.Namespace) -> None:
    refuse_others(args)
    needs("numpy", "pandas")
    if not args.new and args.part is None:
        needs("h5py", "matplotlib")
    if args.new:
        from ..study.template import template

        sys.stdout.write(template())
    elif args.part is not None:
        from ..study.executors.task import one_part

        one_part(Path(args.study), args.part)
    elif args.verify is not None:
        from ..core.threads import processors
        from ..study.verify import verify

        verify(Path(args.verify), args.seed, args.workers or processors())
    else:
        make(args)


def make(args: argparse.Namespace) -> None:
    from ..study.executors.remote import ExecutorOptions
    from ..study.study_file import read_study
    from ..study.work import make_study

    study = read_study(args.study)
    out = Path(args.out) if args.out else study.path.with_suffix("")
    try:
        make_study(study, out, ExecutorOptions(args.workers, args.slurm, args.hosts, args.option))
    except (Interrupted, KeyboardInterrupt):
        print("finished parts are kept: the same command resumes the study", file=sys.stderr)
        raise
