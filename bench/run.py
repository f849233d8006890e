#!/usr/bin/env python3
"""Runs the benchmark of `ttm`, and appends a row for each figure to bench/results.csv.

    bench/run.py [PART ..] [--quick] [--turns N]      measures these parts, or all but the gate
    bench/run.py --tables [--quick]                   writes RESULTS.md and README's table from results.csv
                                                      (with --quick prints what the last quick runs measured)

The programs must be built: `rt run` in crates/ttm and in crates/measure; `cargo` builds the baselines of bench/raptor.
The feeds are generated once, into bench/out. Programs run in turns, and wherever two of them compute the same, the sums
of their results are compared: the benchmark fails if they differ. The parts:

"""
import argparse
import importlib
import os
import sys
import tempfile
from collections.abc import Sequence
from pathlib import Path

from shared import PYTHON

PARTS = {
    "search": "the search from one origin, next to textbook RAPTOR and range RAPTOR",
    "windows": "the search over windows from a minute to a day, next to range RAPTOR",
    "rows": "percentiles, access and text in addition to the search; three service days; change times",
    "jobs": "whole runs: time and memory",
    "workers": "one, two and four threads",
    "destinations": "few destinations, and access alone",
    "reading": "reading a feed, next to the csv crate",
    "conversation": "questions to a process that keeps the network",
    "commands": "the commands of ttm-tools",
    "study": "a whole study by ttm-tools",
    "explore": "pages of ttm-tools, and ttm-tools explore, in headless Chromium",
    "gate": "the gate, .ci/run, from nothing: an hour or more (with --quick its quick form); only if it is named",
}


def parser() -> argparse.ArgumentParser:
    listed = "\n".join(f"    {name:13} {what}" for name, what in PARTS.items())
    form = argparse.RawDescriptionHelpFormatter
    found = argparse.ArgumentParser(prog="bench/run.py", description=f"{__doc__}{listed}", formatter_class=form)
    here = Path(__file__).resolve().parent
    crates = here.parent / "crates"
    found.add_argument("part", nargs="*", metavar="PART", help="parts to measure (default: all but the gate)")
    found.add_argument("--tables", action="store_true", help="write the tables, and measure nothing")
    found.add_argument("--quick", action="store_true", help="small feeds, few origins, one turn: at most five minutes")
    found.add_argument("--turns", type=int, help="how often each program runs (default: 5; with --quick 1)")
    program = Path(os.environ.get("TTM_PROGRAM", crates / "ttm/out/ttm"))
    found.add_argument(
        "--program", type=Path, default=program, help="the built ttm (default: $TTM_PROGRAM, or %(default)s)"
    )
    measure = crates / "measure/out/measure"
    found.add_argument("--measure", type=Path, default=measure, help="the built measure (default: %(default)s)")
    found.add_argument(
        "--feeds", type=Path, default=here / "out/feeds", help="where feeds are kept (default: %(default)s)"
    )
    results = "where figures go (default: bench/results.csv; with --quick bench/out/quick.csv)"
    found.add_argument("--results", type=Path, help=results)
    return found


def measure(arguments: argparse.Namespace) -> None:
    """Measures the parts that are asked for, one after another."""
    from feeds import Feeds
    from record import Recorder
    from setting import Setting

    turns = arguments.turns or (1 if arguments.quick else 5)
    recorder = Recorder(arguments.results)
    recorder.path.parent.mkdir(parents=True, exist_ok=True)
    names = arguments.part or [name for name in PARTS if name != "gate"]
    programs = arguments.program.resolve(), arguments.measure.resolve()
    for name in names:
        with tempfile.TemporaryDirectory(prefix="ttm-bench-") as room:
            setting = Setting(Feeds(arguments.feeds), recorder, *programs, turns, arguments.quick, Path(room))
            importlib.import_module(f"parts.{name}").measure(setting)


def main(words: Sequence[str] | None = None) -> None:
    arguments = parser().parse_args(words)
    here = Path(__file__).resolve().parent
    arguments.results = arguments.results or here / ("out/quick.csv" if arguments.quick else "results.csv")
    if unknown := [name for name in arguments.part if name not in PARTS]:
        sys.exit(f"bench/run.py: no such part: {', '.join(unknown)}; the parts are {', '.join(PARTS)}")
    if arguments.tables:
        from result_pages import write_pages

        write_pages(arguments.results)
    else:
        measure(arguments)


if __name__ == "__main__":
    if sys.executable != PYTHON:
        os.execv(PYTHON, [PYTHON, *sys.argv])
    main()
