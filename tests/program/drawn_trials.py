#!/usr/bin/env python3
"""Plans and feeds that are drawn by a seed, through `ttm-tools scenarios` and `prepare`, beside the built program.

    drawn_trials.py PROGRAM [--plans N] [--feeds N] [--damages N] [--seed N]

Of a plan over a drawn feed today must have the rows of the untouched feed, each scenario those of the feed in which its
actions alone were carried out, and the order of scenarios must not matter. A right feed must give the same matrix, byte
for byte, before and after `prepare`; a damaged one must be taken by the program once it is mended; and of each damaged
feed the first fault that --check tells must be the program's line. What failed is printed, and the last line is 'N
passed, M failed'. It wants numpy and pandas.
"""

import contextlib
import io
import sys
import tempfile
from pathlib import Path
from typing import Callable

ROOT = Path(__file__).resolve().parents[2]
sys.path[:0] = [str(ROOT / part) for part in ("tools/src", "tools/tests", "tests/program", "bench")]
from damages import damage_stays, first_fault_differs, right_feed_differs  # noqa: E402
from drawn_plans import plan_differs  # noqa: E402
from shared import parser_of  # noqa: E402


def failures(trial: Callable[[str, int, Path], str], program: str, seeds: range) -> int:
    """How many of the trials fail."""
    failed = 0
    for seed in seeds:
        reported = io.TextIOWrapper(io.BytesIO())
        with tempfile.TemporaryDirectory(prefix="ttm-trial-") as room:
            with contextlib.redirect_stderr(reported), contextlib.redirect_stdout(reported):
                wrong = trial(program, seed, Path(room))
        if wrong:
            failed += 1
            print(f"{trial.__name__}: {wrong}", flush=True)
    print(f"{trial.__name__}: {len(seeds) - failed} passed, {failed} failed", flush=True)
    return failed


def main() -> int:
    args = parser_of(__doc__, "program", plans=500, feeds=200, damages=2000, seed=0).parse_args()
    program = str(Path(args.program).resolve())
    trials = [(plan_differs, args.plans), (right_feed_differs, args.feeds)]
    trials += [(trial, args.damages) for trial in (damage_stays, first_fault_differs)]
    failed = sum(failures(trial, program, range(args.seed, args.seed + count)) for trial, count in trials)
    print(f"{sum(count for _, count in trials) - failed} passed, {failed} failed")
    return 1 if failed else 0


if __name__ == "__main__":
    sys.exit(main())
