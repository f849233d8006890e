#!/usr/bin/env python3
"""The merge gate: `rt ci` at the top of the repository, planted bugs, and then scripts on the program that it built.

    .ci/run                       the gate
    .ci/run --anew                the gate, with nothing taken from what earlier runs kept
    .ci/run --quick               a first answer in minutes; proves nothing
    .ci/run --planted [CRATE ..]  tries the bugs in crates/CRATE/planted, of these crates or of all, and notes in
                                  planted.lock which crates had all refused
    .ci/run --lock                notes there what the gate tried on this machine

`rt ci` proves every crate and its tests, tries every must-fail edit, and runs every test and program. Then the planted
bugs of the crates that changed since they were all refused are tried, and those of one crate that the commit draws. The
scripts run last and one after another, since some of their tests go by the clock: the layout, types and tests of the
Python, the checks of the pages, and the tests of the built program. The gate says how long it should take, where it is,
and which ten parts took longest. The exit status is 0 if all passed. The last line is 'N passed, M failed, K skipped':
what this machine can't run is skipped, and each such check is named above.
"""

from __future__ import annotations

import argparse
import os
import re
import subprocess
import sys
import time
from collections.abc import Callable
from concurrent.futures import ThreadPoolExecutor
from dataclasses import dataclass
from pathlib import Path

import lock
import planted
import repository
from progress import Progress, Sampler
from repository import Count

MEMORY_OF_A_CHECK = 4_000_000  # kilobytes
SECONDS_OF_TESTS = 900  # that those of a crate may take together
CLOSING = re.compile(r"(\d+) passed, (\d+) failed(?:, (\d+) skipped)?")
CLOSING_OF_TESTS = re.compile(r"test result: \w+\. (\d+) passed; (\d+) failed()\b.*")
CHECKS = ".ci/tools_checks.py"
PROGRAM, TRIALS = "crates/ttm/out/ttm", "crates/growth_trials/out/growth_trials"


def jobs() -> int:
    """How many checks run at once: one for each processor, as far as memory goes."""
    free = re.search(r"MemAvailable:\s+(\d+)", Path("/proc/meminfo").read_text())
    memory = int(free[1]) if free else MEMORY_OF_A_CHECK
    return max(1, min(len(os.sched_getaffinity(0)), memory // MEMORY_OF_A_CHECK))


def counted(status: int, lines: list[str], closing: re.Pattern[str] = CLOSING) -> Count:
    """What a closing line counts; a run that fails without one counts as one failure."""
    found = [match for match in map(closing.fullmatch, lines) if match]
    passed, failed, skipped = (int(number or 0) for number in found[-1].groups()) if found else (0, 0, 0)
    return Count(passed, max(failed, 1 if status else 0), skipped)


@dataclass(frozen=True)
class Ran:
    """What a command came to: its exit status, its lines, and the processor seconds that it took."""

    status: int
    lines: list[str]
    seconds: float


def run_command(command: list[str], folder: Path, title: str, read: Callable[[str], None] | None = None) -> Ran:
    """Runs a command. Its lines are printed once it has ended, or as they come if `read` is to be called with each."""
    began = time.monotonic()
    lines = []
    environment = {"SOURCE_DATE_EPOCH": time_of_commit(folder), **os.environ}
    with subprocess.Popen(command, cwd=folder, env=environment, **repository.PIPED) as process:
        assert process.stdout
        for line in process.stdout:
            lines.append(line.rstrip("\n"))
            if read:
                print(line, end="", flush=True)
                read(lines[-1])
        _, status, usage = os.wait4(process.pid, 0)
        process.returncode = os.waitstatus_to_exitcode(status)
    seconds = usage.ru_utime + usage.ru_stime
    heading = f"== {title} ({time.monotonic() - began:.0f} s, {seconds:.0f} s of processor time)"
    print("\n".join([heading] if read else [heading, *lines]), flush=True)
    return Ran(process.returncode, lines, seconds)


def time_of_commit(folder: Path) -> str:
    """The time that built packages bear, so that two builds of a commit are the same bytes."""
    command = ["git", "log", "-1", "--format=%ct"]
    log = subprocess.run(command, cwd=folder, stdout=subprocess.PIPE, stderr=subprocess.DEVNULL, text=True)
    return log.stdout.strip() or "0"


def run_script(root: Path, script: list[str]) -> tuple[Count, float]:
    """Runs a script of the repository; what it counts, and its processor seconds."""
    if not (root / script[0]).is_file():
        return Count(), 0.0
    paths = [str(root / word) if word in (PROGRAM, TRIALS) else word for word in script]
    ran = run_command([sys.executable, *paths], root, script[0])
    return counted(ran.status, ran.lines), ran.seconds


def gate(root: Path, is_anew: bool) -> Count:
    """Proves, tries and tests the whole repository."""
    crates = repository.crates_of(root)
    progress = Progress(len(crates), sum(len(repository.edits_of(root, crate)) for crate in crates))
    progress.expect()
    sampler = Sampler()
    sampler.start()
    command = ["rt", "ci", *(["--anew"] if is_anew else [])]
    ran = run_command(command, root, " ".join(command), progress.read)
    count = counted(ran.status, ran.lines)
    progress.report("planted bugs")
    if count.failed:
        print("no planted bug is tried, since `rt ci` failed")
    else:
        planted.note_built(root)
        count += planted.try_changed(root, is_anew, jobs())
    took: dict[str, float] = {}
    for script in [[CHECKS], [CHECKS, PROGRAM, TRIALS]]:
        progress.report(" ".join(script))
        counted_here, took[" ".join(script)] = run_script(root, script)
        count += counted_here
    print("\n".join(["the slowest parts, in processor time:", *sampler.slowest(took)]))
    return count


def quick(root: Path) -> Count:
    """The tests and the program's main job by `rt try`, the tests of the tools that run no program, and the pages. The
    layout and types of the Python and tests in a browser take longer than they tell here, and are left out.

    The script begins, since it takes longest: it may have to install packages, which leaves processors free.
    """
    trials = ["ttm", *(name for name in reversed(repository.crates_of(root)) if has_tests(root, name))]
    with ThreadPoolExecutor(jobs()) as pool:
        checked = pool.submit(run_script, root, [CHECKS, "--quick"])
        tested = pool.map(lambda name: try_crate(root, name), trials)
        return sum(tested, checked.result()[0])


def try_crate(root: Path, name: str) -> Count:
    """Runs the tests of a crate by `rt try`, or the program where it has none."""
    tests = ["--test"] if has_tests(root, name) else []
    command = ["rt", "try", *tests, "--seconds", str(SECONDS_OF_TESTS)]
    ran = run_command(command, root / "crates" / name, f"{name}, by rt try")
    return counted(ran.status, ran.lines, CLOSING_OF_TESTS) if tests else Count(ran.status == 0, ran.status != 0)


def has_tests(root: Path, name: str) -> bool:
    return "#[test]" in repository.source_of(root, name)


def arguments_of(arguments: list[str]) -> argparse.Namespace:
    form = argparse.RawDescriptionHelpFormatter
    parser = argparse.ArgumentParser(prog=".ci/run", description=__doc__, formatter_class=form)
    part = parser.add_mutually_exclusive_group()
    part.add_argument("--anew", action="store_true", help="prove and try all, kept or not")
    part.add_argument("--quick", action="store_true", help="run tests without any proof")
    part.add_argument("--lock", action="store_true", help="write planted.lock by what was tried on this machine")
    part.add_argument("--planted", nargs="*", metavar="CRATE", help="try the planted bugs, and nothing else")
    return parser.parse_args(arguments)


def run(root: Path, command: list[str]) -> int:
    """Runs the gate of the repository at `root`, or a part of it, and returns the exit status."""
    arguments = arguments_of(command)
    if arguments.lock:
        planted.note_kept(root, lock.digests(root))
        return 0
    if arguments.planted is not None:
        count = planted.try_named(root, arguments.planted, jobs())
    else:
        count = quick(root) if arguments.quick else gate(root, arguments.anew)
    print(count)
    return 1 if count.failed else 0


if __name__ == "__main__":
    sys.exit(run(Path(__file__).resolve().parent.parent, sys.argv[1:]))
