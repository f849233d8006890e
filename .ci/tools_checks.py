#!/usr/bin/env python3
"""Checks the Python of this repository (layout, types, tests of the tools), and tests the built program and packages.

    tools_checks.py                  layout, types, and the tests that don't run the program
    tools_checks.py --quick          these tests alone, without those in a browser, which takes longest to install
    tools_checks.py PROGRAM TRIALS   the tests of the tools that run the built `ttm`, tests/program with the built
                                     `growth_trials`, and the R package

`black`, `flake8` and `mypy` read tools/pyproject.toml and .flake8; `pytest` runs the tests in one process for each
processor. What is missing is installed from Debian if that takes at most five minutes. A linter that can't be
installed, and each test that needs what is missing, counts as skipped. No test that fails is run again, except one in a
browser, once, which is then listed with the reason. The last line is 'N passed, M failed, K skipped'.
"""

from __future__ import annotations

import os
import subprocess
import sys
import tempfile
from pathlib import Path
from xml.etree import ElementTree

from installing import PYTHON, install, lacking
from repository import PIPED, Count

ROOT = Path(__file__).resolve().parent.parent
OF_PROGRAM = "tests/program"
OF_QGIS = "qgis"
REPEATS = 2  # runs of each hostile trial with several threads: what they meet depends on their order
CONFIGURED = "tools/pyproject.toml"
MYPY = ["mypy", "--no-error-summary", "--cache-dir", os.devnull, "--config-file", CONFIGURED]
LINTERS = [
    ["black", "--check", "-q", "--config", CONFIGURED, "."],
    ["flake8"],
    MYPY,
    [*MYPY, OF_PROGRAM],  # its `conftest` has the name of another
    [*MYPY, OF_QGIS],
]


def run(command: list[str], folder: Path) -> int:
    """Runs a command, prints its output, and returns its exit status."""
    environment = {**os.environ, "PYTHONDONTWRITEBYTECODE": "1"}
    ran = subprocess.run(command, cwd=folder, env=environment, **PIPED)
    print(ran.stdout, end="", flush=True)
    return ran.returncode


def lint() -> Count:
    """Runs the linters, each of which counts as one check."""
    count, absent = Count(), lacking("linters")
    for command in LINTERS:
        if command[0] in absent:
            print(f"skipped: {command[0]} isn't installed (Debian: apt-get install {command[0]})")
            count += Count(skipped=1)
            continue
        status = run(command, ROOT)
        print(f"{command[0]}: {'passed' if status == 0 else 'FAILED'}", flush=True)
        count += Count(status == 0, status != 0)
    return count


def tested(folder: str, *options: str) -> Count:
    """Runs the tests of a folder, and counts them by the report that pytest writes."""
    with tempfile.TemporaryDirectory(prefix="ttm-tests-") as room:
        report = Path(room) / "junit.xml"
        command = [PYTHON, "-m", "pytest", "-rfEs", "-p", "no:cacheprovider", f"--junitxml={report}", *options]
        status = run(command, ROOT / folder)
        suite = ElementTree.parse(report).getroot().find("testsuite") if report.is_file() else None
    if suite is None:
        return Count(failed=1)
    names = ("tests", "failures", "errors", "skipped")
    tests, failures, errors, skipped = (int(suite.attrib[name]) for name in names)
    failed = failures + errors
    return Count(tests - failed - skipped, max(failed, 1 if status else 0), skipped)


def check_r_package(program: Path) -> Count:
    """Runs R CMD check, the examples and the tests of the R package, which count as one check."""
    absent = lacking("r")
    if absent:
        print(f"skipped: the R package, without {', '.join(absent)}")
        return Count(skipped=1)
    status = run([str(ROOT / "r/check.sh"), str(program)], ROOT)
    print(f"r/check.sh: {'passed' if status == 0 else 'FAILED'}", flush=True)
    return Count(status == 0, status != 0)


def test(built: list[str], is_quick: bool) -> Count:
    """Runs the tests that run these built programs, or without any those that run none."""
    absent = lacking("tests")
    if {"python3-pytest", "python3-numpy"} & set(absent):
        print("skipped: the tests of the tools, without python3-pytest and python3-numpy")
        return Count(skipped=1)
    # lists the fonts, once for all processes: where that is slow, it is reported
    subprocess.run([PYTHON, "-c", "import matplotlib.font_manager"], stderr=subprocess.DEVNULL)
    processes = str(len(os.sched_getaffinity(0)))
    at_once = [] if "python3-pytest-xdist" in absent else ["-n", processes, "--dist", "loadgroup"]
    if built:
        program, trials = (Path(path).resolve() for path in built)
        count = tested("tools", "-m", "program", f"--program={program}", *at_once)
        options = [f"--program={program}", f"--trials={trials}", f"--repeat={REPEATS}"]
        count += tested(OF_PROGRAM, *options, *at_once) + check_r_package(program)
        return count + of_qgis("-m", "program", f"--program={program}", *at_once)
    count = tested("tools", "-m", "not program", *at_once)
    for folder in ("bench", "tests/sources") if is_quick else ("bench", "tests/sources", ".ci"):
        count += tested(folder, *at_once)
    return count if is_quick else count + of_qgis("-m", "not program", *at_once)


def of_qgis(*options: str) -> Count:
    """Runs the tests of the plugin, where Debian's QGIS is installed."""
    if lacking(OF_QGIS):
        print(f"skipped: the tests of the plugin for QGIS, without {', '.join(lacking(OF_QGIS))}")
        return Count(skipped=1)
    return tested(OF_QGIS, *options)


def main() -> int:
    arguments = sys.argv[1:]
    is_quick = arguments == ["--quick"]
    built = [] if is_quick else arguments
    if len(built) not in (0, 2):
        sys.exit("usage: tools_checks.py [--quick | PROGRAM TRIALS]")
    more = ["browser", OF_QGIS, *(["packaging", "r"] if built else ["linters"])]
    groups = ["tests", *([] if is_quick else more)]
    install(*groups)
    missing = [package for group in groups for package in lacking(group)]
    if missing:
        print(f"what needs {', '.join(missing)} is skipped: it isn't installed")
    count = (Count() if built or is_quick else lint()) + test(built, is_quick)
    print(f"{count.passed} passed, {count.failed} failed, {count.skipped} skipped")
    return 1 if count.failed else 0


if __name__ == "__main__":
    sys.exit(main())
