"""The built program as a user runs it, with arguments that name folders and files: both outputs and the exit status
are compared byte for byte.
"""

from __future__ import annotations

import os
import re
import subprocess
import tempfile
import threading
import time
import tty
from operator import attrgetter
from pathlib import Path

import pytest

from run_cases import ASKED, FEED, HOUR, OWN_WORDS, REFUSED, REPORTS, RUNS, VARYING, Report, Run, Text
from running import SECONDS, Left, Words, in_a_room, left_by, start

README = Path(__file__).resolve().parents[2] / "README.md"
TOOLCHAIN = re.compile(r"^    rattle-kit-\S+ logic (\S+)$", re.M)
MIB, GIB = 1 << 20, 1 << 30
FEW = 6  # files that may be open at once: three are before the first is read
NO_OPTION = """error: unexpected argument '--nothing' found

  tip: a similar argument exists: '--within'

Usage: ttm --feed <DIR> --date <YYYYMMDD> --from <HH:MM> --to <HH:MM> --trips <K> --walk <S> --share <P> --within <S> \
--workers <N> --tries <N> [SCENARIO]...

For more information, try '--help'.
"""

# The line that moves on a terminal; the next one covers it, and the last one is ended.
MOVING = re.compile(r"(ttm: rows done: \d+ of \d+, \d+ percent(?:, about \d+:\d\d:\d\d left)?) *\r")
MOVED = re.compile(rf"(?:{MOVING.pattern})+\n")


@pytest.mark.parametrize("run", RUNS + REFUSED, ids=attrgetter("name"))
def test_run(program: str, run: Run) -> None:
    """What a run leaves; with a report that is told besides, and nothing else differs."""
    was = left_by(program, run.words.split(), run.changes)
    assert was == (run.out, run.err, run.status)
    if run.words:
        out, err, status = left_by(program, [*run.words.split(), "--report"], run.changes)
        assert (out, status) == (was[0], was[2])
        assert was[1] in err and (len(err) > len(was[1]) or status != 0)


def steady(report: str) -> str:
    """What a report tells, without what varies from run to run."""
    for varies, stays in VARYING:
        report = varies.sub(stays, report)
    return report


def available() -> int:
    """The bytes that the machine has free for programs."""
    rows = Path("/proc/meminfo").read_text().splitlines()
    return next(1024 * int(row.split()[1]) for row in rows if row.startswith("MemAvailable:"))


def figures(report: str, name: str) -> list[int]:
    return [int(figure) for figure in re.findall(rf"^ttm: {name}: (\d+)$", report, re.M)]


@pytest.mark.parametrize("report", REPORTS, ids=attrgetter("name"))
def test_report(program: str, report: Report) -> None:
    """What a report tells; all else is as without one."""
    began, free = time.monotonic(), available()
    out, err, status = left_by(program, [*report.words.split(), "--report"])
    took = time.monotonic() - began
    plain = left_by(program, report.words.split())
    assert (out, steady(err), status) == (plain[0], report.told, plain[2])
    # the machine's memory is shared, so it can have changed by a few gigabytes
    assert all(abs(figure - free) <= 4 * GIB for figure in figures(err, "bytes that the machine has free"))
    assert all(MIB <= figure <= 64 * MIB for figure in figures(err, "bytes taken at most"))
    times = re.findall(r"^ttm: time: (\d+):(\d\d):(\d\d)$", err, re.M)
    assert all(int(hours) * 3600 + int(minutes) * 60 + int(seconds) <= took for hours, minutes, seconds in times)


def test_a_matrix_that_cannot_be_written_is_told(program: str) -> None:
    with open("/dev/full", "wb") as full:
        assert left_by(program, [], stdout=full) == ("", "ttm: write fault\n", 5)


def test_a_matrix_that_nobody_reads_is_told(program: str) -> None:
    reader, writer = os.pipe()
    os.close(reader)
    try:
        assert left_by(program, [], stdout=writer) == ("", "ttm: write fault\n", 5)
    finally:
        os.close(writer)


def test_help_is_a_success_on_the_standard_output_alone(program: str) -> None:
    out, err, status = left_by(program, ["--help"])
    first = "Travel time matrices over a GTFS feed, for a base network and for scenarios."
    assert (out.splitlines()[:1], err, status) == ([first], "", 0)
    assert "--report explains it" in out.splitlines()[-1]


def test_the_version_is_told_alone(program: str) -> None:
    assert left_by(program, ["--version"]) == ("ttm 2.1.0\n", "", 0)


def test_readme_lists_a_toolchain_of_the_logic_at_hand() -> None:
    at_hand = subprocess.run(["rt", "version"], stdout=subprocess.PIPE, text=True, check=True).stdout.split()[-1]
    assert at_hand in TOOLCHAIN.findall(README.read_text())


def test_wrong_arguments_are_told_with_the_name_that_the_program_was_called_by(program: str) -> None:
    called = NO_OPTION.replace("Usage: ttm ", f"Usage: {os.path.basename(program)} ")
    assert left_by(program, ["--nothing"]) == ("", called, 2)


def test_a_file_that_was_read_is_closed(program: str) -> None:
    """More are read than may be open at once."""
    arguments = f"--feed feed {ASKED} 300 {OWN_WORDS} --destinations b.csv cut.csv late.csv".split()
    limited = ["-c", f'ulimit -n {FEW}; exec "$0" "$@"', program, *arguments]
    wanted = "scenario,origin,share,access_1800,B\n" + "".join(
        f"{scenario},C,50,15,120\n{scenario},A,50,{access},{to_b}\n"
        for scenario, access, to_b in (("base", 15, 600), ("cut", 10, 600), ("late", 15, 900))
    )
    assert left_by("/bin/sh", limited) == (wanted, "", 0)


def test_arguments_that_are_no_utf_8_are_told(program: str) -> None:
    assert left_by(program, [b"--feed", b"\xff"]) == ("", "ttm: words that are not UTF-8\n", 2)


def on_terminal(program: str, arguments: Words, room: Path) -> Left:
    """What a run leaves whose standard error is a terminal, which changes nothing of what it is sent."""
    reader, terminal = os.openpty()
    tty.setraw(terminal)
    printed = b""
    with os.fdopen(reader, "rb", buffering=0) as sent, tempfile.TemporaryFile() as out:
        started = start(program, arguments, room, stdout=out, stderr=terminal)
        os.close(terminal)
        limit = threading.Timer(SECONDS, started.kill)
        limit.start()
        try:
            while more := sent.read(1 << 16):
                printed += more
        except OSError:
            pass  # so a terminal says that nobody writes any more
        status = started.wait()
        limit.cancel()
        out.seek(0)
        return out.read().decode(errors="replace"), printed.decode(errors="replace"), status


def test_on_a_terminal_a_line_moves_until_the_rows_are_done(program: str) -> None:
    """Each line is at least as long as the text that it covers, and all else is told as elsewhere."""
    arguments = f"--feed feed {HOUR} --report".split()
    for more in (1 << number for number in range(6, 13)):
        stops = Text("feed/stops.txt", FEED["stops.txt"] + "".join(f"{number},\n" for number in range(more)))
        out, printed, status = in_a_room([stops], lambda room: on_terminal(program, arguments, room))
        moved = list(MOVING.finditer(printed))
        # it moves by the clock: where the rows were done too soon to see that, there are twice as many
        if len(moved) > 1:
            break
    plain = left_by(program, arguments, [stops])
    assert len(moved) > 1
    assert all(len(over[0]) > len(under[1]) for under, over in zip(moved, moved[1:]))
    assert (out, steady(MOVED.sub("", printed)), status) == (plain[0], steady(plain[1]), plain[2])
