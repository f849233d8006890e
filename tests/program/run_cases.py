"""Runs of the built program as data: its arguments, what is done to the folder before it, and what it should leave.

The expected matrices are computed by hand from the small feed: T1 leaves A at 08:00 and arrives at B at 08:10, T2
leaves B at 08:15 and arrives at C at 08:30, on Mondays.
"""

from __future__ import annotations

import re
from collections.abc import Sequence
from dataclasses import dataclass
from pathlib import Path

import small

FEED = small.FEED
OWN = {
    **small.OWN,
    "to.csv": "stop_id\nC\nA\n",
    "none_named.csv": "stop_id\n",
    "b.csv": "stop_id\nB\n",
    "a.csv": "stop_id\nA\n",
}
ASKED = "--date 20260504 --from 08:00 --to 08:00 --trips 2 --share 50 --within 1800 --workers 1 --tries 1 --walk"
FOUR = "--feed feed --date 20260504 --from 07:58 --to 08:01 --trips 2 --walk 0 --workers 2 --tries 1 --origins a.csv"
HOUR = "--date 20260504 --from 07:30 --to 08:29 --trips 8 --walk 0 --share 50 --within 1800 --workers 1 --tries 1"
OWN_WORDS = "--footpaths walks.csv --opportunities chances.csv --origins origins.csv"

# From C one walks to B in 120 seconds and rides nowhere; from A one rides to B and on to C.
BASE = "base,C,50,15,,120,0\nbase,A,50,15,0,600,1800\n"
CUT = "cut,C,50,15,,120,0\ncut,A,50,10,0,600,\n"
LATE = "late,C,50,15,,120,0\nlate,A,50,15,0,900,1800\n"
HEAD = "scenario,origin,share,access_1800,A,B,C\n"
EXAMPLE = HEAD + "base,A,50,3,0,600,1800\n"

# From A, leaving at 07:58, 07:59 and 08:00, one is at B after 720, 660 and 600 seconds, and at C after 1920, 1860 and
# 1800; at 08:01 T1 has left.
SHARES = (
    "base,A,1,2,3,0,600,1800\nbase,A,25,2,3,0,600,1800\nbase,A,50,2,2,0,660,1860\n"
    "base,A,75,1,2,0,720,1920\nbase,A,100,1,1,0,,\n"
)
TWO_LIMITS = HEAD.replace("access_1800", "access_700,access_1800")

# T1 comes to B in the last second that a time may have.
TIMES = FEED["stop_times.txt"]
LATE_AT_B = TIMES.replace("T1,08:10:00,08:10:00", "T1,167:59:59,")


@dataclass(frozen=True)
class Change:
    """What is done to a file or a folder before a run; permissions are given back after it."""

    path: str

    def make(self, room: Path) -> None:
        raise NotImplementedError

    def undo(self, room: Path) -> None:
        pass


@dataclass(frozen=True)
class Text(Change):
    """Gives a file another text."""

    text: str

    def make(self, room: Path) -> None:
        (room / self.path).write_text(self.text)


@dataclass(frozen=True)
class Gone(Change):
    """Takes a file away."""

    def make(self, room: Path) -> None:
        (room / self.path).unlink()


@dataclass(frozen=True)
class Shut(Change):
    """Takes all permissions from a file or a folder."""

    def make(self, room: Path) -> None:
        if not (room / self.path).exists():
            (room / self.path).write_text("service_id,date,exception_type\n")
        (room / self.path).chmod(0)

    def undo(self, room: Path) -> None:
        (room / self.path).chmod(0o755)


@dataclass(frozen=True)
class Run:
    """A run of the program: its arguments, what it should print, tell and end with, and what is done to the folder."""

    name: str
    words: str
    out: str = ""
    err: str = ""
    status: int = 0
    changes: Sequence[Change] = ()


def refused(name: str, arguments: str, line: str, *changes: Change) -> Run:
    """A run whose arguments or tables are refused by a line."""
    return Run(name, arguments, err=f"ttm: {line}\n", status=2, changes=changes)


def unread(name: str, arguments: str, path: str, *changes: Change) -> Run:
    """A run that can't read what lies at a path."""
    return Run(name, arguments, err=f"ttm: {path}: read fault\n", status=5, changes=changes)


RUNS = [
    Run("no words", "", EXAMPLE),
    Run(
        "every stop is an origin",
        f"--feed feed {ASKED} 0",
        EXAMPLE + "base,B,50,2,,0,1800\nbase,C,50,1,,,0\n",
    ),
    Run(
        "a trip that is removed, and one that is shifted",
        f"--feed feed {ASKED} 0 --origins a.csv cut.csv late.csv",
        EXAMPLE + "cut,A,50,2,0,600,\nlate,A,50,3,0,900,1800\n",
        changes=[Text("cut.csv", "action,id,seconds\nremove_trip,T2,\n")],
    ),
    Run(
        "all own files and two scenarios",
        f"--feed feed {ASKED} 300 {OWN_WORDS} cut.csv late.csv",
        HEAD + BASE + CUT + LATE,
    ),
    Run(
        "the scenarios the other way round",
        f"--feed feed {ASKED} 300 {OWN_WORDS} late.csv cut.csv",
        HEAD + BASE + LATE + CUT,
    ),
    Run(
        "a walk past the limit",
        f"--feed feed {ASKED} 119 {OWN_WORDS}",
        HEAD + "base,C,50,5,,,0\nbase,A,50,15,0,600,1800\n",
    ),
    Run(
        "the latest time that there is",
        f"--feed feed {ASKED} 0 --origins a.csv",
        HEAD + "base,A,50,1,0,575999,\n",
        changes=[Text("feed/stop_times.txt", LATE_AT_B)],
    ),
    Run("five shares and two limits", f"{FOUR} --share 1,25,50,75,100 --within 700,1800", TWO_LIMITS + SHARES),
    Run(
        "zeros before the numbers",
        f"{FOUR} --share 050 --within 00700,1800",
        TWO_LIMITS + "base,A,50,2,2,0,660,1860\n",
    ),
    Run(
        "destinations in their own order",
        f"--feed feed {ASKED} 300 {OWN_WORDS} --destinations to.csv cut.csv",
        "scenario,origin,share,access_1800,C,A\nbase,C,50,15,0,\nbase,A,50,15,1800,0\ncut,C,50,15,0,\ncut,A,50,10,,0\n",
    ),
    Run(
        "access alone",
        f"{FOUR} --share 25,50 --within 700,1800 --destinations none_named.csv",
        "scenario,origin,share,access_700,access_1800\nbase,A,25,2,3\nbase,A,50,2,2\n",
    ),
    refused(
        "destinations that no stop has",
        f"--feed feed {ASKED} 0 --destinations to.csv cut.csv",
        "destinations: record 2: unknown stop",
        Text("to.csv", "stop_id\nZ\n"),
        Text("cut.csv", "action,id,seconds\nremove_trip,T9,\n"),
    ),
    refused(
        "opportunities before destinations",
        f"--feed feed {ASKED} 0 --destinations to.csv --opportunities walks.csv",
        "opportunities: record 1: missing column",
        Text("to.csv", "stop_id\nZ\n"),
    ),
    refused("a bad setting", f"--feed feed {ASKED} 7201 {OWN_WORDS}", "bad walk"),
    refused("seven days before the date", f"--feed feed {ASKED} 0 --back 7", "bad back"),
    refused("shares that don't ascend", f"{FOUR} --share 50,25 --within 1800,1800", "bad share"),
    refused("a share of nothing", f"{FOUR} --share 0 --within 1800", "bad share"),
    refused("nine shares", f"{FOUR} --share 1,2,3,4,5,6,7,8,9 --within 1800", "bad share"),
    refused("a limit twice", f"{FOUR} --share 50 --within 1800,1800", "bad within"),
    refused("a limit that is empty", f"{FOUR} --share 50 --within 900,,1800", "bad within"),
    refused(
        "a bad record",
        f"--feed feed {ASKED} 0",
        "stop_times.txt: record 3: bad number",
        Text("feed/stop_times.txt", "trip_id,stop_id,stop_sequence\nT1,A,1\nT1,B,x\n"),
    ),
    refused(
        "footpaths for opportunities",
        f"--feed feed {ASKED} 0 --opportunities walks.csv",
        "opportunities: record 1: missing column",
    ),
    refused(
        "a bad scenario",
        f"--feed feed {ASKED} 0 cut.csv",
        "scenario cut: record 2: unknown trip",
        Text("cut.csv", "action,id,seconds\nremove_trip,T9,\n"),
    ),
    refused("a name used twice", f"--feed feed {ASKED} 0 cut.csv ./cut.csv", "scenario name: cut"),
    refused("a feed that isn't there", f"--feed nowhere {ASKED} 0", "stops.txt: missing file"),
    refused(
        "a file of the feed that isn't there",
        f"--feed feed {ASKED} 0",
        "trips.txt: missing file",
        Gone("feed/trips.txt"),
    ),
    unread("an own file that isn't there", f"--feed feed {ASKED} 0 --origins none.csv", "none.csv"),
    unread("destinations that aren't there", f"--feed feed {ASKED} 0 --destinations none.csv cut.csv", "none.csv"),
    unread("footpaths that aren't there", f"--feed feed {ASKED} 0 --footpaths none.csv", "none.csv"),
    unread("a scenario that isn't there", f"--feed feed {ASKED} 0 none.csv", "none.csv"),
    unread("a folder for a scenario", f"--feed feed {ASKED} 0 feed", "feed"),
    unread(
        "a file of the feed without permission",
        f"--feed feed {ASKED} 0",
        "feed/calendar_dates.txt",
        Shut("feed/calendar_dates.txt"),
    ),
    unread(
        "an own file without permission",
        f"--feed feed {ASKED} 0 {OWN_WORDS}",
        "origins.csv",
        Shut("origins.csv"),
    ),
    unread("a folder without permission", f"--feed feed {ASKED} 0", "feed/stops.txt", Shut("feed")),
    unread("a folder for a file", f"--feed feed {ASKED} 0 --origins feed", "feed"),
    unread("a file for the folder", f"--feed cut.csv {ASKED} 0", "cut.csv/stops.txt"),
]

# the lines of a report in which the clock and the machine speak, and what is compared in their place
VARYING = [
    (re.compile(r"^(ttm: bytes that the machine has free: )\d+$", re.MULTILINE), r"\1N"),
    (re.compile(r"^(ttm: time: )\d+:\d\d:\d\d$", re.MULTILINE), r"\1H:MM:SS"),
    (re.compile(r"^(ttm: bytes taken at most: )\d+$", re.MULTILINE), r"\1N"),
]
TABLES_READ = "ttm: stops: 3\nttm: routes: 2\nttm: trips: 2\nttm: trips set aside: 0\nttm: transfers not used: 0\n"
NO_WALKS = (
    "ttm: warning: no walk leads anywhere, so changes are at one stop alone; ttm-tools walks makes a file for "
    "--footpaths, and --walk says how long a walk may be\n"
)


@dataclass(frozen=True)
class Report:
    """A run with a report: its arguments, and what is told on the standard error; all else is as without a report."""

    name: str
    words: str
    told: str


def rows_done(rows: int, cells: int, about: int) -> str:
    """The lines of the rows of a report: how many there are, and that all are done."""
    return (
        f"ttm: rows: {rows}\nttm: cells: {cells}\nttm: bytes of the matrix and its text, about: {about}\n"
        "ttm: bytes that the machine has free: N\n"
        f"ttm: rows done: {rows} of {rows}\nttm: time: H:MM:SS\nttm: bytes taken at most: N\n"
    )


REPORTS = [
    Report(
        "all own files and two scenarios",
        f"--feed feed {ASKED} 300 {OWN_WORDS} cut.csv late.csv",
        TABLES_READ + "ttm: direct footpaths: 1\nttm: origins: 2\nttm: destinations: 3\nttm: closed footpaths: 1\n"
        "ttm: runs on 2026-05-03: 0\nttm: runs on 2026-05-04: 2\nttm: runs on 2026-05-05: 0\n"
        "ttm: runs in scenario base: 2\nttm: runs in scenario cut: 1\nttm: runs in scenario late: 2\n"
        + rows_done(6, 18, 336),
    ),
    Report(
        "a date on which nothing runs",
        f"--feed feed {ASKED} 0 --origins a.csv".replace("20260504", "20260505"),
        TABLES_READ
        + "ttm: direct footpaths: 0\nttm: origins: 1\nttm: destinations: 3\nttm: closed footpaths: 0\n"
        + NO_WALKS
        + "ttm: runs on 2026-05-04: 2\nttm: runs on 2026-05-05: 0\n"
        "ttm: warning: no trip runs on the date itself; is it a date of the feed's calendar?\n"
        "ttm: dates of the calendars: 2026-05-04 to 2026-05-31\n"
        "ttm: nearest date with runs before it: 2026-05-04\nttm: nearest date with runs after it: 2026-05-11\n"
        "ttm: runs on 2026-05-06: 0\nttm: runs in scenario base: 2\n" + rows_done(1, 3, 56),
    ),
    Report(
        "one destination",
        f"--feed feed {ASKED} 0 --origins a.csv --destinations b.csv",
        TABLES_READ
        + "ttm: direct footpaths: 0\nttm: origins: 1\nttm: destinations: 1\nttm: closed footpaths: 0\n"
        + NO_WALKS
        + "ttm: runs on 2026-05-03: 0\nttm: runs on 2026-05-04: 2\nttm: runs on 2026-05-05: 0\n"
        "ttm: runs in scenario base: 2\n" + rows_done(1, 1, 28),
    ),
    Report(
        "a feed that isn't there",
        f"--feed nowhere {ASKED} 0",
        'ttm: stops.txt: missing file\nttm: there is no folder "nowhere"\n',
    ),
    Report(
        "the folder above the feed's",
        f"--feed . {ASKED} 0",
        'ttm: stops.txt: missing file\nttm: folder "." has a.csv, b.csv, chances.csv, cut.csv, feed, late.csv, '
        "none_named.csv, origins.csv, to.csv, walks.csv\n"
        'ttm: folder "./feed" has stops.txt; is it the feed\'s?\n',
    ),
    Report(
        "a file for the folder",
        f"--feed cut.csv {ASKED} 0",
        "ttm: cut.csv/stops.txt: read fault\n"
        'ttm: "cut.csv" is a file; --feed names a folder, and ttm-tools prepare makes one of a zip\n',
    ),
    Report(
        "an own file that isn't there",
        f"--feed feed {ASKED} 0 --origins none.csv",
        "ttm: none.csv: read fault\n",
    ),
    Report(
        "a bad setting",
        f"--feed feed {ASKED} 7201",
        'ttm: bad walk\nttm: --walk is "7201"; a walk is whole seconds, 0 to 7200\n',
    ),
    Report(
        "a day that isn't",
        f"--feed feed {ASKED} 0".replace("20260504", "20260431"),
        'ttm: bad date\nttm: --date is "20260431"; there is no such day\n',
    ),
    Report(
        "ends of the window that aren't times of day",
        f"--feed feed {ASKED} 0".replace("--from 08:00 --to 08:00", "--from 8:00 --to 8:59"),
        'ttm: bad window\nttm: --from is "8:00"; a time of day is HH:MM, 00:00 to 23:59\n'
        'ttm: --to is "8:59"; a time of day is HH:MM, 00:00 to 23:59\n',
    ),
    Report(
        "shares that descend",
        f"--feed feed {ASKED} 0".replace("--share 50", "--share 50,25"),
        'ttm: bad share\nttm: --share is "50,25"; each number of a list is greater than the one before it\n',
    ),
]


def contradiction(line: str, *changes: Change) -> Run:
    """A run where the tables contradict themselves, named by the line that tells it."""
    return refused(line, f"--feed feed {ASKED} 0", line, *changes)


REFUSED = [
    contradiction("stops.txt: record 1: missing column", Text("feed/stops.txt", "")),
    contradiction("stops.txt: record 1: missing column", Text("feed/stops.txt", "stop_name\nAlpha\n")),
    contradiction("stops.txt: missing file", Gone("feed/stops.txt")),
    contradiction(
        "stop_times.txt: record 3: bad time",
        Text("feed/stop_times.txt", TIMES.replace("T1,08:10:00", "T1,08:60:00")),
    ),
    contradiction(
        "stop_times.txt: record 3: bad time",
        Text("feed/stop_times.txt", TIMES.replace("T1,08:10:00", "T1,168:00:00")),
    ),
    contradiction(
        "calendar.txt: record 2: bad date",
        Text("feed/calendar.txt", FEED["calendar.txt"].replace("20260531", "20260230")),
    ),
    contradiction("trips.txt: record 3: unknown route", Text("feed/trips.txt", FEED["trips.txt"].replace("R2", "R3"))),
    contradiction("trips.txt: record 3: duplicate id", Text("feed/trips.txt", FEED["trips.txt"].replace("T2", "T1"))),
    contradiction(
        "stop_times.txt: record 4: unknown stop",
        Text("feed/stop_times.txt", TIMES.replace("T2,08:15:00,08:15:00,B", "T2,08:15:00,08:15:00,Z")),
        Text("feed/frequencies.txt", "trip_id,start_time,end_time,headway_secs\nT1,08:00:00,09:00:00,0\n"),
    ),
    contradiction("calendar.txt: missing file", Gone("feed/calendar.txt")),
]
