"""The built program over inputs of sizes at which one might give up too early: out of memory told for size alone can't
be refused by a contract.

Each expected text follows from the feed that is made here, by the rule beside it, and is compared byte for byte; of the
greatest feed the first ring of footpaths is. It takes about 1.2 GB of memory and 1 GB of the disk.
"""

from __future__ import annotations

import math
import os
import shutil
import subprocess
import sys
from collections.abc import Callable, Iterator
from dataclasses import dataclass
from operator import attrgetter
from pathlib import Path

import pytest

from run_cases import FEED, OWN

SECONDS = 600
MIB = 1 << 20
ASKED = (
    "--date 20260504 --from 08:00 --to 08:00 --trips 2 --walk 0 --share 50 --within 1800 --workers 2 --tries 1".split()
)
HUB = 2_000  # stops around a hub, with a footpath of 60 s from and to it each
NEAR = 600  # footpaths of 60 s from each of 2,000 stops in a ring, to those that follow it
RING = 63  # stops of the first ring of footpaths in the greatest feed
GREATEST = Path(__file__).with_name("greatest.py")


@dataclass
class Run:
    """A run of the program in a folder: its arguments, and what it should print, tell and end with."""

    name: str
    words: list[str]
    out: str
    err: str = ""
    status: int = 0


def small(room: Path, **files: str) -> None:
    """Writes the small feed and the analyst's own files; names have `_` for the dot before `txt` or `csv`."""
    (room / "feed").mkdir()
    for name, text in {**FEED, **{item.replace("_txt", ".txt"): text for item, text in files.items()}}.items():
        (room / "feed" / name).write_text(text)
    for name, text in OWN.items():
        (room / name).write_text(text)


def line_of_stops(room: Path, count: int) -> None:
    """Writes a feed of so many stops, named by their numbers, and one trip: from stop 0 at 08:00 to the last at
    08:10.
    """
    (room / "feed").mkdir()
    files = {
        "stops.txt": "stop_id\n" + "".join(f"{stop}\n" for stop in range(count)),
        "routes.txt": "route_id\nR\n",
        "calendar_dates.txt": "service_id,date,exception_type\nD,20260504,1\n",
        "trips.txt": "route_id,service_id,trip_id\nR,D,T\n",
        "stop_times.txt": "trip_id,arrival_time,departure_time,stop_id,stop_sequence\n"
        f"T,08:00:00,08:00:00,0,1\nT,08:10:00,08:10:00,{count - 1},2\n",
    }
    for name, text in files.items():
        (room / "feed" / name).write_text(text)


def shifted(name: str, minutes: int, trip: str, room: Path) -> str:
    """Writes a scenario that shifts a trip by so many minutes, and gives the file's name."""
    (room / f"{name}.csv").write_text(f"action,id,seconds\nshift_trip,{trip},{minutes * 60}\n")
    return f"{name}.csv"


def all_options(room: Path) -> Run:
    """Fifteen scenarios, the k-th of which has T1 k minutes later: while T1 is at B by 08:15, T2 goes on to C at
    08:30.
    """
    small(room)
    scenarios = [shifted(f"s{k}", k, "T1", room) for k in range(1, 16)]
    arguments = "--feed feed --date 20260504 --from 08:00 --to 08:00 --trips 8 --walk 7200 --share 1,50".split()
    arguments += "--within 900,1800 --workers 64 --tries 8 --back 6 --ahead 6 --origins a.csv".split()
    arguments += "--opportunities chances.csv --footpaths walks.csv".split()
    out = "scenario,origin,share,access_900,access_1800,A,B,C\n"
    for k, name in enumerate(["base", *(scenario[:-4] for scenario in scenarios)]):
        near, far = 10 * (600 + 60 * k <= 900), 10 + 5 * (k <= 5)
        cells = f"0,{600 + 60 * k},{1800 if k <= 5 else ''}"
        out += "".join(f"{name},A,{share},{near},{far},{cells}\n" for share in (1, 50))
    return Run("fifteen scenarios, and each option", arguments + scenarios, out)


def many_rows(room: Path) -> Run:
    """Sixteen scenarios of 700 origins: each reaches itself, and stop 0 the last stop as late as the scenario says."""
    line_of_stops(room, 700)
    scenarios = [shifted(f"s{k}", k, "T", room) for k in range(1, 16)]
    head = "scenario,origin,share,access_1800," + ",".join(map(str, range(700))) + "\n"
    rows = [head]
    for k, name in enumerate(["base", *(scenario[:-4] for scenario in scenarios)]):
        rows.append(f"{name},0,50,2,0{',' * 699}{600 + 60 * k}\n")
        rows += [f"{name},{stop},50,1{',' * (stop + 1)}0{',' * (699 - stop)}\n" for stop in range(1, 700)]
    return Run("sixteen scenarios of 700 origins", ["--feed", "feed", *ASKED, *scenarios], "".join(rows))


def window(room: Path, first: str, last: str, minutes: int, before: int, shares: list[int]) -> Run:
    """A long window: of its departures `before` are not after 08:00, when T1 leaves A, and the k-th share of a hundred
    takes the rank that it fills.
    """
    small(room)
    arguments = f"--feed feed --date 20260504 --from {first} --to {last} --trips 2 --walk 0 --within 1800".split()
    arguments += "--workers 1 --tries 1".split()
    out = "scenario,origin,share,access_1800,A,B,C\n"
    for share in shares:
        rank = math.ceil(share * minutes / 100)
        to_b = 600 + 60 * (rank - 1)
        reached = rank <= before
        cells = f"0,{to_b},{to_b + 1200}" if reached else "0,,"
        access = 1 + (reached and to_b <= 1800) + (reached and to_b + 1200 <= 1800)
        out += f"base,A,{share},{access},{cells}\n"
    share_words = ["--share", ",".join(map(str, shares)), "--origins", "a.csv"]
    return Run(f"a window of {minutes} minutes", arguments + share_words, out)


def over_an_hour(room: Path) -> Run:
    return window(room, "07:00", "08:30", 91, 61, [1, 50, 67, 68, 100])


def a_whole_day(room: Path) -> Run:
    return window(room, "00:00", "23:59", 1440, 481, [1, 33, 34])


def great_sums(room: Path) -> Run:
    """The sum of the greatest numbers that a file of opportunities may have."""
    small(room)
    most = 4_294_967_295
    (room / "chances.csv").write_text(f"stop_id,opportunities\nA,{most}\nB,{most}\nC,{most}\n")
    arguments = ["--feed", "feed", *ASKED, "--opportunities", "chances.csv", "--origins", "a.csv"]
    return Run(
        "a sum of access past 10^10",
        arguments,
        f"scenario,origin,share,access_1800,A,B,C\nbase,A,50,{3 * most},0,600,1800\n",
    )


EXAMPLE = "scenario,origin,share,access_1800,A,B,C\nbase,A,50,3,0,600,1800\n"


def long_path(room: Path) -> Run:
    """A feed and a file whose paths are longer than a name may be."""
    small(room)
    deep = room / ("d" * 200) / ("e" * 200)
    deep.mkdir(parents=True)
    (room / "feed").rename(deep / "feed")
    (room / "a.csv").rename(deep / "a.csv")
    inside = str(deep.relative_to(room))
    return Run(
        "a path of over 400 bytes", ["--feed", f"{inside}/feed", *ASKED, "--origins", f"{inside}/a.csv"], EXAMPLE
    )


def long_line(room: Path) -> Run:
    """A path that is longer than the system takes is told whole."""
    small(room)
    name = "x" * 9000
    return Run(
        "a told line past 4 KiB", ["--feed", "feed", *ASKED, "--origins", name], "", f"ttm: {name}: read fault\n", 5
    )


def past_a_mebibyte(room: Path) -> Run:
    """A record of two MiB before the last stop, which has to be read as well."""
    stops = f"stop_id,stop_desc\nA,\nB,{'b' * (2 * MIB)}\nC,\n"
    small(room, stops_txt=stops)
    return Run("a file past 1 MiB", ["--feed", "feed", *ASKED, "--origins", "a.csv"], EXAMPLE)


def past_500_megabytes(room: Path) -> Run:
    """Transfers that aren't walks, and a walk from A to C in the last record."""
    small(room)
    row = f"A,B,3,,{'n' * 1000}\n"
    with open(room / "feed/transfers.txt", "w") as file:
        file.write("from_stop_id,to_stop_id,transfer_type,min_transfer_time,note\n")
        for _ in range(520):
            file.write(row * 1000)
        file.write("A,C,2,77,\n")
    arguments = ["--feed", "feed", *ASKED, "--origins", "a.csv"]
    arguments[arguments.index("--walk") + 1] = "100"
    return Run("a file past 500 MB", arguments, EXAMPLE.replace("1800\n", "77\n"))


def access_alone(room: Path) -> Run:
    """A row of many stops of which none is a destination."""
    count = 41_000
    line_of_stops(room, count)
    (room / "o.csv").write_text("stop_id\n0\n")
    (room / "d.csv").write_text("stop_id\n")
    arguments = ["--feed", "feed", *ASKED, "--origins", "o.csv", "--destinations", "d.csv"]
    return Run(f"{count} stops, and no destination", arguments, "scenario,origin,share,access_1800\nbase,0,50,2\n")


def stops(room: Path, count: int) -> Run:
    """A row of so many cells."""
    line_of_stops(room, count)
    (room / "o.csv").write_text("stop_id\n0\n")
    out = "scenario,origin,share,access_1800," + ",".join(map(str, range(count))) + "\n"
    out += f"base,0,50,2,0{',' * (count - 1)}600\n"
    return Run(f"{count} stops", ["--feed", "feed", *ASKED, "--origins", "o.csv"], out)


def forty_one_thousand_stops(room: Path) -> Run:
    return stops(room, 41_000)


def sixty_thousand_stops(room: Path) -> Run:
    return stops(room, 60_001)


def the_most_stops(room: Path) -> Run:
    return stops(room, 65_535)


def past_a_gibibyte(room: Path) -> Run:
    """A file of one byte more than a file may have."""
    small(room)
    os.truncate(room / "feed/stops.txt", 1024 * MIB + 1)
    arguments = ["--feed", "feed", *ASKED, "--origins", "a.csv"]
    return Run("a file of 2^30 + 1 bytes", arguments, "", "ttm: feed/stops.txt: too long\n", 2)


def walks(room: Path, count: int, footpaths: Iterator[str], origin: int, walk: int) -> list[str]:
    """Writes so many stops, footpaths between them and an origin that no trip leaves in time; gives the arguments."""
    line_of_stops(room, count)
    (room / "footpaths.csv").write_text("from_stop_id,to_stop_id,seconds\n" + "".join(footpaths))
    (room / "o.csv").write_text(f"stop_id\n{origin}\n")
    arguments = ["--feed", "feed", *ASKED, "--footpaths", "footpaths.csv", "--origins", "o.csv"]
    arguments[arguments.index("--walk") + 1] = str(walk)
    return arguments


def row_of(origin: int, times: list[str]) -> str:
    """The matrix of one row, of which each time is within the limit of access."""
    head = ",".join(["scenario,origin,share,access_1800", *map(str, range(len(times)))])
    return f"{head}\nbase,{origin},50,{sum(map(bool, times))},{','.join(times)}\n"


def around_a_hub() -> Iterator[str]:
    return (f"0,{stop},60\n{stop},0,60\n" for stop in range(1, HUB + 1))


def hub_within_a_limit(room: Path) -> Run:
    arguments = walks(room, HUB + 1, around_a_hub(), 5, 119)
    times = ["60", "", "", "", "", "0", *[""] * (HUB - 5)]
    return Run("a hub where no chain of two footpaths is within the limit", arguments, row_of(5, times))


def ring_of_a_million(room: Path) -> Run:
    """From the last stop to the 600 that follow it: those from stop 0 on."""
    count = 2_000
    near = (f"{stop},{(stop + step) % count},60\n" for stop in range(count) for step in range(1, NEAR + 1))
    arguments = walks(room, count, near, count - 1, 60)
    times = ["60"] * NEAR + [""] * (count - 1 - NEAR) + ["0"]
    return Run("1,200,000 direct footpaths", arguments, row_of(count - 1, times))


RUNS = [
    all_options,
    many_rows,
    over_an_hour,
    a_whole_day,
    great_sums,
    access_alone,
    long_path,
    long_line,
    past_a_mebibyte,
    past_500_megabytes,
    past_a_gibibyte,
    hub_within_a_limit,
    ring_of_a_million,
    forty_one_thousand_stops,
    sixty_thousand_stops,
    the_most_stops,
]

Left = tuple[str, str, int]


def left_by(program: str, arguments: list[str], room: Path) -> Left:
    ran = subprocess.run([program, *arguments], cwd=room, capture_output=True, text=True, timeout=SECONDS)
    return ran.stdout, ran.stderr, ran.returncode


def first_difference(was: Left, wanted: Left) -> str:
    """Where two answers differ, in a line; nothing where they are the same."""
    if was == wanted:
        return ""
    for name, one, other in zip(("output", "error"), was, wanted):
        if one != other:
            at = next(
                (n for n, (a, b) in enumerate(zip(str(one), str(other))) if a != b), min(len(str(one)), len(str(other)))
            )
            found, expected = str(one)[at : at + 60], str(other)[at : at + 60]
            return f"{name} differs at byte {at + 1}: {found!r} in place of {expected!r}; {was[1][:200]}"
    return f"status {was[2]} in place of {wanted[2]}"


@pytest.mark.parametrize("lay_out", RUNS, ids=attrgetter("__name__"))
def test_size(one_build: str, tmp_path: Path, lay_out: Callable[[Path], Run]) -> None:
    run = lay_out(tmp_path)
    was, wanted = left_by(one_build, run.words, tmp_path), (run.out, run.err, run.status)
    assert first_difference(was, wanted) == ""
    shutil.rmtree(tmp_path)  # pytest keeps the folders of its last three runs


def test_the_greatest_feed_and_one_more_of_each_that_has_a_limit(one_build: str, tmp_path: Path) -> None:
    subprocess.run([sys.executable, str(GREATEST), str(tmp_path)], check=True)
    arguments = (
        "--feed . --footpaths footpaths.csv --origins origins.csv --walk 600 --date 20260504 --back 0 --ahead 0".split()
    )
    arguments += "--from 08:00 --to 08:00 --trips 4 --share 50 --within 600 --workers 1 --tries 1".split()
    out, err, status = left_by(one_build, arguments, tmp_path)
    assert (status, err[:200], out.count("\n")) == (0, "", 2)
    head, row = out.split("\n")[:2]
    assert head.split(",")[4:] == [str(number) for number in range(65_535)], head[:200]
    # the first stops are a ring with a second between neighbours, and no ride is as quick
    cells = row.split(",")[4:]
    assert len(cells) == 65_535
    assert cells[:RING] == [str(min(stop, RING - stop)) for stop in range(RING)], row[:200]
    past = [
        ("footpaths.csv", "0,65534,1\n", "too many footpaths"),
        ("stop_times.txt", "0,28:00:00,28:00:00,0,9\n", "stop_times.txt: record 8000002: too many"),
        ("trips.txt", "R,D,1000000\n", "trips.txt: record 1000002: too many"),
        ("stops.txt", "65535\n", "stops.txt: record 65537: too many"),
    ]
    for name, record, line in past:
        with open(tmp_path / name, "a") as file:
            file.write(record)
        was, wanted = left_by(one_build, arguments, tmp_path), ("", f"ttm: {line}\n", 2)
        assert first_difference(was, wanted) == "", name
    shutil.rmtree(tmp_path)
