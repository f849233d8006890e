"""Rooms in which commands run, a little town, and its matrices."""

import csv
import io
import itertools
import math
import signal
import subprocess
import sys
import time
from pathlib import Path
from typing import Any, Callable, Mapping, Sequence

import pytest

from ttm_tools import cli
from ttm_tools.gtfs.stops import EARTH

Cell = int | str
Table = list[list[Any]]
Rows = Mapping[str, Sequence[Cell]]
METRE = 180 / (math.pi * EARTH)  # of latitude, in degrees
# a metre at the equator of the ellipsoid WGS 84, in degrees of latitude and of longitude
NORTHWARDS, EASTWARDS = 1 / 110_574.2758, 1 / 111_319.4908
LAUNCHER = str(Path(__file__).resolve().parent.parent / "ttm-tools")
CALENDAR = (
    "service_id,monday,tuesday,wednesday,thursday,friday,saturday,sunday,start_date,end_date",
    [["M", *[1] * 7, 20260504, 20260531]],
)
LONGEST_WAIT = 120  # seconds for what takes a moment on a machine without other work
STOP_TIMES = "trip_id,arrival_time,departure_time,stop_id,stop_sequence"

# Two scenarios of a little town: travel times in seconds from each origin to A, B, C and D, "" where there are none.
TOWN: dict[str, dict[str, list[Cell]]] = {
    "base": {"A": [0, 300, 900, 2400], "D": [1500, "", 600, 0]},
    "cut": {"A": [0, 360, 1900, ""], "D": [1400, 1700, 600, 0]},
}


def town_matrix(
    second_form: bool,
    scenarios: Mapping[str, Rows] = TOWN,
    shares: Sequence[int] = (50,),
    limits: Sequence[int] = (1800,),
    stops: Sequence[str] = ("A", "B", "C", "D"),
) -> str:
    """The town's matrix as text, in the form without shares or in that with them; travel times grow with the share."""
    out = io.StringIO()
    writer = csv.writer(out, lineterminator="\n")
    heads = ["share", *[f"access_{limit}" for limit in limits]] if second_form else ["access"]
    writer.writerow(["scenario", "origin", *heads, *stops])
    for scenario, rows in scenarios.items():
        for (origin, times), share in itertools.product(rows.items(), shares):
            cells = [time if isinstance(time, str) else time * share // 50 for time in times]
            access = [sum(isinstance(cell, int) and cell <= limit for cell in cells) for limit in limits]
            writer.writerow([scenario, origin, *[share] * second_form, *access, *cells])
    return out.getvalue()


def as_in_a_terminal() -> None:
    """Sets the signals of a new process as a shell on a terminal does, whatever what runs the tests ignores (nohup)."""
    for number in (signal.SIGHUP, signal.SIGINT, signal.SIGQUIT):
        signal.signal(number, signal.SIG_DFL)


def wait_until(holds: Callable[[], bool]) -> None:
    """Waits until something holds: for minutes, since a machine may have other work. It fails where it never does."""
    end = time.monotonic() + LONGEST_WAIT
    while not holds():
        assert time.monotonic() < end, "waited for something that doesn't come"
        time.sleep(0.02)


def read(text: str) -> list[dict[str, str]]:
    return list(csv.DictReader(io.StringIO(text)))


class Room:
    """A folder in which files are written and commands run."""

    def __init__(self, folder: Path, captured: pytest.CaptureFixture[bytes]) -> None:
        self.folder, self.captured = folder, captured

    def path(self, name: str) -> str:
        return str(self.folder / name)

    def write(self, name: str, header: str, rows: Sequence[Sequence[Any]]) -> str:
        with open(self.folder / name, "w", newline="", encoding="utf-8") as file:
            csv.writer(file, lineterminator="\n").writerows([header.split(","), *rows])
        return self.path(name)

    def names(self) -> set[str]:
        """All files and folders of the room, hidden ones too."""
        return {str(path.relative_to(self.folder)) for path in self.folder.rglob("*")}

    def stops(self, *rows: Sequence[Any]) -> None:
        """Writes stops: name, metres north and east of a place near the equator, and then location_type and
        parent_station. The place isn't 0 and 0, which is not a place.
        """
        full = []
        for name, north, east, *more in rows:
            place = ["", ""] if north is None else [north * METRE, 1 + east * METRE]
            full.append([name, *place, *more, *[""] * (2 - len(more))])
        self.write("stops.txt", "stop_id,stop_lat,stop_lon,location_type,parent_station", full)

    def ran(self, *arguments: str) -> tuple[str, str, int]:
        """Runs a command as from a shell: its standard output, its standard error, its status."""
        self.captured.readouterr()
        try:
            status = cli.main(list(arguments))
        except SystemExit as ended:
            status = int(ended.code or 0)
        out, printed = self.captured.readouterr()
        return out.decode("utf-8", "surrogateescape"), printed.decode(), status

    def refused(self, message: str, *arguments: str) -> None:
        """The command ends with one line and the status 1, and leaves no new file."""
        before = self.names()
        assert self.ran(*arguments) == ("", f"ttm-tools {arguments[0]}: {message}\n", 1)
        assert self.names() == before

    def refused_with(self, message: str, *arguments: str) -> None:
        """The command ends with one line that begins so, and the status 1, and leaves no new file."""
        before = self.names()
        out, said, status = self.ran(*arguments)
        assert (out, status, said.count("\n")) == ("", 1, 1) and said.startswith(
            f"ttm-tools {arguments[0]}: {message}"
        ), said
        assert self.names() == before


class Town(Room):
    """A room with the town's feed, and its matrix once `matrix` has written it."""

    def __init__(self, folder: Path, captured: pytest.CaptureFixture[bytes]) -> None:
        super().__init__(folder, captured)
        self.feed = str(folder)
        self.file = self.path("matrix.csv")
        places = [["A", "Alpha", 0.0, 9.0], ["B", 'Béta, "the" square', 0.0, 9.01], ["C", "", 0.01, 9.01]]
        self.write("stops.txt", "stop_id,stop_name,stop_lat,stop_lon", [*places, ["D", "Delta", 0.02, 9.0]])
        trips = [["R", "M", "T", "s"], ["Q", "M", "U", "t"]]
        self.write("trips.txt", "route_id,service_id,trip_id,shape_id", trips)
        times = [["T", "08:00:00", "08:00:00", stop, number] for number, stop in enumerate("ABC")]
        times += [["U", "", "", stop, number] for number, stop in enumerate("CBAD")]
        self.write("stop_times.txt", STOP_TIMES, times)

    def matrix(self, text: str) -> str:
        Path(self.file).write_text(text)
        return self.file

    def take(self, program: str, arguments: str) -> None:
        """Writes what the program prints for these words."""
        matrix = subprocess.run([program, *arguments.split()], capture_output=True, check=True).stdout
        Path(self.file).write_bytes(matrix)


def launched(*arguments: str) -> "subprocess.CompletedProcess[bytes]":
    """Runs a command from the clone, in a process of its own."""
    return subprocess.run([sys.executable, LAUNCHER, *arguments], capture_output=True)
