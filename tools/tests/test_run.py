"""`ttm-tools run`: from a published feed to a matrix, a map and a page, with times worked out by hand."""

import csv
import datetime
import zipfile
from pathlib import Path

import pytest

from helpers import Room

for package in ("pandas", "matplotlib", "jinja2", "pyproj"):
    pytest.importorskip(package)

from test_api_network import FEED  # noqa: E402
from ttm_tools.core.errors import InputError  # noqa: E402
from ttm_tools.gtfs.feeds import read_folder  # noqa: E402
from ttm_tools.gtfs.service_days import busiest_day  # noqa: E402

CALENDAR = FEED["calendar.txt"].splitlines()[0]


def zipped(room: Room, **changed: str) -> str:
    """Writes the feed as it is published; texts replace its files."""
    path = room.path("town.zip")
    with zipfile.ZipFile(path, "w") as file:
        for name, text in FEED.items():
            file.writestr(name, changed.get(name.removesuffix(".txt"), text))
    return path


def feed_on(folder: Path, *calendar: str) -> Path:
    folder.mkdir()
    for name, text in FEED.items():
        (folder / name).write_text(text)
    (folder / "calendar.txt").write_text("\n".join([CALENDAR, *calendar]) + "\n")
    return folder


@pytest.mark.parametrize(
    "calendar, expected",
    [
        (["s,1,1,1,1,1,1,1,20260501,20260531"], "2026-05-04"),  # of a Friday to Sunday, the day before isn't served
        (["s,0,0,1,0,0,0,0,20260501,20260531"], "2026-05-06"),
        (["s,0,0,0,0,0,1,1,20260501,20260531"], "2026-05-02"),  # no weekday
        (["s,1,1,1,1,1,1,1,20260504,20260506"], "2026-05-05"),  # the only day with one before and one after it
    ],
)
def test_the_day_is_a_weekday_with_the_most_trips(tmp_path: Path, calendar: list[str], expected: str) -> None:
    feed = feed_on(tmp_path / "feed", *calendar)
    day, trips = busiest_day(read_folder(feed, ()))
    assert (day, trips) == (datetime.date.fromisoformat(expected), 2)


def test_a_feed_without_any_day_has_no_busiest(tmp_path: Path) -> None:
    feed = feed_on(tmp_path / "feed", "s,0,0,0,0,0,0,0,20260504,20260508")
    with pytest.raises(InputError, match="calendar.txt: no trip runs on any day"):
        busiest_day(read_folder(feed, ()))


def test_one_command_leads_from_a_feed_to_matrix_map_and_page(
    room: Room, program: str, monkeypatch: pytest.MonkeyPatch
) -> None:
    monkeypatch.chdir(room.folder)
    late = FEED["stop_times.txt"].replace("08:30:00,08:30:00,A", "8:30:0,8:30:0,A")  # repaired
    given = ["--from", "07:58", "--to", "08:00", "--workers", "2", "--program", program]
    out, said, status = room.ran("run", zipped(room, stop_times=late), *given)
    assert (out, status) == ("", 0)
    with open("town-run/matrix.csv", newline="") as file:
        table = list(csv.DictReader(file))
    assert [(row["origin"], row["A"], row["B"], row["C"]) for row in table] == [
        ("A", "0", "660", "1260"),  # the median of departures 120, 60 and 0 seconds ahead of the trip
        ("B", "", "0", "1260"),  # the trip leaves B at 08:10, 11 minutes after 07:59
        ("C", "", "", "0"),
    ]
    assert Path("town-run/access.png").read_bytes()[:4] == b"\x89PNG"
    assert "07:58" in Path("town-run/page.html").read_text()
    lines = said.splitlines()
    assert lines[0] == f"ttm-tools prepare --repair --out town-run/feed {room.path('town.zip')}"
    assert "2026-05-05, a Tuesday, has the most trips: 2 trips" in lines
    command = next(line for line in lines if line.startswith(program))
    assert " --date 20260505 --from 07:58 --to 08:00 --trips 4 --walk 600 --workers 2 " in command
    assert command.endswith(" --report > town-run/matrix.csv")
    assert lines[-1] == "town-run: access.png, matrix.csv, page.html"


def test_each_choice_is_an_option(room: Room, program: str) -> None:
    given = ["--date", "20260504", "--from", "08:00", "--to", "08:00", "--share", "25,75", "--cutoffs", "10,20"]
    given += ["--no-map", "--no-page", "--program", program, "--out", room.path("own")]
    out, said, status = room.ran("run", *given, zipped(room))
    assert status == 0
    assert {path.name for path in Path(room.path("own")).iterdir()} == {"feed", "matrix.csv"}
    with open(room.path("own/matrix.csv"), newline="") as file:
        table = list(csv.DictReader(file))
    assert [(row["share"], row["access_600"], row["access_1200"]) for row in table[:2]] == [
        ("25", "2", "3"),
        ("75", "2", "3"),
    ]
    assert "most trips" not in said


def test_what_the_engine_refuses_is_said_at_once(room: Room, program: str) -> None:
    origins = room.write("origins.csv", "stop_id", [["A"], ["X"]])
    options = ["--program", program, "--out", room.path("own"), "--no-map", "--no-page"]
    out, said, status = room.ran("run", "--origins", origins, *options, zipped(room))
    assert (out, status) == ("", 1)
    last = "ttm-tools run: origins: record 3: stop_id 'X' unknown stop; allowed: stops.txt has to name it"
    assert said.splitlines()[-1].startswith(last)
    assert {path.name for path in Path(room.path("own")).iterdir()} == {"feed"}


def test_a_feed_with_errors_is_refused_without_repair(room: Room, program: str) -> None:
    bad = FEED["stop_times.txt"].replace("08:10:00,08:10:00,B", "8.10,8.10,B")
    path = zipped(room, stop_times=bad)
    before = room.names()
    out, said, status = room.ran("run", "--no-repair", "--program", program, "--out", room.path("own"), path)
    assert (out, status) == ("", 1)
    assert "stop_times.txt: record 3: bad time" in said.splitlines()[-1]
    assert room.names() == before


def test_a_folder_with_files_is_not_written_to(room: Room, program: str) -> None:
    (room.folder / "own").mkdir()
    room.write("own/mine.csv", "a", [])
    given = ["--program", program, "--out", room.path("own"), zipped(room)]
    room.refused(f"{room.path('own')}: already exists, and isn't empty", "run", *given)


def test_a_distance_to_streets_needs_streets(room: Room) -> None:
    before = room.names()
    expected = ("", "ttm-tools run: --near goes with --streets\n", 2)
    assert room.ran("run", "--near", "50", "--out", room.path("own"), room.path("town.zip")) == expected
    assert room.names() == before
