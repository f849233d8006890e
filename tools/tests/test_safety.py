"""Inputs never run in a page, become mathematics of a picture, or get lost without a line."""

import random
import subprocess
import sys
from pathlib import Path
from typing import Any, Iterator

import pytest

from helpers import CALENDAR, LAUNCHER, STOP_TIMES, Cell, Room, Town, launched, town_matrix
from ttm_tools.core.text import markdown, printed
from ttm_tools.gtfs.feeds import read_feed
from ttm_tools.gtfs.service_days import days_of, runs_by_day
from ttm_tools.study.document import Document

HOSTILE = "<img src=x onerror=alert(1)> | [a](javascript:b) `c` *d* &lt;"


def small_feed(
    room: Room, calendar: list[Any] | None = None, dates: list[list[Any]] | None = None, route: str = "R"
) -> str:
    folder = room.folder / "feed"
    folder.mkdir()
    room.write(
        "feed/stops.txt", "stop_id,stop_name,stop_lat,stop_lon", [["A", "Alpha", 50, 7], ["B", "Beta", 50.01, 7]]
    )
    room.write("feed/routes.txt", "route_id,route_type", [[route, 3]])
    room.write("feed/trips.txt", "route_id,service_id,trip_id", [[route, "M", "T"]])
    rows: list[list[Any]] = [calendar] if calendar else [["M", *[1] * 7, 20260504, 20260531]]
    room.write("feed/calendar.txt", CALENDAR[0], rows)
    if dates:
        room.write("feed/calendar_dates.txt", "service_id,date,exception_type", dates)
    rows = [["T", *["08:00:00"] * 2, "A", 1], ["T", *["08:10:00"] * 2, "B", 2]]
    room.write("feed/stop_times.txt", STOP_TIMES, rows)
    return str(folder)


@pytest.mark.parametrize("dates", [[], [["M", 20260505, 2]], [["M", 20260505, 1]]])
def test_rows_of_a_calendar_without_an_end_count(room: Room, dates: list[list[Any]]) -> None:
    feed = small_feed(room, ["M", *[1] * 7, 20260504, 99991231], dates)
    out, _, status = room.ran("prepare", "--check", feed)
    assert status == 0 and "runs from 2026-05-04 to 2049-12-31" in out
    days = days_of(read_feed(feed, room.folder))
    assert runs_by_day(read_feed(feed, room.folder), days).sum() == days.runs.shape[1] - (
        dates[:1] == [["M", 20260505, 2]]
    )


def test_a_new_line_of_a_feed_without_an_end_runs_on_all_its_days(room: Room) -> None:
    pytest.importorskip("pandas")
    feed = small_feed(room, ["M", *[1] * 7, 20260504, 99991231], [["M", 20260505, 2]])
    plan = Path(room.path("plan.toml"))
    line = 'do = "add_line"\nroute = "N"\nstops = ["A", "B"]\nseconds = [60]\ndays = "daily"\n'
    line += 'departures = [{ first = "08:00", last = "08:00", every = 60 }]\n'
    plan.write_text(f'[[scenario]]\nname = "new"\n[[scenario.action]]\n{line}')
    _, said, status = room.ran("scenarios", "--out", room.path("out"), feed, str(plan))
    assert status == 0, said
    days = days_of(read_feed(room.path("out"), room.folder))
    result = dict(zip(days.services, days.runs.sum(axis=1).tolist()))
    assert sorted(result.values())[-1] > 8000 and all(count > 8000 for count in result.values()), result


def test_names_are_text_wherever_they_are_rendered(town: Town) -> None:
    town.matrix(town_matrix(True))
    spread = [[name, stop, HOSTILE, 50, 30, 7.5] for name in ("base", "cut") for stop in "AD"]
    access = town.write("access.csv", "scenario,id,opportunity,percentile,cutoff,accessibility", spread)
    people = town.write("people.csv", f"stop_id,{HOSTILE}", [["A", 7], ["D", 8]])
    assert town.ran("equity", access, "--people", people, "--form", "markdown", "--out", town.path("equity.md"))[2] == 0
    assert "<img src=x" not in (town.folder / "equity.md").read_text()


def test_names_are_text_in_a_report() -> None:
    result = Document(HOSTILE)
    result.heading(HOSTILE)
    result.table(HOSTILE, [HOSTILE], [[HOSTILE]])
    result.link(HOSTILE, HOSTILE)
    result.code([HOSTILE])
    for text in (markdown(HOSTILE), result.as_html()):
        assert "<img src=x" not in text and "onerror" in text
    outside = [line for line in result.as_markdown().splitlines() if not line.startswith("    ")]
    assert not [line for line in outside if "<img" in line or "[a](" in line]


def test_a_route_is_text_in_what_is_told_of_scenarios(room: Room) -> None:
    pytest.importorskip("pandas")
    feed = small_feed(room, route=HOSTILE)
    plan = Path(room.path("plan.toml"))
    plan.write_text(f'[[scenario]]\nname = "cut"\n[[scenario.action]]\ndo = "remove_route"\nroute = \'{HOSTILE}\'\n')
    assert room.ran("scenarios", "--out", room.path("out"), feed, str(plan))[2] == 0
    text = Path(room.path("out/scenarios.md")).read_text()
    assert "<img" not in text and "onerror" in text


@pytest.mark.parametrize("text", ["$5 and $6", "$\\frac$", "a $x", "$$", "\\$", "100 % $y_1$ €"])
def test_dollars_are_no_mathematics(town: Town, text: str, monkeypatch: pytest.MonkeyPatch) -> None:
    pytest.importorskip("matplotlib")
    from matplotlib.figure import Figure
    from matplotlib.text import Text

    figures, save = list[Any](), Figure.savefig

    def saved(figure: Any, *arguments: Any, **more: Any) -> None:
        figures.append(figure)
        save(figure, *arguments, **more)

    monkeypatch.setattr(Figure, "savefig", saved)
    town.matrix(town_matrix(True, {"base": {"A": [0, 300, 900, 2400]}, text: {"A": [0, 360, 1900, ""]}}))
    jobs = town.write("jobs.csv", f"stop_id,{text}", [["A", 7], ["D", 8]])
    spread = [[name, stop, text, 50, 30, 7.5] for name in ("base", text) for stop in "AD"]
    access = town.write("access.csv", "scenario,id,opportunity,percentile,cutoff,accessibility", spread)
    places = [[stop, text, number / 100, 9] for number, stop in enumerate("ABCD")]
    town.write("stops.txt", "stop_id,stop_name,stop_lat,stop_lon", places)
    out = ["--out", town.path("made.png"), "--feed", town.feed]
    table, picture = ["--out", town.path("made.csv"), "--force"], ["--picture", town.path("made.png")]
    for arguments in (
        ["map", "access", "--unit", text, "--title", text, "--scenario", text, *out, town.file],
        ["map", "difference", "--unit", text, *out, town.file],
        ["map", "times", "--origin", "A", *out, town.file],
        ["equity", access, "--people", jobs, *table, *picture],
        ["bands", access, "--people", jobs, *table, *picture, "--bands", "10,20"],
    ):
        _, said, status = town.ran(*arguments)
        assert status == 0, said
        drawn = [item for item in figures.pop().findobj(Text) if text in item.get_text()]
        assert drawn and not any(item.get_parse_math() for item in drawn), arguments


def test_signs_that_are_not_printed_are_shown_as_ttm_shows_them() -> None:
    assert printed("a\x1b[31mb\x07\x9b\u202ec é") == "a?[31mb???c é"


def test_old_parts_are_told_and_not_left_for_a_glob(town: Town) -> None:
    arguments = ["split", "--feed", town.feed, "--out", town.path("parts")]
    assert town.ran(*arguments, "--parts", "4")[2] == 0
    line = f"{town.path('parts')}/part_0003.csv: belongs to another split: name another folder, or remove it"
    assert town.ran(*arguments, "--parts", "2") == ("", f"ttm-tools split: {line}\n", 1)
    assert town.ran(*arguments, "--parts", "4")[2] == 0


def test_a_full_disk_names_what_is_written(room: Room) -> None:
    feed = small_feed(room)
    Path(room.path("feed/notes.txt")).write_text("x" * 3_000_000)
    program = "import resource; resource.setrlimit(resource.RLIMIT_FSIZE, (1 << 20, 1 << 20))\nimport runpy, sys\n"
    program += f"sys.argv = ['ttm-tools', 'prepare', '--out', {room.path('out')!r}, {feed!r}]\n"
    program += f"runpy.run_path({LAUNCHER!r}, run_name='__main__')\n"
    ran = subprocess.run([sys.executable, "-c", program], capture_output=True, text=True)
    assert ran.returncode == 1 and ran.stderr.count("\n") == 1
    assert ran.stderr.endswith("notes.txt: File too large\n") and "/feed/" not in ran.stderr, ran.stderr
    assert not Path(room.path("out")).exists()


def test_a_geopackage_that_is_not_whole_is_not_there(town: Town) -> None:
    pytest.importorskip("geopandas")
    town.matrix(town_matrix(True))
    program = "import resource; resource.setrlimit(resource.RLIMIT_FSIZE, (60_000, 60_000))\nimport runpy, sys\n"
    arguments = ["ttm-tools", "gis", "--feed", town.feed, "--out", town.path("made.gpkg"), town.file]
    program += f"sys.argv = {arguments!r}\nrunpy.run_path({LAUNCHER!r}, run_name='__main__')\n"
    ran = subprocess.run([sys.executable, "-c", program], capture_output=True, text=True)
    assert ran.returncode == 1 and ran.stderr.count("\n") == 1, ran.stderr
    assert not [name for name in town.names() if "made.gpkg" in name]


@pytest.fixture
def full_disk(room: Room) -> Iterator[Path]:
    """A disk with room for some 60,000 bytes, where root may mount one."""
    folder = room.folder / "disk"
    folder.mkdir()
    mounted = subprocess.run(["mount", "-t", "tmpfs", "-o", "size=64k", "tmpfs", folder], capture_output=True)
    if mounted.returncode:
        pytest.skip("no disk can be mounted")
    yield folder
    subprocess.run(["umount", folder], check=True)


def test_what_a_full_disk_does_not_take_is_not_there(room: Room, full_disk: Path, tmp_path: Path) -> None:
    pytest.importorskip("geopandas")
    pytest.importorskip("h5py")
    names = [f"S{number}" for number in range(400)]
    places = [[name, f"Stop {name}", 50 + number / 1000, 7] for number, name in enumerate(names)]
    room.write("stops.txt", "stop_id,stop_name,stop_lat,stop_lon", places)
    draw = random.Random(1)
    times: dict[str, list[Cell]] = {name: [draw.randrange(3600) for _ in names] for name in names}
    (tmp_path / "matrix.csv").write_text(town_matrix(True, {"base": times}, stops=names))
    feed, matrix = str(tmp_path), room.path("matrix.csv")
    for name, arguments in (
        ("made.gpkg", ["gis", "--feed", feed, "--origin", "S0"]),
        ("made.json", ["gis", "--feed", feed, "--origin", "S0"]),
        ("made.omx", ["omx"]),
        ("made.csv", ["long", "--feed", feed]),
    ):
        ran = launched(*arguments, "--out", str(full_disk / name), matrix)
        said = ran.stderr.decode()
        assert ran.returncode == 1 and said.count("\n") == 1 and str(full_disk / name) in said, said
        assert list(full_disk.iterdir()) == [], said


def test_a_comma_for_a_point_and_formulas_are_told(room: Room) -> None:
    feed = small_feed(room)
    rows = [["A", '=HYPERLINK("x")', "50,5", 7], ["B", "+1", 50.01, 7]]
    room.write("feed/stops.txt", "stop_id,stop_name,stop_lat,stop_lon", rows)
    out, _, status = room.ran("prepare", "--check", feed)
    assert status == 0
    assert "stops.txt: 1 stop with a decimal comma in a coordinate, such as 50,5" in out
    assert "stops.txt: 2 names that a spreadsheet reads as a formula, such as =HYPERLINK" in out
    points = room.write("points.csv", "id,lat,lon", [["P", "51,5", 7]])
    arguments = ["points", "--out", room.path("out"), feed, points]
    assert "value" not in room.ran(*arguments)[1] and "'51,5' is invalid" in room.ran(*arguments)[1]


def test_advice_is_of_what_was_not_done_yet(room: Room, monkeypatch: pytest.MonkeyPatch) -> None:
    feed = small_feed(room)
    Path(room.path("feed/stop_times.txt")).write_text("trip_id\n")
    _, said, _ = room.ran("prepare", "--repair", "--out", room.path("out"), feed)
    assert "--repair" not in said and "--check" in said, said
    _, said, _ = room.ran("prepare", "--out", room.path("out"), feed)
    assert "--repair" in said
    points = room.write("points.csv", "id,lat,lon", [["P", 50, 7], ["Q", 50, 7.001], ["S", 50, 7.002]])
    room.write("feed/stop_times.txt", STOP_TIMES, [["T", *["08:00:00"] * 2, "A", 1], ["T", *["08:10:00"] * 2, "B", 2]])
    monkeypatch.setattr("ttm_tools.places.folder.MOST_STOPS", 4)
    choices: list[list[str]] = [[], ["--leave-out"]]
    for more in choices:
        _, said, _ = room.ran("points", *more, "--out", room.path("out"), feed, points)
        assert "more than the 4 that ttm takes" in said and ("--leave-out" in said) == (not more), said


def test_many_pairs_are_told_while_they_are_counted(room: Room, monkeypatch: pytest.MonkeyPatch) -> None:
    feed = small_feed(room)
    points = room.write("points.csv", "id,lat,lon", [[f"P{n}", 50 + n / 1e5, 7] for n in range(300)])
    monkeypatch.setattr("ttm_tools.streets.counting.MOST_FOOTPATHS", 1000)
    monkeypatch.setattr("ttm_tools.streets.straight.PAIRS_AT_ONCE", 500)
    arguments: list[str] = ["points", "--out", room.path("out"), feed, points]
    assert "more than the 1,000 walks that ttm takes" in room.ran(*arguments)[1]
    assert "more than the 1,000 walks that ttm takes" in room.ran(*arguments, "--leave-out")[1]
