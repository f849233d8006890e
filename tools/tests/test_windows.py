"""Several windows and days in a study, by hand on nine stops.

The stops lie 435 seconds of walking apart, and the stop Sk has 100 k + 0.4 jobs and k + 1 people. A bus leaves S0 at
08:00 and takes three minutes to each next stop; another one leaves S8 at 08:30 and takes a minute back to each stop.
"""

import io
import json
import os
import random
import tempfile
from pathlib import Path
from typing import Any

import numpy as np
import pytest

from asking import canned, script, standing_in
from helpers import CALENDAR, read
from test_study import STUDY, Place, bare, killed_after, place  # noqa: F401
from ttm_tools.core.signals import Interrupted
from ttm_tools.engine.arguments import EngineArguments
from ttm_tools.engine.conversation import Answer
from ttm_tools.matrices import open_matrix
from ttm_tools.measures.access_table import AccessKind, AccessTable
from ttm_tools.measures.opportunities import Counts
from ttm_tools.study.executors.conversation import KeptNetwork, PartQuestion, kept_arguments, question_of
from ttm_tools.study.executors.remote import ExecutorOptions
from ttm_tools.study.kinds import Window
from ttm_tools.study.parts import PartLayout, parts_for, remove_parts, remove_windows
from ttm_tools.study.results.window_changes import changes_of, write_changes
from ttm_tools.study.settings import DayWindow
from ttm_tools.study.study_file import read_study
from ttm_tools.study.work import make_study
from ttm_tools.views.windows import FigureLabels, WindowColumn, figure_by_time, figure_of_heat, figure_of_maps, levels

WINDOWS = (
    'windows = [{ name = "early", from = "08:00", to = "08:00" }, { name = "night", from = "21:00", to = "21:01" }]'
)
ONE = 'date = 2026-05-04\nfrom = "08:00"\nto = "08:04"\nshares = [25, 50]\nlimits = [600, 1800]\n'
SEVERAL = f"dates = [2026-05-04, 2026-05-05]\n{WINDOWS}\nlimits = [600, 1800]\n"
DAY = STUDY.replace(ONE, SEVERAL).replace("csv = true", "compare = false\nmaps = false")
NIGHT = (100.8 + 50400 + 42 + 9 * 1500.8) / 45  # everyone reaches the own stop and its neighbours
EARLY = NIGHT + (500.8 + 2 * 300.4) / 45  # S3 is reached by bus from S0 and from S1, too


def laid_out(place: Place, study: str = DAY) -> str:  # noqa: F811
    """The nine stops, where the bus along doesn't run on the second day."""
    path = place.lay_out(study)
    place.write("published/calendar.txt", CALENDAR[0], [*CALENDAR[1], ["N", *[1] * 7, 20260504, 20260531]])
    place.write("published/calendar_dates.txt", "service_id,date,exception_type", [["M", 20260505, 2]])
    place.write("published/trips.txt", "route_id,service_id,trip_id", [["R", "M", "T"], ["Q", "N", "U"]])
    return path


def table(place: Place, name: str) -> list[dict[str, str]]:  # noqa: F811
    return read(Path(place.path(f"nine/windows/{name}")).read_text())


def test_access_and_its_spread_by_window_and_day_by_hand(place: Place) -> None:  # noqa: F811
    assert place.ran("study", laid_out(place))[2] == 0
    kind = {"opportunity": "jobs", "cutoff": "10", "scenario": "base"}
    lines = [row for row in table(place, "equity.csv") if kind.items() <= row.items()]
    assert [(line["date"], line["window"], line["from"], line["to"]) for line in lines] == [
        ("2026-05-04", "early", "08:00", "08:00"),
        ("2026-05-04", "night", "21:00", "21:01"),
        ("2026-05-05", "early", "08:00", "08:00"),
        ("2026-05-05", "night", "21:00", "21:01"),
    ]
    assert [line["mean"] for line in lines] == [f"{line:.4f}" for line in (EARLY, NIGHT, NIGHT, NIGHT)]
    # the least tenth are 4.5 people: in the morning 3 of S2 and 1.5 of S0 and S1, at night 1 of S0, 2 of S1, 1.5 of S2
    morning, night = (3 * 601.2 + 1.5 * 601.6) / 4.5, (100.8 + 2 * 301.2 + 1.5 * 601.2) / 4.5
    assert [line["least_tenth"] for line in lines[:2]] == [f"{morning:.4f}", f"{night:.4f}"]
    kind = {**kind, "id": "S0", "date": "2026-05-04"}
    found = [row["accessibility"] for row in table(place, "access.csv") if kind.items() <= row.items()]
    assert found == ["601.6", "100.8"]
    report = Path(place.path("nine/report.md")).read_text()
    assert "windows/20260505\\_night.omx" in report and "early (08:00 to 08:00)" in report
    assert "What ttm reported about days, trips and walks for 20260505:" in report


def test_the_matrix_of_a_window_is_that_of_a_study_of_its_own(place: Place) -> None:  # noqa: F811
    assert place.ran("study", laid_out(place))[2] == 0
    one = 'date = 2026-05-05\nfrom = "08:00"\nto = "08:00"\nlimits = [600, 1800]\n'
    place.say(STUDY.replace(ONE, one).replace("csv = true", "compare = false\nmaps = false"))
    assert place.ran("study", place.path("nine.toml"), "--out", place.path("own"))[2] == 0
    same_matrix(place, "nine/windows/20260505_early.omx", "own/matrix.omx")


def test_a_study_compares_its_scenarios_in_each_window(place: Place) -> None:  # noqa: F811
    """At 08:25 the bus back is five minutes away. Without it, within ten minutes, S8 loses S6 to S3, S7 loses S5 to S3,
    S6 loses S4 and S3, and S5 loses S3; of 45 people 9, 8, 7 and 6 live there. At 08:00 it is too far away for all.
    """
    study = DAY.replace("compare = false\n", "").replace(
        '"night", from = "21:00", to = "21:01"', '"late", from = "08:25", to = "08:25"'
    )
    assert place.ran("study", laid_out(place, study))[2] == 0
    lost = 9 * (600 + 500 + 400 + 300 + 1.6) + 8 * (500 + 400 + 300 + 1.2) + 7 * (400 + 300 + 0.8) + 6 * 300.4
    kind = {"opportunity": "jobs", "cutoff": "10", "scenario": "cut"}
    lines = [row for row in table(place, "compare.csv") if kind.items() <= row.items()]
    found = [(line["date"][-1], line["window"], line["lose"], line["gain"], line["mean_change"]) for line in lines]
    assert found == [
        ("4", "early", "0", "0", "0"),
        ("4", "late", "4", "0", f"{-lost / 45:.4f}"),
        ("5", "early", "0", "0", "0"),
        ("5", "late", "4", "0", f"{-lost / 45:.4f}"),
    ]
    # S5 loses 300.4 of some 1,800, a sixth; the others lose more than a quarter
    wanted = {"opportunity": "jobs", "minutes": "10", "scenario": "cut", "group": "all"}
    kept = [row for row in table(place, "who_gains.csv") if wanted.items() <= row.items()]
    found_of_people = [(row["date"][-1], row["window"], row["threshold"], row["people_lose"]) for row in kept]
    assert found_of_people == [
        (date, window, threshold, lose)
        for date in "45"
        for window, both in (("early", ("0", "0")), ("late", ("30", "24")))
        for threshold, lose in zip(("10", "25"), both)
    ]
    report = Path(place.path("nine/report.md")).read_text()
    comparison = report[report.index("### cut compared with base") :]
    assert comparison.index("windows/compare.csv") < comparison.index("In the first window, 2026-05-04, early")
    assert "of 9 origins 0 lose, 0 gain" in comparison[comparison.index("In the first window") :]


def same_matrix(place: Place, one: str, other: str) -> None:  # noqa: F811
    first, second = (open_matrix(place.path(name)) for name in (one, other))
    assert first.scenarios == second.scenarios == ["base", "cut"]
    for name in first.scenarios:
        assert first.rows(name, 50, 0, 9).tobytes() == second.rows(name, 50, 0, 9).tobytes()
        assert first.access(name, 50).tolist() == second.access(name, 50).tolist()


def test_a_ttm_that_keeps_its_network_gives_the_same_bytes(
    place: Place, program: str, monkeypatch: pytest.MonkeyPatch  # noqa: F811
) -> None:
    path = laid_out(place)
    assert place.ran("study", path)[2] == 0
    said = place.path("asked.txt")
    text = f'#!/bin/bash\ncase "$*" in *--ask*) echo "$*" >> {said} ;; esac\nexec {program} "$@"\n'
    monkeypatch.setenv("TTM_PROGRAM", script(place.folder / "asks", text))
    assert place.ran("study", path, "--workers", "2", "--out", place.path("kept"))[2] == 0
    questions = Path(said).read_text().splitlines()
    assert {item.split("--date ")[1].split()[0] for item in questions} == {"20260504", "20260505"} and len(
        questions
    ) <= 4
    for name in ("20260504_night", "20260505_early", "20260505_night"):
        same_matrix(place, f"nine/windows/{name}.omx", f"kept/windows/{name}.omx")


def test_a_study_of_windows_killed_at_drawn_moments_has_the_same_bytes(place: Place) -> None:  # noqa: F811
    study = read_study(laid_out(place))
    make_study(study, place.folder / "nine", ExecutorOptions(2))
    wanted, drawn = place.made(), random.Random(7)
    kills = 0
    while not killed_after(drawn.uniform(0, 6), lambda: make_study(study, place.folder / "killed", ExecutorOptions(2))):
        kills += 1
    found = place.made("killed")
    assert sorted(found) == sorted(wanted)
    assert [name for name in wanted if found[name] != wanted[name]] == []
    assert not [path for path in (place.folder / "killed").rglob(".part.*")]


def test_what_is_done_of_windows_is_not_done_again(place: Place) -> None:  # noqa: F811
    path = laid_out(place)

    def stages() -> list[str]:
        _, errors, status = place.ran("study", path)
        assert status == 0, errors
        return [line.removesuffix(" ..") for line in errors.splitlines() if line.endswith(" ..")]

    assert {"matrix_20260504_night", "days_20260505", "windows_access"} < set(stages())
    assert stages() == []
    place.say(DAY.replace("21:01", "21:02"))
    assert stages() == ["matrix_20260504_night", "matrix_20260505_night", "windows_access", "report"]
    Path(place.path("nine/windows/20260505_early.omx")).unlink()
    assert stages() == ["matrix_20260505_early"]


def test_the_parts_of_all_windows_are_kept_and_used_again(
    place: Place, program: str, monkeypatch: pytest.MonkeyPatch  # noqa: F811
) -> None:
    path = laid_out(place, DAY.replace("keep = true\n", "").replace("[parts]", "[parts]\nkeep = true"))
    assert place.ran("study", path)[2] == 0
    folder = place.folder / "nine"
    names = {"", "20260504_night/", "20260505_early/", "20260505_night/"}
    kept = {str(path.relative_to(folder / "parts")) for path in (folder / "parts").rglob("matrix.csv")}
    assert kept == {f"{name}000{number}/matrix.csv" for name in names for number in range(1, 5)}
    wanted = {path: path.read_bytes() for path in [folder / "matrix.omx", *(folder / "windows").glob("*.omx")]}
    for item in wanted:
        item.unlink()
    runs = place.folder / "runs.txt"
    text = f'#!/bin/bash\n[ "$1" = --version ] || echo "$*" >> {runs}\nexec {program} "$@"\n'
    monkeypatch.setenv("TTM_PROGRAM", script(place.folder / "ttm", text))
    assert place.ran("study", path)[2] == 0
    assert {item: item.read_bytes() for item in wanted} == wanted and not runs.exists()
    place.say(Path(path).read_text().replace("keep = true", "keep = false"))
    assert place.ran("study", path)[2] == 0
    assert not (folder / "parts").exists()


def test_parts_of_other_windows_are_removed_and_foreign_files_stay(tmp_path: Path) -> None:
    with standing_in(tmp_path):
        for window in ("", "20260504_night", "20260504_gone"):
            parts_for(["A"], 1, "key", window)[0].begin()
        Path("parts/20260504_gone/mine.txt").write_text("mine")
        remove_windows(tmp_path, {"20260504_night"})
        names = {str(path) for path in Path("parts").rglob("*") if path.is_file()}
        assert names == {f"parts/{name}" for name in ("0001/origins.csv", "20260504_night/0001/origins.csv")} | {
            "parts/20260504_gone/mine.txt"
        }
        remove_parts(tmp_path)
        assert [str(path) for path in Path("parts").rglob("*") if path.is_file()] == ["parts/20260504_gone/mine.txt"]


def test_verification_computes_the_rows_of_all_windows_again(place: Place) -> None:  # noqa: F811
    assert place.ran("study", laid_out(place))[2] == 0
    assert place.ran("study", "--verify", place.path("nine"), "--seed", "7")[2] == 0
    notes = json.loads(Path(place.path("nine/study.json")).read_text())
    early, night = (Path(place.path(f"nine/windows/20260505_{name}.omx")) for name in ("early", "night"))
    assert notes["windows"][f"windows/{night.name}"]["window"] == ["21:00", "21:01"]
    early.write_bytes(Path(place.path("nine/matrix.omx")).read_bytes())
    assert place.ran("study", "--verify", place.path("nine"))[2] == 1


def test_pictures_show_each_thing_that_is_counted(place: Place) -> None:  # noqa: F811
    assert place.ran("study", laid_out(place, DAY.replace("\nmaps = false", "")))[2] == 0
    names = {path.name for path in Path(place.path("nine/windows/pictures")).iterdir()}
    assert names == {f"{what}_{kind}.png" for what in ("jobs", "schools") for kind in ("time", "heat", "maps")}
    assert "windows/pictures/jobs_time.png" in Path(place.path("nine/report.md")).read_text()


def test_without_people_each_origin_counts_once_and_the_nearest_has_its_table(place: Place) -> None:  # noqa: F811
    study = DAY.replace('people = "people.csv"\n', "").replace("maps = false", "maps = false\nnearest = [1]")
    assert place.ran("study", laid_out(place, study))[2] == 0
    kind = {"opportunity": "schools", "scenario": "base", "group": "origins", "window": "night"}
    (line, _) = [row for row in table(place, "equity_nearest.csv") if kind.items() <= row.items()]
    # five of nine stops walk 434 seconds to a school, four have one
    assert (line["people"], line["mean_minutes"]) == ("9", f"{5 * 434 / 60 / 9:.4f}")


def test_a_day_without_trips_is_refused(place: Place) -> None:  # noqa: F811
    _, errors, status = place.ran("study", laid_out(place, DAY.replace("2026-05-05]", "2027-05-05]")))
    assert status == 1 and "no trip runs on 2027-05-05" in errors


DAYS_OF_MONTHS = "[" + ", ".join(f"2026-{month:02}-{day:02}" for month in (1, 2) for day in range(1, 29)) + "]"


@pytest.mark.parametrize(
    "text, message",
    [
        (f'date = 2026-05-04\nfrom = "08:00"\n{WINDOWS}', "windows doesn't go with from"),
        (f"date = 2026-05-04\ndates = [2026-05-04]\n{WINDOWS}", "dates doesn't go with date"),
        (
            f"dates = [2026-05-05, 2026-05-04]\n{WINDOWS}",
            "dates '2026-05-04' isn't after the date before it (item 2 of 2); allowed: 1 to 31 dates in brackets",
        ),
        (
            f'dates = ["2026-05-04", "2026-05-40"]\n{WINDOWS}',
            "dates '2026-05-40' is not a date (item 2 of 2); allowed: YYYY-MM-DD, or YYYYMMDD in quotes",
        ),
        (f"dates = {DAYS_OF_MONTHS}\n{WINDOWS}", "dates '2026-02-04' is one date too many (item 32 of 56); allowed: 1"),
        (f"dates = []\n{WINDOWS}", "allowed: 1 to 31 dates in brackets, ascending"),
        ('date = 2026-05-04\nwindows = [{ name = "a b", from = "08:00", to = "08:00" }]', "can't be a window's name"),
        ('date = 2026-05-04\nwindows = [{ name = "a", from = "08:01", to = "08:00" }]', "to '08:00' is before from"),
        ('date = 2026-05-04\nwindows = [{ name = "a", from = "8", to = "08:00" }]', "from '8' is not a time"),
        ('date = 2026-05-04\nwindows = [{ name = "a", end = "8" }]', "end isn't known"),
        ('date = 2026-05-04\nfrom = "08:00"', "to is needed"),
        (f"{WINDOWS}", "date is needed"),
    ],
)
def test_windows_that_do_not_fit_are_told_with_their_line(bare: Place, text: str, message: str) -> None:  # noqa: F811
    path = bare.lay_out(STUDY.replace(ONE, f"{text}\n"))
    out, said, status = bare.ran("study", path)
    assert (out, status) == ("", 1) and message in said and "nine.toml: line " in said and said.count("\n") == 1, said


def test_a_date_that_does_not_fit_is_named_with_its_own_line(bare: Place) -> None:  # noqa: F811
    days = 'dates = [ # "several", [one] a line\n  2026-05-04,\n\n  "4 May",\n  2026-05-06,\n]'
    text = STUDY.replace(ONE, f"{days}\n{WINDOWS}\n")
    line = text.split("\n").index('  "4 May",') + 1
    message = f"nine.toml: line {line}: dates '4 May' is not a date (item 2 of 3); allowed: YYYY-MM-DD, or YYYYMMDD in"
    assert message in bare.ran("study", bare.lay_out(text))[1]


def test_the_network_has_the_words_of_its_day_and_a_question_its_own() -> None:
    files = {"footpaths": "f.csv", "origins": "o.csv", "opportunities": "p.csv"}
    run = EngineArguments(
        "feed", "20260504", ("08:00", "08:04"), 3, 500, (25,), (600,), ("cut.csv",), 2, 1, 0, 1, files
    )
    kept = kept_arguments(run)
    assert kept[-1] == "cut.csv" and "o.csv" not in kept and kept[kept.index("--footpaths") + 1] == "f.csv"
    assert kept[kept.index("--back") + 1] == "0" and kept[kept.index("--walk") + 1] == "500"
    question = question_of(run)
    assert dict(zip(question[::2], question[1::2])) == {
        **{"--from": "08:00", "--to": "08:04", "--trips": "3", "--workers": "2", "--tries": "1"},
        **{"--share": "25", "--within": "600", "--origins": "o.csv", "--opportunities": "p.csv"},
    }


def test_a_part_that_a_network_refuses_is_named_and_the_others_are_kept(
    tmp_path: Path, monkeypatch: pytest.MonkeyPatch
) -> None:
    monkeypatch.setenv("TTM_PROGRAM", canned(tmp_path))
    run = EngineArguments("feed", "20260504", ("00:05", "00:06"))
    with standing_in(tmp_path), KeptNetwork(run, tmp_path) as network:
        os.mkdir("stages")
        parts = parts_for(["A", "fault", "end", "B"], 4, "key")
        failed = network.run_parts(run, parts, PartLayout(4, 2, 1))
        assert sorted((item.part.number, item.message) for item in failed) == [
            (2, "ttm: origins: record 2: unknown stop"),
            (3, "ttm: out of memory"),
        ]
        assert [part.is_done() for part in parts] == [True, False, False, True]
        assert parts[0].matrix.read_text() == "scenario,origin,share,access_1800,A\nbase,A,50,1,300\n"
        assert len(network.run_parts(run, parts, PartLayout(4, 2, 1))) == 2


def test_the_first_ctrl_c_keeps_the_parts_that_are_asked_for(tmp_path: Path, monkeypatch: pytest.MonkeyPatch) -> None:
    monkeypatch.setenv("TTM_PROGRAM", canned(tmp_path))
    run = EngineArguments("feed", "20260504", ("00:05", "00:06"))
    with standing_in(tmp_path), KeptNetwork(run, tmp_path) as network:
        os.mkdir("stages")
        parts = parts_for(["slow", "B"], 2, "key")
        kept = network.ask

        def ask(question: PartQuestion) -> Answer:
            result = kept(question)
            network.is_ending = True  # as the handler of the signal does
            return result

        monkeypatch.setattr(network, "ask", ask)
        with pytest.raises(Interrupted):
            network.run_parts(run, parts, PartLayout(2, 1, 1))
        assert [part.is_done() for part in parts] == [True, False]
        assert not [path for path in Path(".").rglob(".part.*")]


def test_levels_are_the_mean_and_that_of_the_tenth_that_has_least() -> None:
    # of 20 people two have least: one of the first place, and one of the 9 of the second
    assert levels(np.array([10.0, 20.0, 50.0]), np.array([1.0, 9.0, 10.0])) == (34.5, 15.0)


def test_pictures_name_days_windows_and_scenarios() -> None:
    pytest.importorskip("matplotlib")
    numbers = np.array([[1.0, 5.0], [2.0, 7.0]])
    columns = [
        WindowColumn(day, name, first, last, numbers)
        for day in ("2026-05-04", "2026-05-09")
        for name, first, last in (("peak", "07:00", "08:59"), ("night", "21:00", "21:59"))
    ]
    printed = FigureLabels("jobs within 30 minutes", "jobs", "stops", "base")
    figure = figure_by_time(columns, ["base", "cut"], Counts(["residents"], np.array([[1.0], [1.0]])), printed)
    shown = [axes for axes in figure.axes if axes.get_visible()]
    assert [axes.get_title() for axes in shown] == ["2026-05-04", "2026-05-09"]
    labels = [line.get_label() for line in shown[0].get_lines()]
    assert labels == ["base", "base, tenth with the least", "cut", "cut, tenth with the least"]
    assert [line.get_ydata().tolist() for line in shown[0].get_lines()][:2] == [[3.0, 3.0], [1.0, 1.0]]
    assert shown[0].get_lines()[0].get_xdata().tolist() == [8.0, 21.5]
    heat = figure_of_heat(columns, 0, printed)
    image = heat.axes[0].get_images()[0].get_array()
    assert image.tolist() == [[5.0] * 4, [1.0] * 4]
    assert [label.get_text() for label in heat.axes[0].get_xticklabels()] == ["peak", "night"] * 2


def texts_of(figure: Any) -> list[str]:
    from matplotlib.text import Text

    return [text.get_text() for text in figure.findobj(Text)]


def test_a_picture_by_time_shows_each_group() -> None:
    pytest.importorskip("matplotlib")
    numbers = np.array([[1.0, 5.0], [2.0, 7.0]])
    columns = [WindowColumn("2026-05-04", "peak", "07:00", "08:59", numbers)]
    groups = Counts(["young", "old"], np.array([[1.0, 3.0], [1.0, 1.0]]))
    figure = figure_by_time(columns, ["base", "cut"], groups, FigureLabels("jobs", "jobs", "stops"))
    shown = [axes for axes in figure.axes if axes.get_visible()]
    assert [axes.get_title() for axes in shown] == ["2026-05-04: young", "2026-05-04: old"]
    means = [[line.get_ydata().tolist()[0] for line in axes.get_lines()[::2]] for axes in shown]
    assert means == [[3.0, 4.5], [2.0, 3.25]]  # (1 + 5) / 2, (2 + 7) / 2; (3 + 5) / 4, (6 + 7) / 4
    assert any("mean of each group" in text for text in texts_of(figure))


@pytest.mark.parametrize("count, said", [(38, ""), (50, ": the first 48 of 50 windows")])
def test_maps_show_all_windows_or_say_how_many(count: int, said: str) -> None:
    pytest.importorskip("matplotlib")
    from ttm_tools.gtfs.stops import read_stops

    names = [f"w{number}" for number in range(count)]
    columns = [WindowColumn("2026-05-04", name, "07:00", "08:59", np.array([[1.0, 5.0]])) for name in names]
    with tempfile.TemporaryDirectory() as folder:
        Path(folder, "stops.txt").write_text("stop_id,stop_lat,stop_lon\nA,47,8\nB,47.01,8\n")
        figure = figure_of_maps(columns, 0, read_stops(folder), FigureLabels("jobs", "jobs", "stops", "base"))
    titles = [axes.get_title() for axes in figure.axes if axes.get_visible() and axes.get_title()]
    assert titles == [f"2026-05-04 {name}" for name in names[:48]]
    assert any(text == f"jobs, scenario base, by window{said}" for text in texts_of(figure))


def test_who_loses_and_gains_by_window_by_hand() -> None:
    """From 10 and 20 to 10 and 15 at the peak, to 30 and 0 in the evening; 3 people at the first place, 1 at the other:
    the mean changes are -5 / 4, and (3 * 20 - 20) / 4.
    """
    kind = AccessKind("jobs", "50", "30")
    peak, evening = (
        DayWindow("20260504", Window(name, first, last))
        for name, first, last in (("peak", "07:00", "08:59"), ("evening", "18:00", "18:59"))
    )

    def table_of(*numbers: list[float]) -> AccessTable:
        return AccessTable("made", ["base", "cut"], [kind], ["A", "B"], np.array(numbers)[:, None], False)

    tables = {peak: table_of([10, 20], [10, 15]), evening: table_of([10, 20], [30, 0])}
    (small,) = changes_of({peak: table_of([1, 2], [1, 2.00004])}, "base", Counts(["people"], np.array([[3.0], [1.0]])))
    out = io.BytesIO()
    write_changes(out, [small], ["people"])
    assert out.getvalue().decode().splitlines()[1].endswith(",people,0.00001")
    people = Counts(["people", "old"], np.array([[3.0, 0.0], [1.0, 1.0]]))
    out = io.BytesIO()
    write_changes(out, list(changes_of(tables, "base", people)), people.names)
    assert out.getvalue().decode().splitlines() == [
        "date,window,from,to,scenario,opportunity,percentile,cutoff,lose,cut_off,gain,newly_reached,group,mean_change",
        "2026-05-04,peak,07:00,08:59,cut,jobs,50,30,1,0,0,0,people,-1.25",
        "2026-05-04,peak,07:00,08:59,cut,jobs,50,30,1,0,0,0,old,-5",
        "2026-05-04,evening,18:00,18:59,cut,jobs,50,30,1,1,1,0,people,10",
        "2026-05-04,evening,18:00,18:59,cut,jobs,50,30,1,1,1,0,old,-20",
    ]


def test_a_matrix_of_a_window_tells_its_day_and_departures(place: Place) -> None:  # noqa: F811
    assert place.ran("study", laid_out(place))[2] == 0
    arguments = ["compare", "--by", "origin", "--base", place.path("nine/matrix.omx"), "--out", place.path("c.csv")]
    errors = place.ran(*arguments, place.path("nine/windows/20260505_night.omx"))[1]
    assert "(scenario base, 2026-05-05, 21:00 to 21:01); matrix is" in errors
    assert "(scenario base, 2026-05-04, 08:00 to 08:00)" in errors


def test_windows_are_computed_by_slurm_too(place: Place, monkeypatch: pytest.MonkeyPatch) -> None:  # noqa: F811
    path = laid_out(place)
    assert place.ran("study", path)[2] == 0
    tools = place.folder / "bin"
    tools.mkdir()
    script(tools / "squeue", "#!/bin/sh\n")
    array = "for n in 1 2 3 4; do SLURM_ARRAY_TASK_ID=$n sh"
    script(tools / "sbatch", f'#!/bin/sh\nfor last; do :; done\n{array} "$last" >&2; done\necho 1\n')
    monkeypatch.setenv("PATH", f"{tools}:{os.environ['PATH']}")
    monkeypatch.setattr("ttm_tools.study.executors.remote.SECONDS_BETWEEN_LOOKS", 0.1)
    _, errors, status = place.ran("study", path, "--slurm", "--out", place.path("array"))
    assert status == 0, errors
    for name in ("20260504_night", "20260505_early", "20260505_night"):
        same_matrix(place, f"nine/windows/{name}.omx", f"array/windows/{name}.omx")
    assert not (place.folder / "array/parts").exists()
