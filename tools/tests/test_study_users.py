"""Studies as people ask for them: homes here and schools there, plans of one scenario, files that don't fit."""

import re
from dataclasses import replace
from pathlib import Path

import numpy as np
import pytest

from helpers import read
from test_study import NO_MAPS, STUDY, Place, bare, place  # noqa: F401
from ttm_tools.matrices import open_matrix
from ttm_tools.measures.access_table import AccessKind, AccessTable
from ttm_tools.api.count_files import read_counts
from ttm_tools.study.checks import check_counts
from ttm_tools.study.counted import COUNTED, ORIGINS, PEOPLE, counts_stage, people_stage
from ttm_tools.study.outside import sentence_on_outside, with_outside
from ttm_tools.study.report import texts_apart
from ttm_tools.study.stages import Record
from ttm_tools.study.study_file import read_study

DOORS = STUDY[: STUDY.index("[opportunities]")] + '[points]\norigins = ["homes.csv"]\ndestinations = ["schools.csv"]\n'
RESULTS = "[results]\nmaps = false\npage = false\n"
PLAN = """\
[[scenario]]
name = "tram"
[[scenario.action]]
do = "add_line"
route = "TRAM"
stops = ["S0", "S8"]
seconds = [60]
departures = [{ first = "08:00", last = "08:30", every = 300 }]
days = "daily"
"""


def doors(room: Place) -> str:
    """A study with two homes near S0 and three schools near S8, in files of their own with columns of their own."""
    path = room.lay_out(DOORS + RESULTS)
    homes = [[f"h{n}", 50 + n / 10_000, 7, 10 * n + 10] for n in range(2)]
    room.write("homes.csv", "id,lat,lon,residents", homes)
    room.write("schools.csv", "id,lat,lon,schools", [[f"s{n}", 50.032 + n / 10_000, 7, n] for n in range(3)])
    return path


def planned(room: Place, more: str = "") -> str:
    study = STUDY[: STUDY.index("[scenarios]")] + f'[scenarios]\nplan = "plan.toml"\n{RESULTS}{more}'
    path = room.lay_out(study)
    (room.folder / "plan.toml").write_text(PLAN)
    return path


def report_of(room: Place) -> str:
    return (room.folder / "nine" / "report.md").read_text()


def test_homes_and_schools_in_files_of_their_own(place: Place) -> None:  # noqa: F811
    assert place.ran("study", doors(place))[1:][1] == 0
    matrix = open_matrix(place.path("nine/matrix.omx"))
    assert (matrix.origins("base", 50), matrix.stops) == (["h0", "h1"], ["s0", "s1", "s2"])
    assert "| schools | 30 | " in report_of(place) and "residents" not in report_of(place)
    sizes = [path.stat().st_size for path in (place.folder / "nine").rglob("matrix.csv")]
    assert sizes == []  # the parts' matrices are gone


def test_the_parts_have_the_columns_of_destinations_alone(place: Place) -> None:  # noqa: F811
    path = doors(place)
    place.say((place.folder / "nine.toml").read_text() + "csv = true\n")
    assert place.ran("study", path)[2] == 0
    header = (place.folder / "nine" / "matrix.csv").read_text().splitlines()[0]
    assert header == "scenario,origin,share,access_600,access_1800,s0,s1,s2"


def test_people_at_points_that_are_left_out_are_told(place: Place) -> None:  # noqa: F811
    path = doors(place)
    place.write("homes.csv", "id,lat,lon", [["h0", 50.032, 7], ["far", 51, 7]])  # h0 is where s0 is
    place.write("people.csv", "id,residents", [["h0", 3], ["far", 4]])
    study = (place.folder / "nine.toml").read_text().replace("[points]", "[points]\nleave_out = true")
    place.say(study + 'bands = [1]\n[opportunities]\npeople = "people.csv"\n')
    _, errors, status = place.ran("study", path)
    assert status == 0 and "reach nothing, at points that are left out: 4 residents" in errors
    # the 3 at h0 walk to 3 schools at s1 and s2, and the 4 far away reach none
    for row in read((place.folder / "nine/equity.csv").read_text()):
        assert (row["people"], row["mean"]) == ("7", f"{3 * 3 / 7:.4f}")
    for row in read((place.folder / "nine/bands.csv").read_text()):
        assert (row["people"], row["percent"]) == ("3", f"{100 * 3 / 7:.4f}")
    report = report_of(place).replace("\\", "")
    people = "of all people, of whom 4 residents live at points that are left out and reach nothing"
    assert f"People by number of opportunities (bands.csv); percentages are {people}" in report
    (warnings,) = [line for line in report.splitlines() if line.startswith("Warnings: ")]
    assert "reach nothing, at points that are left out: 4 residents" in warnings


def test_people_at_points_that_are_left_out_are_one_more_origin(bare: Place) -> None:  # noqa: F811
    path = doors(bare)
    bare.write("homes.csv", "id,lat,lon", [["h0", 50, 7], ["h1", 50, 7.01], ["far", 51, 7]])
    bare.write("people.csv", "id,residents,old", [["h0", 3, 0], ["h1", 5, 1], ["far", 4, 0.5], ["s0", 9, 9]])
    text = (bare.folder / "nine.toml").read_text().replace("[points]", "[points]\nleave_out = true")
    bare.say(text + '[opportunities]\npeople = "people.csv"\n')
    study = replace(read_study(path), folder=bare.folder / "nine")
    (study.folder / "inputs").mkdir(parents=True)
    bare.write(f"nine/{ORIGINS}", "stop_id", [["h0"], ["h1"]])  # what the points leave of the homes
    lines = people_stage(study, Record("", {}, [], 0.0), bare.path("people.csv")).make()
    assert lines[1:] == [
        "reach nothing, at points that are left out: 4 residents, 0.5 old",
        "people.csv: not counted, at 1 place that is no origin of the study (s0): 9 residents, 9 old",
    ]
    people = read_counts([str(study.folder / PEOPLE)], ["h0", "h1"], "origin")
    kinds = [AccessKind("jobs", "50", "30")]
    for of_times, nothing in ((False, 0.0), (True, np.nan)):
        table = AccessTable("", ["base", "cut"], kinds, ["h0", "h1"], np.array([[[7.0, 1]], [[6, 0]]]), of_times)
        wide, every = with_outside(study, table, people)
        assert wide.origins == ["h0", "h1", "at points that are left out"]
        np.testing.assert_equal(wide.numbers, [[[7, 1, nothing]], [[6, 0, nothing]]])
        assert every.numbers.tolist() == [[3, 0], [5, 1], [4, 0.5]]
    sentence = "of all people, of whom 4 residents, 0.5 old live at points that are left out and reach nothing"
    assert sentence_on_outside(study) == sentence


def test_opportunities_at_places_that_a_study_lacks_are_reported_and_not_counted(place: Place) -> None:  # noqa: F811
    path = place.lay_out(NO_MAPS)
    rows = [[f"S{n}", n, 1] for n in range(9)]
    place.write("jobs.csv", "stop_id,jobs,schools", [*rows, ["X1", 5, 0], ["X2", 2.5, 1]])
    _, errors, status = place.ran("study", path)
    sentence = "jobs.csv: not counted, at 2 places that are no stop of the feed (X1, X2): 7.5 jobs, 1 school"
    assert status == 0 and sentence in errors, errors
    (warnings,) = [line for line in report_of(place).splitlines() if line.startswith("Warnings: ")]
    assert sentence in warnings
    place.write("jobs.csv", "stop_id,jobs,schools", [["X1", 5, 1]])
    _, errors, status = place.ran("study", path)
    assert status == 1 and "jobs.csv: record 2: no stop of the feed is called X1" in errors


def test_opportunities_that_a_study_counts_are_those_of_its_places(bare: Place) -> None:  # noqa: F811
    path = bare.lay_out(STUDY)
    bare.write("jobs.csv", "stop_id,jobs,schools", [["S0", 1, 0], ["X1", 5, 0], ["S1", 2, 3]])
    study = replace(read_study(path), folder=bare.folder / "nine")
    (study.folder / "inputs/counted").mkdir(parents=True)
    check_counts(bare.path("jobs.csv"), {"S0", "S1", "S2"}, "stop of the feed")
    stops = ["S0", "S1", "S2"]
    stage = counts_stage(study, None, [bare.path("jobs.csv")], ["jobs", "schools"], stops, stops)
    assert stage.make()[1:] == [
        "jobs.csv: not counted, at 1 place that is no stop of the feed (X1): 5 jobs",
    ]
    assert (study.folder / COUNTED).read_text() == "stop_id,jobs,schools\nS0,1,0\nS1,2,3\nS2,0,0\n"


def test_people_who_live_at_no_origin_are_reported_and_not_counted(place: Place) -> None:  # noqa: F811
    path = place.lay_out(NO_MAPS)
    rows = [[f"S{n}", 1] for n in range(9)]
    place.write("people.csv", "stop_id,residents", [*rows, ["X1", 5], ["X2", 2.5]])
    _, errors, status = place.ran("study", path)
    sentence = "people.csv: not counted, at 2 places that are no origin of the study (X1, X2): 7.5 residents"
    assert status == 0 and sentence in errors, errors
    (warnings,) = [line for line in report_of(place).splitlines() if line.startswith("Warnings: ")]
    assert sentence in warnings
    assert {line["people"] for line in read((place.folder / "nine/equity.csv").read_text())} == {"9"}
    place.write("people.csv", "stop_id,residents", [["X1", 5], ["X2", 2.5]])
    _, errors, status = place.ran("study", path)
    assert status == 1 and "people.csv: record 2: no origin of the study is called X1" in errors


def test_points_without_a_stop_in_reach_are_a_warning_of_the_report(place: Place) -> None:  # noqa: F811
    path = doors(place)
    place.write("schools.csv", "id,lat,lon,schools", [["s0", 50.032, 7, 1], ["west", 50, 6, 1]])
    place.write("people.csv", "id,residents", [["h0", 3], ["h1", 4]])
    place.say((place.folder / "nine.toml").read_text() + 'bands = [1]\n[opportunities]\npeople = "people.csv"\n')
    assert place.ran("study", path)[2] == 0
    report = report_of(place).replace("\\", "")
    assert "Warnings: 1 point without a stop in reach: west\n" in report
    assert "People by number of opportunities (bands.csv); percentages are of the people at the origins" in report


@pytest.mark.parametrize(
    "name, header, rows, message",
    [
        (
            "people.csv",
            "id,residents",
            [["s0", 3]],
            "people.csv: record 2: no point at which journeys begin is called s0",
        ),
        ("jobs.csv", "id,jobs", [["S0", 3]], "jobs.csv: record 2: no point of the study is called S0"),
        ("jobs.csv", "id,shops", [["h0", 3]], "nine.toml: [opportunities] names a column jobs"),
    ],
)
def test_files_that_do_not_fit_are_told_before_any_work(
    bare: Place, name: str, header: str, rows: list[list[object]], message: str  # noqa: F811
) -> None:
    path = doors(bare)
    bare.write("people.csv", "id,residents", [["h0", 3]])
    bare.write("jobs.csv", "id,jobs", [["h0", 3]])
    bare.write(name, header, rows)
    more = '[opportunities]\nfiles = ["jobs.csv"]\ncolumn = "jobs"\npeople = "people.csv"\n'
    bare.say((bare.folder / "nine.toml").read_text() + more)
    monkey = pytest.MonkeyPatch()
    monkey.setenv("TTM_PROGRAM", "/bin/echo")
    _, said, status = bare.ran("study", path)
    monkey.undo()
    assert status == 1 and message in said, said
    assert not (bare.folder / "nine" / "inputs").exists()


def test_opportunities_are_called_as_their_file(place: Place) -> None:  # noqa: F811
    study = STUDY.replace('column = "jobs"\n', "").replace("page = false", "page = true")
    path = place.lay_out(study.replace("csv = true", "maps = false"))
    place.write("jobs.csv", "stop_id,opportunities", [[f"S{n}", n] for n in range(9)])
    _, errors, status = place.ran("study", path)
    assert status == 0, errors
    assert {line.split(",")[2] for line in Path(place.path("nine/access.csv")).read_text().splitlines()[1:]} == {"jobs"}
    names = re.findall(r'"of":"([^"]*)"', Path(place.path("nine/page.html")).read_text())
    assert "jobs" in names and not [name for name in names if "opportunities" in name]


def test_a_plan_of_one_scenario_neither_warns_nor_runs_base(place: Place) -> None:  # noqa: F811
    assert place.ran("study", planned(place))[2] == 0
    report = report_of(place)
    assert "Warnings: none." in report
    assert "the rows of tram are those of base, as its file removes nothing" in report
    assert open_matrix(place.path("nine/matrix.omx")).scenarios == ["today", "tram"]
    errors = place.ran("study", "--verify", place.path("nine"))
    assert errors[2] == 0, errors


def test_the_rows_of_base_are_those_of_the_scenario_that_takes_nothing_out(place: Place) -> None:  # noqa: F811
    assert place.ran("study", planned(place))[2] == 0
    saved = place.folder / "saved.omx"
    (place.folder / "nine" / "matrix.omx").rename(saved)
    place.say((place.folder / "nine.toml").read_text() + "csv = true\n")
    assert place.ran("study", place.path("nine.toml"))[2] == 0
    assert "base has the trips of all scenarios; its rows, one in 3 of the run, aren't shown" in report_of(place)
    one, other = open_matrix(str(saved)), open_matrix(place.path("nine/matrix.omx"))
    assert one.scenarios == other.scenarios == ["today", "tram"]
    for name in one.scenarios:
        for share in one.shares:
            assert one.rows(name, share, 0, 9).tobytes() == other.rows(name, share, 0, 9).tobytes()
            assert one.access(name, share).tolist() == other.access(name, share).tolist()


def test_walks_longer_than_ttm_takes_are_refused_and_shorter_ones_told(place: Place) -> None:  # noqa: F811
    path = place.lay_out(STUDY + "[walks]\nlimit = 700\n")
    errors = place.ran("study", path)
    assert errors[2] == 1 and "limit '700' is more than walk of [run], 600" in errors[1]
    place.say(STUDY + "[walks]\nlimit = 500\n")
    assert place.ran("study", path)[2] == 0
    sentence = "a single walk takes 500 seconds at most ([walks] limit), several in a row 600 ([run] walk)"
    assert sentence.replace("[", "\\[").replace("]", "\\]") in report_of(place)


def test_a_date_without_trips_is_refused(place: Place) -> None:  # noqa: F811
    path = place.lay_out(STUDY.replace("2026-05-04", "2027-05-04"))
    _, errors, status = place.ran("study", path)
    message = "no trip runs on 2027-05-04, only from 2026-05-04 to 2026-05-31"
    hint = "(name another date in [run], or let allow_loss = true of [feed] continue)"
    assert status == 1 and f"{message} {hint}" in errors and "--" not in errors.splitlines()[-1]
    assert (
        place.ran(
            "study",
            place.say(
                STUDY.replace("2026-05-04", "2027-05-04").replace(
                    'files = ["published"]', 'files = ["published"]\nallow_loss = true'
                )
            ),
        )[2]
        == 0
    )


@pytest.mark.parametrize("feed", ['files = ["published"]\nready = true', 'files = ["published"]\nroutes = ["P"]'])
def test_a_date_without_trips_is_refused_of_a_feed_that_is_ready_and_of_a_clipped_one(
    place: Place, feed: str  # noqa: F811
) -> None:
    """The feed is of another year, or of it route P alone is kept, which has no trips."""
    date = "2026-05-04" if "routes" in feed else "2027-05-04"
    study = STUDY.replace("2026-05-04", date).replace('files = ["published"]', feed)
    path = place.lay_out(study)
    with open(place.folder / "published" / "routes.txt", "a") as file:
        file.write("P,3\n")
    times = place.folder / "published" / "stop_times.txt"
    times.write_text(
        re.sub(r"8:([0-9]+):0,", r"08:\1:00,", times.read_text().replace("08:", "8:").replace(":00,", ":0,"))
    )
    _, errors, status = place.ran("study", path)
    assert status == 1 and f"no trip runs on {date}, " in errors.splitlines()[-1], errors
    assert "allow_loss = true of [feed]" in errors and "--allow-loss" not in errors
    assert not (place.folder / "nine" / "matrix.omx").exists()
    if "ready" in feed:
        _, errors, status = place.ran("study", place.say(study.replace(feed, f"{feed}\nallow_loss = true")))
        assert status == 0, errors


def test_numbers_have_the_digits_that_show_a_change() -> None:
    assert texts_apart([0.31, 0.32]) == ["0.31", "0.32"]
    assert texts_apart([1234.5, 1234.5]) == ["1,234.5", "1,234.5"]
    assert texts_apart([0.004, 0.004]) == ["0.004", "0.004"] and texts_apart([0, 0.2]) == ["0.0", "0.2"]
    assert texts_apart([0.0000001, 0.0000001]) == ["0.0", "0.0"]
    assert texts_apart([1.00001, 1.00002, 1.00001]) == ["1.00001", "1.00002", "1.00001"]


def test_the_report_is_whole_in_one_file(place: Place) -> None:  # noqa: F811
    people = [[f"S{n}", *range(n, n + 60)] for n in range(9)]
    path = place.lay_out()
    place.write("people.csv", "stop_id," + ",".join(f"g{n}" for n in range(60)), people)
    assert place.ran("study", path)[2] == 0
    page = (Path(place.path("nine")) / "report.html").read_text()
    assert page.count('<img src="data:image/png;base64,') == page.count("<img") > 0
    assert all(f"<td>g{n}</td>" in page for n in range(60))
    assert "<main>" in page and page.count("<caption>") == page.count("<table") > 3
    assert "@media print" in page and "least tenth change" in page


def test_limits_are_named_in_minutes_too(bare: Place) -> None:  # noqa: F811
    path = bare.lay_out(STUDY.replace("limits = [600, 1800]", "cutoffs = [10, 30]") + "\n")
    study = read_study(path)
    assert (study.run.limits, study.within) == ((600, 1800), 1800)
    bare.say(STUDY.replace("page = false", "page = false\ncutoff = 10"))
    assert read_study(path).within == 600
    bare.say(STUDY.replace("limits", "cutoffs = [10]\nlimits"))
    assert "doesn't go with limits" in bare.ran("study", path)[1]
