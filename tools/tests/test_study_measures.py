"""Measures of a study other than access: the nearest, people by band, a greatest travel time; by hand on nine stops.

The stops are 444.8 m apart, 434 seconds of walking, and every second stop has a school. A bus goes along: it leaves S0
at 08:00, S2 at 08:06, and takes three minutes to each next stop. Three of the five departures from 08:00 to 08:04 get
from S2 to S3 in 420 seconds or less (08:02 to 08:04); from all other stops the median is the walk.
"""

import json
from pathlib import Path

import pytest

from helpers import read
from test_study import STUDY, Place, bare, place  # noqa: F401

MEASURES = "maps = false\nnearest = [1, 2]\nnearest_bands = [5, 8]\nbands = [1]\nmax_minutes = 30\n"


def table(place: Place, name: str) -> list[dict[str, str]]:  # noqa: F811
    return read(Path(place.path(f"nine/{name}")).read_text())


def test_the_nearest_and_bands_of_people_by_hand(place: Place) -> None:  # noqa: F811
    path = place.lay_out(STUDY.replace("csv = true\n", MEASURES))
    assert place.ran("study", path)[2] == 0
    kind = {"scenario": "base", "opportunity": "schools", "percentile": "50", "nearest": "1"}
    found = [row for row in table(place, "nearest.csv") if kind.items() <= row.items()]
    assert [item["seconds"] for item in found] == ["434", "0", "420", "0", "434", "0", "434", "0", "434"]
    (people,) = [row for row in table(place, "equity_nearest.csv") if kind.items() <= row.items()]
    # people are 1, 3, 5, 7, 9 at the stops without a school, and 20 of 45 at those with one: 22 need 434 s, 3 need 420:
    # (22 * 434 / 60 + 3 * 7) / 45
    assert people["mean_minutes"] == "4.003" and people["reached_percent"] == "100"
    assert (people["median_minutes"], people["nine_tenths_minutes"]) == ("7", "7.2333")
    bands = [row for row in table(place, "bands_nearest.csv") if kind.items() <= row.items()]
    assert [(band["within_minutes"], band["people"], band["percent"]) for band in bands] == [
        ("5", "20", "44.4444"),
        ("8", "45", "100"),
    ]
    kind = {"scenario": "base", "opportunity": "schools", "percentile": "50", "cutoff": "10"}
    (all_of_them,) = [row for row in table(place, "bands.csv") if kind.items() <= row.items()]
    assert (all_of_them["at_least"], all_of_them["people"]) == ("1", "45")
    report = Path(place.path("nine/report.md")).read_text()
    assert "pairs beyond 30 minutes count as not reached" in report and "bands\\_nearest.csv" in report


def test_people_by_band_have_stacked_bars_in_the_report(place: Place) -> None:  # noqa: F811
    path = place.lay_out(STUDY.replace("csv = true\n", MEASURES.replace("maps = false\n", "")))
    assert place.ran("study", path)[2] == 0
    report = Path(place.path("nine/report.md")).read_text()
    for name in ("bands/jobs.png", "bands/schools.png", "bands_nearest/jobs.png", "bands_nearest/schools.png"):
        assert Path(place.path(f"nine/{name}")).read_bytes()[1:4] == b"PNG" and f"({name})" in report
    assert place.ran("study", "--verify", place.path("nine"))[2] == 0


def test_maps_show_the_nearest_of_each_thing_counted(place: Place) -> None:  # noqa: F811
    path = place.lay_out(STUDY.replace("csv = true\n", 'nearest = [1]\n[opportunities]\ncolumns = ["schools"]\n'))
    text = STUDY.replace("csv = true\n", "nearest = [1]\n").replace('column = "jobs"', 'columns = ["schools"]')
    place.say(text)
    assert place.ran("study", path)[2] == 0
    names = {path.name for path in Path(place.path("nine/maps")).iterdir()}
    assert {"nearest_schools.png", "nearest_schools_cut.png"} <= names


def test_areas_are_written_for_each_named_place(place: Place) -> None:  # noqa: F811
    pytest.importorskip("shapely")
    arguments = 'isochrones = ["S0", "S4"]\nisochrone_bands = [5, 10]\n'
    path = place.lay_out(STUDY.replace("csv = true\n", arguments))
    assert place.ran("study", path)[2] == 0
    features = json.loads(Path(place.path("nine/isochrones/S4.geojson")).read_text())["features"]
    result = {
        (feature["properties"]["scenario"], feature["properties"]["minutes"]): feature["properties"]
        for feature in features
    }
    # S3 and S5, which have a school each, are within a walk of 10 minutes from S4
    assert (result["base", 10]["reached"], result["base", 10]["schools"], result["base", 5]["reached"]) == (3, 2, 1)
    # a walk of five minutes is 300 s * 4 / 3 m/s / 1.3 long, as the crow flies
    assert result["cut", 5]["square_km"] == pytest.approx(3.1326 * (0.3 * 4 / 3 / 1.3) ** 2, rel=1e-3)
    assert "isochrones" in Path(place.path("nine/report.md")).read_text()
    maps = {f"isochrones_{name}.png" for name in ("S0", "S4", "S0_cut", "S4_cut")}
    assert maps < {path.name for path in Path(place.path("nine/maps")).iterdir()}
    place.say(STUDY.replace("csv = true\n", 'isochrones = ["S9"]\n'))
    assert "isochrones of [results]: S9 is not an origin of the study" in place.ran("study", path)[1]


@pytest.mark.parametrize(
    "more, message",
    [
        ("max_minutes = 20", "max_minutes '20.0' ends before the limit of tables and maps; allowed: at least 30"),
        ("nearest_bands = [5]", "nearest_bands needs nearest"),
        ("bands = [5]\naccess = false", "bands needs access, and people of [opportunities]"),
    ],
)
def test_what_does_not_go_together_is_told(bare: Place, more: str, message: str) -> None:  # noqa: F811
    path = bare.lay_out(STUDY.replace("csv = true", more))
    out, said, status = bare.ran("study", path)
    assert (out, status) == ("", 1) and message in said and said.count("\n") == 1


def test_who_gains_is_counted_person_by_person(place: Place) -> None:  # noqa: F811
    """S0 has one person, S1 two, and so on; those at S7 and S8, 17 of 45, lose a tenth of the jobs in 30 minutes."""
    path = place.lay_out(STUDY.replace("csv = true\n", "maps = false\nthresholds = [10, 50]\n"))
    assert place.ran("study", path)[2] == 0
    kind = {"opportunity": "jobs", "percentile": "25"}
    access = [row for row in table(place, "access.csv") if {**kind, "cutoff": "30"}.items() <= row.items()]
    before, after = (
        [float(row["accessibility"]) for row in access if row["scenario"] == name] for name in ("base", "cut")
    )
    each = [(first, second) for home, (first, second) in enumerate(zip(before, after)) for _ in range(home + 1)]
    rows = [row for row in table(place, "who_gains.csv") if {**kind, "minutes": "30"}.items() <= row.items()]
    assert [(row["group"], row["threshold"]) for row in rows] == [
        ("residents", "10"),
        ("residents", "50"),
        ("all", "10"),
        ("all", "50"),
    ]
    for row, percent in zip(rows, [10, 50, 10, 50]):
        lose = sum(first > second and 100 * (first - second) >= percent * first for first, second in each)
        assert (row["people"], row["people_lose"], row["people_gain"]) == ("45", str(lose), "0")
    assert rows[0]["people_lose"] == "17"
    means = [sum(numbers) / 45 for numbers in zip(*each)]
    assert [float(rows[2][name]) for name in ("mean_before", "mean_after")] == pytest.approx(means)
    assert place.ran("study", "--verify", place.path("nine"))[2] == 0


def test_who_gains_is_left_out_or_refused(place: Place) -> None:  # noqa: F811
    path = place.lay_out(STUDY.replace("csv = true\n", "maps = false\nwho_gains = false\n"))
    assert place.ran("study", path)[2] == 0
    assert not Path(place.path("nine/who_gains.csv")).exists()
    allowed = "allowed: 1 to 3 numbers in brackets, 0.1 to 100 percent, ascending"
    for line, message in (
        ("thresholds = [25, 10]", f"thresholds '[25, 10]' is invalid; {allowed}"),
        ("gain_least = -1", "gain_least '-1' is invalid; allowed: a number from 0 to 1e+15 opportunities"),
    ):
        place.say(STUDY.replace("csv = true", line))
        assert message in place.ran("study", path)[1]
    place.say(STUDY.replace("csv = true", "who_gains = true").replace('people = "people.csv"\n', ""))
    assert "needs access, and people of [opportunities]" in place.ran("study", path)[1]
