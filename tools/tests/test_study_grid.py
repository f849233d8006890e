"""A grid of cells in a study: the same cells as those of `ttm-tools points --grid`, with people in them; by hand on
nine stops.
"""

import json
from pathlib import Path

import pytest

from helpers import METRE, read
from test_study import STUDY, Place, bare, place  # noqa: F401
from ttm_tools.matrices import open_matrix

RUN = STUDY[: STUDY.index("[opportunities]")].replace("limits = [600, 1800]", "limits = [1800]")
GRID = '[points]\ngrid = 300\ngrid_people = ["addresses.csv"]\n'
RESULTS = "[results]\nmaps = false\npage = false\n"


def laid_out(place: Place, more: str) -> str:  # noqa: F811
    """Two addresses: 2 people 10 metres north of S0, and 5 people and a doctor 20 metres south of S8."""
    path = place.lay_out(RUN + GRID + more + RESULTS)
    rows = [["a", 50 + 10 * METRE, 7, 2, 0], ["b", 50.032 - 20 * METRE, 7, 5, 1]]
    place.write("addresses.csv", "id,lat,lon,residents,doctors", rows)
    place.write("doctors.csv", "id,lat,lon,doctors", [["one", 50.032, 7, 1]])
    return path


def test_the_cells_are_those_of_points_with_a_grid(place: Place) -> None:  # noqa: F811
    path = laid_out(place, '[opportunities]\ncolumns = ["doctors"]\ngroups = ["residents"]\n')
    _, errors, status = place.ran("study", path)
    assert status == 0, errors
    feed, out = place.path("nine/inputs/feed"), place.path("cells")
    arguments = ["--grid", "300", "--people", place.path("addresses.csv"), "--out", out]
    assert place.ran("points", feed, *arguments)[2] == 0
    for name in ("feed/points.csv", "feed/stops.txt", "footpaths.csv", "origins.csv", "destinations.csv"):
        assert Path(out, name).read_bytes() == Path(place.path(f"nine/inputs/points/{name}")).read_bytes()
    cells = read(Path(place.path("nine/inputs/grid.csv")).read_text())
    assert [cell["residents"] for cell in cells if cell["residents"] != "0"] == ["2", "5"]
    (line,) = read(Path(place.path("nine/equity.csv")).read_text())[1:2]
    assert (line["group"], line["people"]) == ("residents", "7")
    matrix = open_matrix(place.path("nine/matrix.omx"))
    assert matrix.origins("base", 50) == matrix.stops == [cell["id"] for cell in cells]
    report = Path(place.path("nine/report.md")).read_text()
    assert "inputs/grid.csv" not in report.split("SHA-256 checksums")[1].split("How the inputs were prepared")[0]
    assert place.ran("study", "--verify", place.path("nine"))[2] == 0


def with_three_far_away(place: Place, more: str = "") -> str:  # noqa: F811
    """Three more people, 111 km away from all stops; bands of one doctor."""
    path = laid_out(place, more + '[opportunities]\ncolumns = ["doctors"]\ngroups = ["residents"]\n')
    place.say((place.folder / "nine.toml").read_text() + "bands = [1]\nnearest = [1]\nnearest_bands = [30]\n")
    rows = [["a", 50, 7, 2, 0], ["b", 50.032, 7, 5, 1], ["far", 51, 7, 3, 0]]
    place.write("addresses.csv", "id,lat,lon,residents,doctors", rows)
    return path


def printed_of(place: Place, name: str, *columns: str) -> list[str]:  # noqa: F811
    """Some columns of the first line with a percentile of 50 in a result."""
    lines = read(Path(place.path(f"nine/{name}")).read_text())
    line = next(line for line in lines if line["percentile"] == "50")
    return [line[column] for column in columns]


def test_people_outside_all_cells_are_people_of_the_study(place: Place) -> None:  # noqa: F811
    assert place.ran("study", with_three_far_away(place))[2] == 0
    report = Path(place.path("nine/report.md")).read_text().replace("\\", "")
    (warnings,) = [line for line in report.splitlines() if line.startswith("Warnings: ")]
    assert "addresses.csv: 3 of 10 residents are outside all cells" in warnings
    # the 5 next to the doctor reach one; the 2 at S0, and the 3 far away, reach none
    assert printed_of(place, "bands.csv", "people", "percent") == ["5", "50"]
    assert printed_of(place, "bands_nearest.csv", "people", "percent") == ["5", "50"]
    assert printed_of(place, "equity.csv", "people", "mean", "median") == ["10", "0.5", "0"]
    # the 2 at S0 take the bus of the next morning
    assert printed_of(place, "equity_nearest.csv", "people", "reached_percent") == ["10", "70"]
    sentence = "of all people, of whom 3 residents live outside all cells and reach nothing"
    assert f"People by number of opportunities (bands.csv); percentages are {sentence}" in report
    assert f"Access by groups of people (equity.csv); measures are {sentence}" in report


def test_people_outside_the_area_of_a_study_are_not(place: Place) -> None:  # noqa: F811
    pytest.importorskip("geopandas")
    path = with_three_far_away(place, 'grid_area = "region.geojson"\n')
    ring = [[6.99, 49.99], [7.01, 49.99], [7.01, 50.04], [6.99, 50.04], [6.99, 49.99]]
    area = {"type": "Polygon", "coordinates": [ring]}
    (place.folder / "region.geojson").write_text(json.dumps({"type": "Feature", "properties": {}, "geometry": area}))
    _, errors, status = place.ran("study", path)
    assert status == 0, errors
    assert printed_of(place, "equity.csv", "people", "mean") == ["7", f"{5 / 7:.4f}"]
    report = Path(place.path("nine/report.md")).read_text().replace("\\", "")
    assert "(bands.csv); percentages are of the people in cells, without 3 residents outside them" in report


def test_windows_count_people_outside_all_cells(place: Place) -> None:  # noqa: F811
    path = with_three_far_away(place)
    windows = (
        'windows = [{ name = "one", from = "08:00", to = "08:04" }, { name = "two", from = "08:30", to = "08:34" }]\n'
    )
    place.say((place.folder / "nine.toml").read_text().replace('from = "08:00"\nto = "08:04"\n', windows))
    _, errors, status = place.ran("study", path)
    assert status == 0, errors
    assert {line["people"] for line in read(Path(place.path("nine/windows/equity.csv")).read_text())} == {"10"}
    assert {line["people"] for line in read(Path(place.path("nine/windows/equity_nearest.csv")).read_text())} == {"10"}


def test_cells_are_the_end_that_no_file_names(place: Place) -> None:  # noqa: F811
    more = 'destinations = ["doctors.csv"]\n[opportunities]\ngroups = ["residents"]\n'
    assert place.ran("study", laid_out(place, more))[2] == 0
    matrix = open_matrix(place.path("nine/matrix.omx"))
    assert matrix.stops == ["one"] and len(matrix.origins("base", 50)) > 9
    (line,) = [row for row in read(Path(place.path("nine/equity.csv")).read_text()) if row["percentile"] == "50"]
    # the 5 people who live 20 metres from the doctor reach one; no bus along leaves S0 after 08:00 for the 2 at S0
    assert (line["opportunity"], line["people"], line["mean"]) == ("doctors", "7", f"{5 / 7:.4f}")


def test_what_is_done_of_a_grid_is_not_done_again(place: Place) -> None:  # noqa: F811
    path = laid_out(place, '[opportunities]\ngroups = ["residents"]\n')

    def stages() -> list[str]:
        _, errors, status = place.ran("study", path)
        assert status == 0, errors
        return [line.removesuffix(" ..") for line in errors.splitlines() if line.endswith(" ..")]

    assert stages()[:3] == ["feed", "grid", "points"]
    assert stages() == []
    place.write("addresses.csv", "id,lat,lon,residents,doctors", [["a", 50, 7, 3, 1]])
    assert stages()[:2] == ["grid", "points"]


@pytest.mark.parametrize(
    "more, message",
    [
        ('[points]\ngrid_area = "region.geojson"\nfiles = ["homes.csv"]\n', "grid_area needs grid"),
        ('[points]\ngrid = 300\norigins = ["homes.csv"]\ndestinations = ["homes.csv"]\n', "cells are the other end"),
        ("[points]\ngrid = 5\n", "allowed: a number from 10 to 100,000 metres"),
        ("[points]\ngrid = 300\n[walks]\nnone = true\n", "none doesn't go with [points], whose walks are computed"),
        ('[points]\ngrid = 300\ngrid_people = ["none.csv"]\n', "grid_people 'none.csv' isn't there"),
    ],
)
def test_grids_that_do_not_fit_are_told(bare: Place, more: str, message: str) -> None:  # noqa: F811
    path = bare.lay_out(RUN + more)
    for name in ("region.geojson", "homes.csv"):
        (bare.folder / name).touch()
    out, said, status = bare.ran("study", path)
    assert (out, status) == ("", 1) and message in said and said.count("\n") == 1, said


def test_a_column_that_no_cell_has_is_told(place: Place) -> None:  # noqa: F811
    _, printed, status = place.ran("study", laid_out(place, '[opportunities]\ngroups = ["elderly"]\n'))
    assert status == 1 and "[opportunities] names a group elderly; there are residents, doctors" in printed
