"""`Matrix`: parts of it, access, the nearest, differences and files, by values worked out by hand."""

import pickle
from pathlib import Path

import numpy as np
import pytest

geopandas = pytest.importorskip("geopandas")
pandas = pytest.importorskip("pandas")
from shapely.geometry import Point  # noqa: E402

from ttm_tools.api.chosen import Context  # noqa: E402
from ttm_tools.api.decay import Decay  # noqa: E402
from ttm_tools.api.matrix import Matrix  # noqa: E402
from ttm_tools.api.matrix_files import open_matrix  # noqa: E402
from ttm_tools.core.errors import ArgumentError, InputError  # noqa: E402
from ttm_tools.core.notes import Note  # noqa: E402
from ttm_tools.core.question import Question  # noqa: E402
from ttm_tools.matrices.array_matrix import ArrayMatrix  # noqa: E402

NONE = np.nan
QUESTION = Question("2026-05-04", "08:00", percentiles=(50,))
CELLS = {
    ("today", 50): [[0, 600, NONE], [60, 120, 1800]],
    ("tram", 50): [[0, 500, 900], [NONE, 120, 1860]],
}


@pytest.fixture
def matrix() -> Matrix:
    """Two homes, whose identifiers are numbers, and three places with jobs, in two scenarios."""
    homes = {"id": [7, 8], "people": [10.0, 20.0]}
    places = {"id": ["x", "y", "z"], "jobs": [1, 2, 4]}
    origins = geopandas.GeoDataFrame(homes, geometry=[Point(0, 51), Point(0, 51.1)], crs=4326, index=["a", "b"])
    points = [Point(0, 51), Point(0, 51.1), Point(0, 51.2)]
    destinations = geopandas.GeoDataFrame(places, geometry=points, crs=4326).to_crs(32631)
    arrays = {key: np.array(rows, np.float32) for key, rows in CELLS.items()}
    context = Context(origins, destinations, QUESTION, (Note("engine", "a word", 0),), ((1,), (0, 2)))
    return Matrix(ArrayMatrix(["7", "8"], ["x", "y", "z"], arrays), context)


def test_its_parts_are_named(matrix: Matrix) -> None:
    assert matrix.scenarios == ("today", "tram") and matrix.base == "today"
    assert matrix.percentiles == (50,) and matrix.shape == (2, 1, 2, 3)
    assert matrix.question == QUESTION and matrix.notes == (Note("engine", "a word", 0),)
    assert [list(names) for names in matrix.unreachable] == [[8], ["x", "z"]]
    assert list(matrix.origins.index) == ["a", "b"] and matrix.destinations.crs == 32631


def test_wide_and_long_have_identifiers_of_their_own_kind(matrix: Matrix) -> None:
    wide = matrix.wide("tram")
    assert wide.index.tolist() == [7, 8] and wide.columns.tolist() == ["x", "y", "z"]
    assert wide.loc[8, "z"] == 1860 and np.isnan(wide.loc[8, "x"]) and wide.dtypes.unique() == [np.float64]
    long = matrix.long()
    assert list(long.columns) == ["scenario", "percentile", "from_id", "to_id", "seconds"] and len(long) == 12
    assert long.iloc[1].tolist() == ["today", 50, 7, "y", 600.0]
    reached = matrix.long(unit="minutes", unreached=False)
    assert len(reached) == 10 and reached["minutes"].iloc[-1] == 31
    with pytest.raises(ArgumentError, match="unit is 'hours'"):
        matrix.long(unit="hours")  # type: ignore[arg-type]


def test_sel_keeps_the_order_of_labels_and_refuses_unknown_ones(matrix: Matrix) -> None:
    part = matrix.sel(scenario="tram", from_id=8, to_id=["z", "y"])
    assert part.shape == (1, 1, 1, 2) and part.wide("tram").to_numpy().tolist() == [[1860, 120]]
    assert part.destinations["jobs"].tolist() == [4, 2]
    assert part.load().wide("tram").equals(part.wide("tram"))
    assert [list(names) for names in part.load().unreachable] == [[8], ["z"]]
    with pytest.raises(ArgumentError, match="scenario is 'bus'; allowed: today, tram"):
        matrix.sel(scenario="bus")
    with pytest.raises(InputError, match="from_id: '9' is not in the matrix"):
        matrix.sel(from_id=9)


def test_a_column_is_a_catchment_and_a_row_what_is_reached(matrix: Matrix) -> None:
    catchment = matrix.reaching("y")
    assert catchment["seconds"].tolist() == [600, 120] and catchment.index.tolist() == ["a", "b"]
    reached = matrix.reached_from(8, scenario="tram")
    assert reached["seconds"].tolist()[1:] == [120, 1860] and np.isnan(reached["seconds"].iloc[0])


def test_access_counts_what_is_within_each_limit(matrix: Matrix) -> None:
    access = matrix.access("jobs", [10, 30])
    assert list(access.columns)[:6] == ["scenario", "percentile", "from_id", "opportunity", "minutes", "access"]
    sums = {(row.scenario, row.from_id, row.minutes): row.access for row in access.itertuples()}
    assert sums == {
        ("today", 7, 10): 3,
        ("today", 8, 10): 3,
        ("today", 7, 30): 3,
        ("today", 8, 30): 7,
        ("tram", 7, 10): 3,
        ("tram", 8, 10): 2,
        ("tram", 7, 30): 7,
        ("tram", 8, 30): 2,
    }
    assert access.crs == 4326 and access.geometry.iloc[1].y == 51.1
    gradual = matrix.access("jobs", [10], decay=Decay.exponential())["access"].tolist()
    # halves at 600 seconds: 1 + 2/2; 2**-0.1 + 2 * 2**-0.2 + 4 * 2**-3
    assert gradual[:2] == pytest.approx([2, 2**-0.1 + 2 * 2**-0.2 + 0.5])


def test_columns_that_are_no_numbers_are_refused(matrix: Matrix) -> None:
    with pytest.raises(InputError, match="destinations: job has no column; the nearest is 'jobs'"):
        matrix.access("job", [30])
    bad = Matrix(matrix._part.store, Context(matrix.origins, matrix.destinations.assign(jobs=[1, -2, 4])))
    with pytest.raises(InputError, match="jobs '-2' is invalid in row 1; allowed: a number from 0 on"):
        bad.access("jobs", [30])
    with pytest.raises(ArgumentError, match="minutes is"):
        matrix.access("jobs", [])


def test_the_nearest_names_the_destination_that_completes_the_count(matrix: Matrix) -> None:
    nearest = matrix.nearest()
    assert nearest[["from_id", "to_id", "seconds"]].values.tolist() == [
        [7, "x", 0],
        [8, "x", 60],
        [7, "x", 0],
        [8, "y", 120],
    ]
    third = matrix.nearest("jobs", 3)
    assert third["to_id"].tolist() == ["y", "y", "y", "z"] and third["seconds"].tolist() == [600, 120, 500, 1860]
    none = matrix.nearest("jobs", 7)
    assert none["to_id"].isna().tolist() == [True, False, False, True]
    assert np.isnan(none["seconds"].iloc[0]) and none["seconds"].iloc[2] == 900


def test_the_nearest_says_what_was_counted(matrix: Matrix) -> None:
    """Jobs are 1, 2 and 4, so the third place is the third with any, and the third job is at the second place."""
    third = matrix.nearest("jobs", 3, counted="places")
    assert third[["opportunity", "counted", "count"]].drop_duplicates().values.tolist() == [["jobs", "places", 3]]
    assert third["to_id"].isna().tolist() == [True, False, False, True] and third["to_id"].tolist()[1:3] == ["z", "z"]
    assert matrix.nearest()[["opportunity", "counted"]].drop_duplicates().values.tolist() == [["places", "places"]]
    with pytest.raises(ArgumentError, match="counted is 'beds'; allowed: opportunities, places"):
        matrix.nearest("jobs", counted="beds")  # type: ignore[arg-type]
    with pytest.raises(ArgumentError, match="count is 0; allowed: 1 or more"):
        matrix.nearest_ties("jobs", 0)


def test_ties_are_counted_and_listed(matrix: Matrix) -> None:
    """From 7 both x and y are 600 seconds away, from 8 both y and z, and x is nearer."""
    cells = {("today", 50): np.array([[600, 600, NONE], [60, 600, 600]], np.float32)}
    context = Context(matrix.origins, matrix.destinations.assign(beds=[1, 0, 1]))
    tied = Matrix(ArrayMatrix(["7", "8"], ["x", "y", "z"], cells), context)
    assert tied.nearest()[["to_id", "seconds", "ties"]].values.tolist() == [["x", 600, 1], ["x", 60, 0]]
    second = tied.nearest(count=2)
    assert second[["to_id", "ties"]].values.tolist() == [["y", 1], ["y", 1]]
    found = tied.nearest_ties(count=2)
    assert found[["from_id", "to_id", "seconds"]].values.tolist() == [
        [7, "x", 600],
        [7, "y", 600],
        [8, "y", 600],
        [8, "z", 600],
    ]
    assert found.crs == 4326 and found.geometry.iloc[3].y == 51.1
    assert tied.nearest("beds")["ties"].tolist() == [0, 0]  # y has no beds
    assert len(tied.nearest_ties("beds", 2)) == 0 and tied.nearest("beds", 2)["ties"].tolist() == [0, 0]


def test_a_difference_counts_destinations_by_what_became_of_them(matrix: Matrix) -> None:
    found = matrix.difference("tram", tolerance="1 min")
    counts = found[["cut_off", "slower", "unchanged", "faster", "new"]]
    assert counts.values.tolist() == [[0, 0, 1, 1, 1], [1, 0, 2, 0, 0]]
    assert found["mean_change"].tolist() == [-50, 30] and found.index.tolist() == ["a", "b"]
    assert matrix.difference("tram")["slower"].tolist() == [0, 1]
    pairs = matrix.difference_by_pair("tram")
    assert pairs[["from_id", "to_id", "what"]].values.tolist() == [
        [7, "y", "faster"],
        [7, "z", "new"],
        [8, "x", "cut off"],
        [8, "z", "slower"],
    ]
    assert pairs["change"].tolist()[0] == -100 and pairs["change"].iloc[3] == 60


def test_competition_shares_out_what_is_there(matrix: Matrix) -> None:
    found = matrix.sel(scenario="today").competition("jobs", "people", [10])
    # x and y are reached by 30 people each, z by none within ten minutes: (1 + 2) / 30
    assert found["access"].tolist() == pytest.approx([0.1, 0.1])
    everybody = matrix.sel(scenario="today").competition("jobs", "people", [10], method="availability")
    assert everybody["access"].tolist() == pytest.approx([1, 2])


def test_a_file_restores_places_question_and_notes(matrix: Matrix, tmp_path: Path) -> None:
    pytest.importorskip("h5py")
    matrix.to_omx(tmp_path / "both.omx")
    found = open_matrix(tmp_path / "both.omx")
    assert found.scenarios == matrix.scenarios and found.question == QUESTION and found.notes == matrix.notes
    for scenario in matrix.scenarios:
        assert found.wide(scenario).equals(matrix.wide(scenario))
    assert found.origins.equals(matrix.origins) and found.origins.crs == matrix.origins.crs
    assert found.destinations.drop(columns="geometry").equals(matrix.destinations.drop(columns="geometry"))
    assert found.destinations.geometry.geom_equals_exact(matrix.destinations.geometry, 1e-6).all()
    assert [list(names) for names in found.unreachable] == [[8], ["x", "z"]]
    assert found.access("jobs", [30])["access"].tolist() == matrix.access("jobs", [30])["access"].tolist()


def test_a_table_is_written_in_whole_seconds(matrix: Matrix, tmp_path: Path) -> None:
    matrix.to_csv(tmp_path / "long.csv", unreached=False)
    lines = (tmp_path / "long.csv").read_text().splitlines()
    assert lines[:3] == ["scenario,percentile,from_id,to_id,seconds", "today,50,7,x,0", "today,50,7,y,600"]
    assert len(lines) == 11


def test_arrays_are_read_only_and_in_blocks(matrix: Matrix) -> None:
    pytest.importorskip("xarray")
    array = matrix.to_xarray()
    assert array.dims == ("scenario", "percentile", "from_id", "to_id") and array.attrs["units"] == "s"
    assert float(array.sel(scenario="tram", from_id=8, to_id="z").item()) == 1860
    assert [block.shape for block in matrix.blocks(1)] == [(2, 1, 1, 3)] * 2
    with pytest.raises(ValueError, match="read-only"):
        array.to_numpy()[0, 0, 0, 0] = 1
    assert np.asarray(matrix).shape == matrix.shape


def test_it_can_be_pickled_and_shown(matrix: Matrix) -> None:
    assert pickle.loads(pickle.dumps(matrix)).wide("tram").equals(matrix.wide("tram"))
    assert "2 origins, 3 destinations" in matrix._repr_html_() and "today, tram" in repr(matrix)


def test_a_decay_takes_minutes_only_where_it_has_some() -> None:
    assert Decay.linear(5) == Decay("linear", 5)
    for kind, value in (("linear", None), ("logistic", 0), ("step", 5), ("exponential", 1), ("cliff", None)):
        with pytest.raises(ArgumentError, match="allowed"):
            Decay(kind, value)  # type: ignore[arg-type]
