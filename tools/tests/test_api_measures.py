"""Equity, bands and changes of access as frames, cells and numbers in them, by values worked out by hand."""

import warnings
from typing import Any

import pytest

geopandas = pytest.importorskip("geopandas")
pandas = pytest.importorskip("pandas")
from shapely.geometry import Point, box  # noqa: E402

from ttm_tools.api.cells import allocate, grid  # noqa: E402
from ttm_tools.api.measures import access_change, equity, people_by_band  # noqa: E402
from ttm_tools.core.errors import ArgumentError, InputError  # noqa: E402
from ttm_tools.core.notes import TtmWarning  # noqa: E402

HOMES = pandas.DataFrame({"id": [1, 2, 3], "people": [3, 1, 1], "income": [5, 9, 7], "group": ["low", "high", "high"]})


def access() -> Any:
    columns = {"scenario": ["today"] * 3 + ["tram"] * 3, "from_id": [1, 2, 3] * 2, "access": [10.0, 30, 0, 20, 30, 5]}
    return geopandas.GeoDataFrame(columns, geometry=[Point(place, 0) for place in (1, 2, 3)] * 2, crs=4326)


def test_equity_by_group_and_scenario() -> None:
    found = equity(access(), HOMES, people="people", by="group", rank="income", poverty_line=15)
    by_key = found.set_index(["scenario", "group"])
    assert list(by_key.index) == [("today", "low"), ("today", "high"), ("tram", "low"), ("tram", "high")]
    high = by_key.loc[("today", "high")]
    # two people with 30 and 0: the mean is 15, half of all differences 15 / 15; ranks 9 and 7
    assert (high["people"], high["mean"], high["gini"], high["fgt0"]) == (2, 15, 0.5, 0.5)
    assert high["concentration"] == pytest.approx(0.5)
    assert by_key.loc[("tram", "low"), "least_tenth_change"] == 10
    assert by_key.loc[("tram", "high"), "losers_percent"] == 0


def test_losers_are_counted_against_the_named_base() -> None:
    found = equity(access(), HOMES, people="people", base="tram", loss_percent=50)
    # from 20, 30 and 5 to 10, 30 and 0: three and one of five people lose at least half
    assert found.set_index("scenario").loc["today", "losers_percent"] == 80
    with pytest.raises(ArgumentError, match="base is 'bus'; allowed: today, tram"):
        equity(access(), HOMES, people="people", base="bus")


def test_several_groups_of_people_each_have_a_row() -> None:
    homes = HOMES.assign(children=[1, 0, 0])
    found = equity(access(), homes, people=["people", "children"])
    assert found["group"].tolist() == ["people", "children"] * 2
    assert found.loc[found["group"] == "children", "mean"].tolist() == [10, 20]
    none = equity(access(), HOMES.assign(people=0), people="people")
    assert none["people"].tolist() == [0, 0] and none["mean"].isna().all() if "mean" in none else True


def test_access_without_scenarios_is_taken_too() -> None:
    alone = pandas.DataFrame({"from_id": [1, 2], "access": [10.0, 30.0]})
    found = equity(alone, HOMES.iloc[:2], people="people")
    assert found[["group", "people", "mean"]].values.tolist() == [["people", 4, 15]]


def test_people_by_band_counts_people_with_at_least_so_much() -> None:
    found = people_by_band(access(), HOMES, people="people", limits=[5, 20])
    assert found["people"].tolist() == [4, 1, 5, 4] and found["percent"].tolist() == [80, 20, 100, 80]


def test_changes_of_access_are_named() -> None:
    found = access_change(access(), "tram")
    assert found["what"].tolist() == ["more", "same", "newly reached"]
    assert found["change"].tolist() == [10, 0, 5] and found["percent"].tolist()[0] == 100
    assert access_change(access(), "today", "tram")["what"].tolist() == ["less", "same", "cut off"]
    assert list(found.columns) == ["from_id", "before", "after", "change", "percent", "what", "geometry"]


def test_tables_that_do_not_fit_are_refused_by_name() -> None:
    with pytest.raises(InputError, match="access: access is not a column"):
        equity(access().drop(columns="access"), HOMES, people="people")
    with pytest.raises(InputError, match="access: '9' from_id is not among the origins"):
        equity(access().assign(from_id=9), HOMES, people="people")
    with pytest.raises(InputError, match="origins: persons has no column"):
        equity(access(), HOMES, people="persons")
    with pytest.raises(InputError, match="two rows for an origin"):
        equity(pandas.concat([access(), access()]), HOMES, people="people")


def test_a_grid_covers_an_area_and_shares_out_its_numbers() -> None:
    area = geopandas.GeoDataFrame({"jobs": [100.0]}, geometry=[box(500_000, 0, 501_000, 500)], crs=32631)
    cells = grid(area, 250, crs=32631)
    assert len(cells) == 8 and cells["id"].tolist()[:3] == ["r1c1", "r1c2", "r1c3"] and cells.crs == 32631
    assert allocate(area, cells)["jobs"].tolist() == pytest.approx([12.5] * 8)
    half = geopandas.GeoDataFrame({"jobs": [8.0]}, geometry=[box(500_000, 0, 500_125, 250)], crs=32631)
    assert allocate(half, cells)["jobs"].tolist() == [8] + [0] * 7


def test_points_count_where_they_lie_and_what_lies_outside_is_said() -> None:
    area = geopandas.GeoDataFrame({"id": [1]}, geometry=[box(500_000, 0, 500_500, 250)], crs=32631)
    cells = grid(area, 250, crs=32631)
    points = {"jobs": [3, 5, 7], "id": [1, 2, 3]}
    there = [Point(500_010, 10), Point(500_260, 10), Point(501_000, 10)]
    source = geopandas.GeoDataFrame(points, geometry=there, crs=32631).to_crs(4326)
    with pytest.warns(TtmWarning, match="7 of 15 jobs are outside all cells"):
        found = allocate(source, cells)
    assert found["jobs"].tolist() == [3, 5]
    with warnings.catch_warnings():
        warnings.simplefilter("error")
        assert allocate(source.iloc[:2], cells, ["jobs"])["jobs"].sum() == 8


def test_frames_without_a_projection_or_rows_are_refused() -> None:
    bare = geopandas.GeoDataFrame({"id": [1]}, geometry=[Point(0, 0)])
    with pytest.raises(InputError, match="area: names no coordinate reference system"):
        grid(bare, 250)
    with pytest.raises(InputError, match="area: has no rows"):
        grid(bare.iloc[:0].set_crs(4326), 250)
    with pytest.raises(ArgumentError, match="cell_m is 0"):
        grid(bare.set_crs(4326), 0)
