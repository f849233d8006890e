"""Isochrones and itineraries by r5py's names, by hand."""

import datetime
from typing import Any, Iterator

import numpy as np
import pandas
import pytest

from helpers import Room

for package in ("geopandas", "osmium", "scipy", "pyproj"):
    pytest.importorskip(package)

from r5py_town import CLINIC, HOME, MINUTE, SEVEN_45, degrees, frame, write_feed, write_streets  # noqa: E402
from ttm_tools import r5py  # noqa: E402
from ttm_tools.core.errors import InputError  # noqa: E402

WALK = [r5py.TransportMode.WALK]
QUARTER: Any = {"max_time_walking": 15 * MINUTE, "departure": SEVEN_45}
COLUMNS = (
    "from_id to_id option segment transport_mode departure_time distance travel_time wait_time feed agency_id route_id "
    "start_stop_id end_stop_id geometry"
).split()
SECOND = datetime.timedelta(seconds=1)


@pytest.fixture
def walking(room: Room, monkeypatch: pytest.MonkeyPatch) -> r5py.TransportNetwork:
    """Streets alone, for which no program runs."""
    monkeypatch.setenv("TTM_CACHE", room.path("cache"))
    return r5py.TransportNetwork(write_streets(room))


@pytest.fixture
def network(room: Room, monkeypatch: pytest.MonkeyPatch, program: str) -> Iterator[r5py.TransportNetwork]:
    monkeypatch.setenv("TTM_CACHE", room.path("cache"))
    with r5py.TransportNetwork(write_streets(room), [write_feed(room)], program=program) as network_made:
        yield network_made


def has(area: Any, place: tuple[float, float]) -> bool:
    """Whether an area has a place, at its edge too."""
    return bool(area.distance(degrees(place)) < 1e-6)


def test_an_isochrone_goes_along_the_streets_as_far_as_one_walks(walking: r5py.TransportNetwork) -> None:
    result = r5py.Isochrones(
        walking, degrees((0.0, 0.0)), isochrones=[0, 5, 10], transport_modes=WALK, departure=SEVEN_45
    )
    assert list(result.columns) == ["travel_time", "geometry"] and result.crs == "EPSG:4326"
    assert result.travel_time.tolist() == [pandas.Timedelta(minutes=5), pandas.Timedelta(minutes=10)]
    near, wide = result.geometry
    for area, metres in ((near, 300), (wide, 600)):  # the squares are 100 metres wide
        assert has(area, (0.0, metres - 130.0)) and not has(area, (0.0, metres + 130.0))
    assert has(near, (0.0, -170.0)) and has(wide, (0.0, -400.0))
    assert not has(wide, (300.0, 0.0)) and near.difference(wide).area < 1e-6 * near.area


def test_several_origins_have_one_area_and_the_squares_a_width(walking: r5py.TransportNetwork) -> None:
    ends = frame([(0.0, -500.0), (2000.0, 2500.0)], [1, 2])
    more: Any = {"transport_modes": WALK, "departure": SEVEN_45, "isochrones": [2]}
    result = r5py.Isochrones(walking, ends, point_grid_resolution=20, **more).geometry[0]
    assert result.geom_type == "MultiPolygon" and len(result.geoms) == 2
    metres = r5py.Isochrones(walking, ends, point_grid_resolution=20, **more).to_crs(32631).area[0]
    assert 2 * 2400 * 0.8 < metres < 2 * 2400 * 2.2  # 120 metres of each street, one to two squares wide


def test_vehicles_carry_an_isochrone_on(network: r5py.TransportNetwork) -> None:
    result = r5py.Isochrones(
        network, frame([HOME], ["home"]), isochrones=pandas.to_timedelta([15, 40], "min"), **QUARTER
    )
    near, wide = result.geometry
    # by the median the clinic is 41:40 from home
    assert has(near, (0.0, 0.0)) and not has(near, (0.0, 2000.0))
    assert has(wide, (0.0, 2000.0)) and not has(wide, CLINIC)
    late = r5py.Isochrones(network, frame([HOME], ["home"]), isochrones=[44], **QUARTER)
    assert has(late.geometry[0], CLINIC)


@pytest.mark.parametrize(
    "argument, value", [("point_grid_sample_ratio", 0.5), ("isochrones", [0]), ("percentiles", [25, 75])]
)
def test_isochrones_that_are_not_to_be_had_are_named(walking: r5py.TransportNetwork, argument: str, value: Any) -> None:
    with pytest.raises(r5py.NotAvailable, match=f"^{argument}: "):
        r5py.Isochrones(walking, degrees((0.0, 0.0)), **{"transport_modes": WALK, argument: value})


def test_a_journey_has_a_row_for_each_leg(network: r5py.TransportNetwork) -> None:
    result = r5py.DetailedItineraries(network, frame([HOME], ["home"]), frame([CLINIC], [7]), **QUARTER)
    assert list(result.columns) == COLUMNS and result.crs == "EPSG:4326"
    assert result.option.tolist() == [0] * 4 and result.segment.tolist() == [0, 1, 2, 3]
    assert [mode.name for mode in result.transport_mode] == ["WALK", "BUS", "TRAM", "WALK"]
    assert set(result.from_id) == {"home"} and set(result.to_id) == {7}
    # it is the last departure that catches T1: 07:54, six minutes to A
    begins = [datetime.datetime(2026, 5, 4, *at) for at in ((7, 54), (8, 0), (8, 15), (8, 30))]
    assert result.departure_time.tolist() == [pandas.Timestamp(begin) for begin in begins]
    assert result.travel_time.tolist() == [number * SECOND for number in (360, 600, 900, 100)]
    assert result.wait_time.tolist() == [number * SECOND for number in (0, 0, 300, 0)]
    assert np.allclose(result["distance"], [359.4, 2000, 2000, 99.3], atol=0.1)
    named = result[["feed", "agency_id", "route_id", "start_stop_id", "end_stop_id"]].values.tolist()
    assert named[0] == [None, None, None, None, "A"] and named[3] == [None, None, None, "C", None]
    assert named[1:3] == [["feed", "W", "R1", "A", "B"], ["feed", "W", "R2", "B", "C"]]


def test_walks_are_drawn_along_streets_and_rides_from_stop_to_stop(network: r5py.TransportNetwork) -> None:
    result = r5py.DetailedItineraries(network, frame([HOME], ["home"]), frame([CLINIC], [7]), **QUARTER)
    ends = [HOME, (0.0, 0.0), (0.0, 2000.0), (2000.0, 2000.0), CLINIC]
    for line, begin, end in zip(result.geometry, ends, ends[1:]):
        assert line.geom_type == "LineString"
        for place, point in ((begin, line.coords[0]), (end, line.coords[-1])):
            assert np.allclose(point, degrees(place).coords[0], atol=1e-9)
    assert result.geometry[0].intersects(degrees((0.0, -300.0)).buffer(1e-9))  # where the way meets the street


def test_journeys_by_other_vehicles_or_on_foot_are_further_options(room: Room, network: r5py.TransportNetwork) -> None:
    more: Any = {**QUARTER, "max_time_walking": 120 * MINUTE, "departure_time_window": 30 * MINUTE}
    result = r5py.DetailedItineraries(network, frame([HOME], ["home"]), frame([CLINIC], [7]), **more)
    found = result.groupby("option").transport_mode.apply(lambda modes: [mode.name for mode in modes])
    # after 07:54 all is walked, or a walk to B meets T2, which takes more than 2,360 seconds from 07:36 on
    assert found.tolist() == [["WALK", "BUS", "TRAM", "WALK"], ["WALK"]]
    assert result[result.option == 1].departure_time.tolist() == [pandas.Timestamp(2026, 5, 4, 8, 14)]
    assert result[result.option == 1].travel_time.tolist() == [4459 * SECOND]


def test_pairs_are_in_turn_or_of_all_with_all(walking: r5py.TransportNetwork) -> None:
    two, others = frame([HOME, (0.0, 0.0)], ["home", "A"]), frame([(0.0, 100.0), (0.0, 200.0)], [1, 2])
    more: Any = {"transport_modes": WALK, "departure": SEVEN_45}

    def pairs(origins: Any, destinations: Any = None, **force: Any) -> list[tuple[object, object]]:
        result = r5py.DetailedItineraries(walking, origins, destinations, **force, **more)
        return list(zip(result.from_id, result.to_id))

    assert pairs(two, others) == [("home", 1), ("A", 2)]
    assert pairs(two, others, force_all_to_all=True) == [("home", 1), ("home", 2), ("A", 1), ("A", 2)]
    assert pairs(two, others.iloc[:1]) == [("home", 1), ("A", 1)]
    assert pairs(two) == [("home", "A"), ("A", "home")]


def test_a_walk_alone_is_one_row(walking: r5py.TransportNetwork) -> None:
    ends: Any = frame([HOME], ["home"]), frame([(0.0, 100.0), (900.0, 100.0)], [1, 2])
    result = r5py.DetailedItineraries(walking, *ends, transport_modes=WALK, departure=SEVEN_45, max_time=10 * MINUTE)
    assert result[["to_id", "option", "segment"]].values.tolist() == [[1, 0, 0]]
    assert result.travel_time.tolist() == [460 * SECOND] and np.allclose(result["distance"], 459.4, atol=0.1)
    assert list(result.columns) == COLUMNS
    none = r5py.DetailedItineraries(walking, *ends, transport_modes=WALK, departure=SEVEN_45, max_time=MINUTE)
    assert list(none.columns) == COLUMNS and len(none) == 0


def test_the_older_name_gives_the_same_and_warns(walking: r5py.TransportNetwork) -> None:
    ends: Any = frame([HOME], ["home"]), frame([(0.0, 100.0)], [1])
    more: Any = {"transport_modes": WALK, "departure": SEVEN_45}
    with pytest.warns(DeprecationWarning, match="DetailedItineraries replaces"):
        computer = r5py.DetailedItinerariesComputer(walking, *ends, **more)
    assert computer.compute_travel_details().equals(r5py.DetailedItineraries(walking, *ends, **more))


def test_a_journey_that_ttm_does_not_confirm_is_refused(
    network: r5py.TransportNetwork, monkeypatch: pytest.MonkeyPatch
) -> None:
    from ttm_tools.journeys import search

    true = search.durations
    later = lambda *words: [item and item + 60 for item in true(*words)]  # noqa: E731
    monkeypatch.setattr(search, "durations", later)
    with pytest.raises(InputError, match="at 07:54: ttm has 2260.0 seconds, and this search 2320"):
        r5py.DetailedItineraries(network, frame([HOME], ["home"]), frame([CLINIC], [7]), **QUARTER)
