"""Results of the library are plain frames: every method of pandas and geopandas works on them, and files keep them."""

import inspect
from pathlib import Path
from typing import Any

import pytest

for package in ("geopandas", "shapely", "pyproj"):
    pytest.importorskip(package)

import geopandas  # noqa: E402
import pandas  # noqa: E402

from test_api_network import WINDOW, homes, network, own_cache  # noqa: E402, F401
from test_r5py_frames import SKIPPED, result  # noqa: E402
from ttm_tools.api.measures import access_change, equity, people_by_band  # noqa: E402
from ttm_tools.api.network import Network  # noqa: E402
from ttm_tools.api.scenario import Scenario  # noqa: E402

KINDS = {"object", "int64", "float64", "geometry", "datetime64[ns]"}  # that geopandas 0.12 saves and plots


@pytest.fixture
def frames(network: Network) -> dict[str, Any]:  # noqa: F811
    """A result of each kind."""
    question = WINDOW.replace(percentiles=(50,), max_walk="20 min")
    origins = homes(0, 100, crs=32631).assign(people=[30, 10], income=[1.0, 2.0])
    destinations = homes(2224, 4448).assign(jobs=[5, 7])
    planned = network.with_scenarios(Scenario("late").remove_trips("first"))
    both = planned.matrix(origins, destinations, question)
    access = both.access("jobs", minutes=[15, 30])
    found = {
        "long": both.long(),
        "wide": both.wide(),
        "reaching": both.reaching(1),
        "reached_from": both.reached_from(1),
        "nearest": both.nearest("jobs"),
        "nearest_ties": both.nearest_ties("jobs"),
        "access": access,
        "competition": both.competition("jobs", "people", minutes=[30]),
        "difference": both.difference("late"),
        "difference_by_pair": both.difference_by_pair("late"),
        "access_change": access_change(access, "late"),
        "equity": equity(access, origins, people="people", rank="income"),
        "people_by_band": people_by_band(access, origins, people="people", limits=[1, 10]),
        "itineraries": network.itineraries(origins, destinations, question),
        "service": network.service("2026-05-04"),
        "stops": network.stops,
        "routes": network.routes,
        "repairs": network.repairs,
    }
    planned.close()
    return found


def rebuilt(frame: Any) -> Any:
    """A frame with the same columns that was not computed."""
    columns = {name: pandas.Series(list(frame[name]), index=frame.index, dtype=frame[name].dtype) for name in frame}
    table = pandas.DataFrame(columns, index=frame.index)
    table.columns = frame.columns
    if not isinstance(frame, geopandas.GeoDataFrame):
        return table
    return geopandas.GeoDataFrame(table, geometry=frame.geometry.name, crs=frame.crs)


@pytest.mark.filterwarnings("ignore")
def test_every_method_gives_what_a_plain_frame_gives(frames: dict[str, Any]) -> None:
    for kind, frame in frames.items():
        plain = geopandas.GeoDataFrame if "geometry" in frame.columns else pandas.DataFrame
        assert type(frame) is plain, kind
        assert {str(one) for one in frame.dtypes} <= KINDS, kind
        other = rebuilt(frame)
        for name in (one for one in dir(plain) if not one.startswith("_") and one not in SKIPPED):
            own, expected = result(frame, name), result(other, name)
            assert type(own) is type(expected), (kind, name)
            if isinstance(expected, (pandas.DataFrame, pandas.Series)):
                assert own.equals(expected), (kind, name)
            elif not inspect.isroutine(expected) and isinstance(expected, (tuple, str, int, float)):
                assert str(own) == str(expected), (kind, name)


@pytest.mark.filterwarnings("ignore")
def test_frames_with_geometries_are_saved_and_read(frames: dict[str, Any], tmp_path: Path) -> None:
    saved = 0
    for kind, frame in frames.items():
        if isinstance(frame, geopandas.GeoDataFrame):
            frame.to_file(tmp_path / f"{kind}.gpkg")
            again = geopandas.read_file(tmp_path / f"{kind}.gpkg")
            assert (len(again), again.crs) == (len(frame), frame.crs), kind
            saved += 1
    assert saved >= 8
