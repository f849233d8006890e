"""Frames with r5py's names behave as plain frames in every method of pandas and geopandas."""

import copy
import inspect
import pickle
import warnings
from typing import Any

import pytest

for _package in ("geopandas", "shapely"):
    pytest.importorskip(_package)

import geopandas  # noqa: E402
import pandas  # noqa: E402
from shapely.geometry import Point  # noqa: E402

from ttm_tools.compat.r5py.frames import ComputedFrame, ComputedGeoFrame  # noqa: E402
from ttm_tools.compat.r5py.isochrones import Isochrones  # noqa: E402
from ttm_tools.compat.r5py.itineraries import DetailedItineraries  # noqa: E402
from ttm_tools.compat.r5py.matrix import TravelTimeMatrix  # noqa: E402

ROWS = {"from_id": ["a", "a", "b"], "to_id": ["c", "d", "c"], "travel_time": [5.0, float("nan"), 7.0]}
SKIPPED = {
    "sample",
    "plot",
    "hist",
    "boxplot",
    "explore",
    "to_clipboard",
    "style",
    "to_xarray",
    "to_feather",
    "to_parquet",
}


class Matrix(ComputedFrame):
    def __init__(self, transport_network: Any) -> None:
        super().__init__(ROWS)


class Areas(ComputedGeoFrame):
    def __init__(self, transport_network: Any) -> None:
        super().__init__(ROWS, geometry=[Point(0, 0), Point(1, 1), Point(2, 2)], crs="EPSG:4326")


def result(frame: Any, name: str) -> Any:
    """What a method or property gives, or the kind of its error."""
    with warnings.catch_warnings():
        warnings.simplefilter("ignore")
        try:
            found = getattr(frame, name)
            return found() if callable(found) else found
        except Exception as fault:
            return type(fault).__name__


@pytest.mark.parametrize("kind, plain", [(Matrix, pandas.DataFrame), (Areas, geopandas.GeoDataFrame)])
def test_every_method_without_arguments_gives_what_a_plain_frame_gives(kind: Any, plain: Any) -> None:
    names = [name for name in dir(plain) if not name.startswith("_") and name not in SKIPPED]
    assert len(names) > 150
    for name in names:
        own, other = result(kind("network"), name), result(plain(kind("network")), name)
        if isinstance(other, (pandas.DataFrame, pandas.Series)):
            assert type(own) in (type(other), kind), name
            assert isinstance(own, plain) or not isinstance(other, plain), name
            assert own.equals(other), name
        elif not inspect.isroutine(other) and isinstance(other, (tuple, str, int, float)):
            assert str(own) == str(other), name


@pytest.mark.parametrize("kind, plain", [(Matrix, pandas.DataFrame), (Areas, geopandas.GeoDataFrame)])
def test_methods_with_arguments_and_copies(kind: Any, plain: Any) -> None:
    frame, table = kind("network"), plain(kind("network"))
    assert frame.describe().equals(table.describe()) and frame.describe(include="all").shape[0] > 8
    assert frame.select_dtypes("number").equals(table.select_dtypes("number"))
    assert frame.compare(frame.copy()).empty and frame.compare(table).empty
    for again in (frame.copy(), copy.copy(frame), copy.deepcopy(frame), pickle.loads(pickle.dumps(frame))):
        assert isinstance(again, plain) and again.equals(table)
    other = frame.assign(travel_time=1.0)
    assert list(frame.compare(other)["travel_time"]["other"]) == [1.0, 1.0, 1.0]
    assert frame.merge(table, on=["from_id", "to_id"]).shape[0] == 3
    assert frame.groupby("from_id")["travel_time"].mean().tolist() == [5.0, 7.0]
    assert frame.query("travel_time > 5")["from_id"].tolist() == ["b"] and pandas.concat([frame, table]).shape[0] == 6


@pytest.mark.parametrize("kind", [TravelTimeMatrix, Isochrones, DetailedItineraries])
def test_the_classes_make_plain_frames_of_data(kind: Any) -> None:
    assert kind.from_dict(ROWS).shape == (3, 3) and kind.from_records([{"a": 1}]).shape == (1, 1)
    assert issubclass(kind, ComputedFrame) and not isinstance(kind.from_dict(ROWS), kind)
    if kind is not TravelTimeMatrix:
        feature = {"type": "Feature", "properties": {"n": 1}, "geometry": {"type": "Point", "coordinates": [1, 2]}}
        found = kind.from_features([feature], crs="EPSG:4326")
        assert type(found) is geopandas.GeoDataFrame and found["n"].tolist() == [1] and found.crs.to_epsg() == 4326
