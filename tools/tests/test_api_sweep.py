"""Each kind of result goes through every method of pandas and geopandas, and into files, as a plain frame does."""

import inspect
import os
import pickle
import warnings
from collections.abc import Iterator
from importlib.util import find_spec
from pathlib import Path
from typing import Any

import numpy as np
import pytest

for package in ("geopandas", "osmium", "scipy", "rtree", "matplotlib"):
    pytest.importorskip(package)
import geopandas  # noqa: E402
import matplotlib  # noqa: E402
import pandas  # noqa: E402

import ttm_tools as ttm  # noqa: E402

pytestmark = [pytest.mark.program, pytest.mark.filterwarnings("ignore")]
PLAIN = (pandas.DataFrame, pandas.Series, geopandas.GeoDataFrame, geopandas.GeoSeries)
KINDS = ("object", "int64", "float64", "bool", "datetime64[ns]", "geometry")
NEED_ARGUMENTS = set(
    "agg aggregate append drop ewm fillna filter groupby merge pivot pivot_table rename select_dtypes set_crs simplify "
    "take to_crs".split()
)
NOT_FOR_TEXTS_AND_SHAPES = set(  # they add, order or round, which neither texts nor shapes can
    "abs all any argmax argmin argsort autocorr backfill bfill cummax cummin cumprod cumsum diff ffill hist boxplot "
    "idxmax idxmin kurt kurtosis mad max mean median min nlargest nsmallest pad pct_change prod product quantile round "
    "sem sort_values std sum value_counts var".split()
)
NOT_FOR_ALL_FRAMES = set(  # of one value, of an index of dates or of several levels, or not of a frame without rows
    "bool item sample swaplevel to_period to_timestamp to_xml truncate tshift unstack plot select".split()
)
NEED_PACKAGES = {"explore", "to_clipboard", "to_markdown", "to_orc", "to_parquet", "to_feather"}
MAY_FAIL = NEED_ARGUMENTS | NOT_FOR_TEXTS_AND_SHAPES | NOT_FOR_ALL_FRAMES | NEED_PACKAGES


def all_results(engine: Path) -> dict[str, Any]:
    """A result of each kind, of some places of the sample."""
    town, question = ttm.sample(), ttm.Question("2026-05-04", "08:00", "08:04", percentiles=(50, 75), max_walk="15 min")
    homes, some = town.homes.iloc[:12], ttm.grid(town.jobs, 500)
    ttm.settings.engine = engine
    change = ttm.Scenario("change").remove_routes("L0013", "L0010")
    with ttm.open_network(town.gtfs, town.streets) as net, net.with_scenarios(change) as planned:
        matrix, short = planned.matrix(homes, town.clinics, question), question.replace(percentiles=(50,))
        access = matrix.access("beds", minutes=[15, 30])
        both = matrix.sel(percentile=50)
        return {
            "wide": both.wide(),
            "long": both.long(),
            "access": access,
            "nearest": both.nearest("beds", 50),
            "competition": both.competition("beds", "people", minutes=[30]),
            "difference": both.difference("change"),
            "difference_by_pair": both.difference_by_pair("change"),
            "reaching": both.reaching("north"),
            "reached_from": both.reached_from(homes["id"].iloc[0]),
            "origins": matrix.origins,
            "isochrones": net.isochrones(town.clinics, short, minutes=[10, 20], cell_m=250),
            "dissolved": net.isochrones(town.clinics, short, minutes=[10], cell_m=250, dissolve=True),
            "itineraries": net.itineraries(homes.iloc[:2], town.clinics.iloc[:1], short),
            "service": net.service("2026-05-04"),
            "stops": net.stops,
            "routes": net.routes,
            "repairs": net.repairs,
            "trips_by_date": net.trips_by_date,
            "snap": net.snap(homes.geometry),
            "equity": ttm.equity(access, homes, people="people", by="income_group"),
            "bands": ttm.people_by_band(access, homes, people="people", limits=[10, 100]),
            "access_change": ttm.access_change(access, "change"),
            "check_feed": ttm.check_feed(town.gtfs),
            "grid": some,
            "allocate": ttm.allocate(town.jobs, some),
        }


@pytest.fixture(scope="module")
def results(request: pytest.FixtureRequest, tmp_path_factory: pytest.TempPathFactory) -> Iterator[dict[str, Any]]:
    program = request.config.getoption("--program")
    if program is None:
        pytest.skip("without the program")
    matplotlib.use("agg")
    folder, before = tmp_path_factory.mktemp("swept"), os.environ.get("TTM_CACHE")
    os.environ["TTM_CACHE"] = str(folder)
    with warnings.catch_warnings():
        warnings.simplefilter("ignore")
        found = all_results(Path(str(program)).resolve())
    yield found
    ttm.settings.engine = None
    os.environ.pop("TTM_CACHE")
    if before is not None:
        os.environ["TTM_CACHE"] = before


def columns_of(frame: Any) -> dict[str, str]:
    return {str(name): str(kind) for name, kind in frame.dtypes.items()} if frame.ndim == 2 else {"": str(frame.dtype)}


def failing(frame: Any) -> Iterator[str]:
    """Names of attributes and of methods without a needed argument that raise an error."""
    for name in (
        one for one in dir(type(frame)) if not one.startswith("_") and one not in ("cat", "dt", "sparse", "str")
    ):
        try:
            found = getattr(frame, name)
            parameters = inspect.signature(found).parameters.values() if callable(found) else []
        except ValueError:  # of a function that has no signature
            continue
        except Exception:
            yield name
            continue
        needed = [
            one
            for one in parameters
            if one.default is one.empty and one.kind not in (one.VAR_POSITIONAL, one.VAR_KEYWORD)
        ]
        if not callable(found) or inspect.isclass(found) or needed:
            continue
        try:
            found()
        except Exception:
            yield name


def test_results_are_plain_frames_with_plain_columns(results: dict[str, Any]) -> None:
    assert {name for name, frame in results.items() if type(frame) not in PLAIN} == set()
    kinds = {name: set(columns_of(frame).values()) - set(KINDS) for name, frame in results.items()}
    assert {name: found for name, found in kinds.items() if found} == {}
    lost = [name for name, frame in results.items() if hasattr(frame, "geometry") and frame.crs is None]
    assert lost == []


def test_every_method_works_but_those_that_cannot(
    results: dict[str, Any], tmp_path: Path, monkeypatch: pytest.MonkeyPatch
) -> None:
    monkeypatch.chdir(tmp_path)
    found = {name: set(failing(frame)) - MAY_FAIL for name, frame in results.items()}
    wrong = {name: names for name, names in found.items() if names}
    assert wrong == {"itineraries": {"to_json"}}  # geopandas writes no times as JSON, but to_file does
    assert len([name for name in dir(geopandas.GeoDataFrame) if not name.startswith("_")]) > 200


def test_results_survive_copies_and_files(results: dict[str, Any], tmp_path: Path) -> None:
    for name, frame in results.items():
        assert pickle.loads(pickle.dumps(frame)).equals(frame), name
        assert frame.copy().equals(frame) and len(frame.describe(include="all" if frame.ndim == 2 else None)), name
        frame.to_csv(tmp_path / f"{name}.csv")
        assert len(pandas.read_csv(tmp_path / f"{name}.csv", dtype=str)) == len(frame), name
        if find_spec("pyarrow") is not None:
            frame.to_parquet(tmp_path / f"{name}.parquet")
        if not hasattr(frame, "geometry"):
            continue
        for ending in ("gpkg", "geojson"):
            path = tmp_path / f"{name}.{ending}"
            frame.to_file(path, driver="GPKG" if ending == "gpkg" else "GeoJSON")
            again = geopandas.read_file(path)
            columns = set() if frame.ndim == 1 else {str(column) for column in frame.columns}
            assert len(again) == len(frame) and columns <= set(again.columns) | {frame.geometry.name}, name
        axes = frame.plot(aspect=1)
        matplotlib.pyplot.close(axes.figure)


def test_results_join_with_the_places_by_identifier_and_index(results: dict[str, Any]) -> None:
    homes = ttm.sample().homes.iloc[:12]
    merged = results["access"].merge(homes.drop(columns="geometry"), left_on="from_id", right_on="id")
    assert len(merged) == len(results["access"]) and np.isfinite(merged["people"]).all()
    for name in ("difference", "reaching"):
        assert results[name].index.equals(homes.index), name
    assert homes.join(results["difference"][["cut_off"]])["cut_off"].notna().all()
