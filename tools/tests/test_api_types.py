"""What type checkers see of the library: a client of every public name has no expression of the type `Any`.

Debian's pandas, geopandas, shapely, xarray and pyproj have no types, so the test gives each of them a few classes.
"""

import subprocess
import sys
from pathlib import Path

import pytest

pytest.importorskip("mypy")

HERE = Path(__file__).parent
SOURCES = HERE.parent / "src"
FRAMES = {  # the types of other packages that the library's signatures name
    "pandas": "class Series: ...\nclass Index: ...\nclass DatetimeIndex(Index): ...\nclass DataFrame: ...\n",
    "geopandas": "import pandas as p\nclass GeoDataFrame(p.DataFrame): ...\nclass GeoSeries(p.Series): ...\n",
    "shapely": "",
    "shapely/geometry": "class Polygon: ...\n",
    "xarray": "class DataArray: ...\n",
    "pyproj": "class CRS: ...\n",
}
CLIENT = """\
import datetime as dt
from concurrent.futures import ThreadPoolExecutor
from pathlib import Path

import numpy as np
import ttm_tools as ttm
from geopandas import GeoDataFrame

town = ttm.sample()
question = ttm.Question("2026-05-04", "08:00", dt.time(8, 59), percentiles=(25, 50), max_walk=dt.timedelta(minutes=15))
later = ttm.Question.starting(dt.datetime(2026, 5, 4, 8), "1 h", max_rides=2).replace(max_travel="1 h")
reveal_type(later.departures)
reveal_type(question.to_dict())
scenario = (
    ttm.Scenario("change").remove_routes("a").remove_modes("tram").remove_trips("t").remove_stops("s", route="a")
    .shift_route("a", "2 min", direction=0).shift_trips(["t"], "-2 min")
    .set_headway("a", every="5 min", start="06:00", end="20:00").double_frequency("a", start="07:00")
    .change_speed("a", factor=0.9, dwell="5 s", between=("s", "t"))
    .add_line("n", ["s", "t"], departures=[("06:00", "20:00", "10 min")], kmh=20, mode="tram")
    .extend_route("a", ["u"], after="t", kmh=20).cut_route("a", after="t")
)
reveal_type(scenario)
reveal_type(scenario.to_toml())
reveal_type(ttm.read_plan("plan.toml"))
ttm.write_plan([scenario], Path("plan.toml"))
with ttm.open_network([town.gtfs], town.streets, repair=True, progress=print) as net:
    reveal_type(net.scenarios)
    reveal_type(net.dates)
    reveal_type(net.trips_by_date)
    reveal_type(net.stops)
    reveal_type(net.routes)
    reveal_type(net.extent)
    reveal_type(net.repairs)
    reveal_type(net.notes[0].affected)
    planned = net.with_scenarios(scenario)
    reveal_type(planned)
    times = planned.matrix(town.homes, ["s"], question, scenarios=["today"], threads=2, executor=ThreadPoolExecutor(2))
    reveal_type(times)
    reveal_type(net.by_departure(town.homes, town.jobs, question))
    reveal_type(net.isochrones(town.homes, question, [15], cell_m=50, dissolve=True))
    reveal_type(net.itineraries(town.homes, town.jobs, question, pairs="row_by_row"))
    reveal_type(net.service("2026-05-04", by="all"))
    served = net.explore(question, town.homes, open_browser=False)
    reveal_type(served.address)
    reveal_type(served.is_open)
    served.close()
reveal_type(times.scenarios)
reveal_type(times.base)
reveal_type(times.percentiles)
reveal_type(times.origins)
reveal_type(times.shape)
reveal_type(times.question)
reveal_type(times.unreachable)
reveal_type(times.sel(scenario="today", percentile=[50], from_id=1, to_id=["s"]))
reveal_type(times.wide("today", 50))
reveal_type(times.long(unit="minutes"))
reveal_type(times.to_xarray())
for block in times.blocks(10):
    reveal_type(block)
reveal_type(times.load())
reveal_type(times.reaching("s"))
reveal_type(times.reached_from(1, percentile=50))
reveal_type(times.nearest("beds", 2, counted="places"))
reveal_type(times.nearest_ties("beds"))
access = times.access(["jobs"], minutes=[30], decay=ttm.Decay.logistic(sd=10))
reveal_type(access)
reveal_type(times.competition("beds", "people", [30], method="balanced", decay=ttm.Decay.linear(5)))
reveal_type(times.difference("change", tolerance="1 min"))
reveal_type(times.difference_by_pair("change"))
times.to_omx("m.omx")
times.to_csv(Path("m.csv"), unreached=False)
times.to_parquet("m.parquet")
reveal_type(times.to_html("m.html", title="Title", opportunities=["jobs"]).path)
reveal_type(np.asarray(times, np.float32).shape)
reveal_type(ttm.open_matrix("m.omx", origins=town.homes))
reveal_type(ttm.equity(access, town.homes, people=["people"], by="income_group", poverty_line=3.0))
reveal_type(ttm.who_gains(access, town.homes, people=["people"], by="income_group", thresholds=[10], least=5))
reveal_type(ttm.people_by_band(access, town.homes, people="people", limits=[1.0]))
reveal_type(ttm.access_change(access, "change"))
reveal_type(ttm.check_feed(town.gtfs))
reveal_type(ttm.prepare_feed(town.gtfs, "out", area=town.jobs, dates=["2026-05-04"]))
cells = ttm.grid(town.jobs, 250, crs=2056)
reveal_type(cells)
reveal_type(ttm.allocate(town.jobs, cells, columns=["jobs"]))
reveal_type(ttm.run_study("study.toml", threads=2))
reveal_type(ttm.engine_version())
reveal_type(ttm.settings.threads)
reveal_type(ttm.settings.cache)
ttm.settings.engine = Path("ttm")
try:
    net.snap(town.homes)  # type: ignore[arg-type]
except ttm.LimitError as error:
    reveal_type(error.limit)
    reveal_type(error.source)
    reveal_type(error.record)
except ttm.EngineError as error:
    reveal_type(error.line)
    reveal_type(error.status)
except ttm.TtmError:
    pass
homes: GeoDataFrame = times.destinations
"""


@pytest.fixture(scope="module")
def folder(tmp_path_factory: pytest.TempPathFactory) -> Path:
    """A folder with the classes of other packages, and with what mypy has found out for an earlier client."""
    found = tmp_path_factory.mktemp("client")
    for name, classes in FRAMES.items():
        (found / "stubs" / name).mkdir(parents=True)
        (found / "stubs" / name / "__init__.pyi").write_text(classes)
    return found


def checked(folder: Path, text: str) -> list[str]:
    """What mypy says of a client, with all that it refuses of `Any`."""
    (folder / "client.py").write_text(text)
    words = [sys.executable, "-m", "mypy", "--strict", "--disallow-any-expr", "--follow-imports=silent"]
    words += ["--config-file", "", "--cache-dir", "cache", "--no-error-summary", "client.py"]
    paths = {"MYPYPATH": f"{folder / 'stubs'}:{SOURCES}", "PATH": "/usr/bin:/bin"}
    ran = subprocess.run(words, cwd=folder, env=paths, capture_output=True, text=True)
    assert ran.stderr == ""
    return ran.stdout.splitlines()


def test_no_public_result_is_any(folder: Path) -> None:
    said = checked(folder, CLIENT)
    errors = [line for line in said if ": note: Revealed type" not in line]
    assert errors == [], errors
    assert len(said) == CLIENT.count("reveal_type(") == 62
    assert [line for line in said if "Any" in line.partition("Revealed type is")[2]] == []


def test_any_would_be_seen(folder: Path) -> None:
    text = "import ttm_tools as ttm\nfrom typing import Any\nfound: Any = ttm.sample()\nprint(found)\n"
    assert any("Expression has type" in line for line in checked(folder, text))


def test_the_client_uses_every_public_name() -> None:
    import ttm_tools

    warnings = {name for name in ttm_tools.__all__ if name.endswith("Warning")}
    types = {"ArgumentError", "InputError", "Matrix", "MissingDependencyError", "Network", "Note", "Sample"}
    missing = {name for name in ttm_tools.__all__ if f"ttm.{name}" not in CLIENT}
    assert missing == warnings | types
