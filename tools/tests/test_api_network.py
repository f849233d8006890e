"""`open_network` and `Network`: questions about stops and places of a small feed, by times worked out by hand.

Trips leave A at 08:00 and 08:30 and take ten minutes to B; the first goes on to C. Stops are two kilometres apart.
"""

import datetime as dt
import pickle
import warnings
from concurrent.futures import ProcessPoolExecutor
from pathlib import Path
from typing import Any, Iterator

import numpy as np
import pytest

geopandas = pytest.importorskip("geopandas")
pytest.importorskip("pandas")
from shapely.geometry import Point, Polygon  # noqa: E402

from ttm_tools.api.network import Network  # noqa: E402
from ttm_tools.api.opening import open_network  # noqa: E402
from ttm_tools.api.scenario import Scenario  # noqa: E402
from ttm_tools.core.errors import ArgumentError, InputError  # noqa: E402
from ttm_tools.core.notes import NoServiceWarning, RepairWarning, UnreachableWarning  # noqa: E402
from ttm_tools.core.question import Question  # noqa: E402
from ttm_tools.core.settings import settings  # noqa: E402

NORTH = 1 / 111_195  # degrees of latitude of a metre, on the sphere by which straight walks are measured
FEED = {
    "agency.txt": "agency_id,agency_name,agency_url,agency_timezone\na,A,http://a.example,Europe/Berlin\n",
    "stops.txt": "stop_id,stop_name,stop_lat,stop_lon\nA,Alpha,51.0,0.0\nB,Beta,51.02,0.0\nC,Gamma,51.04,0.0\n",
    "routes.txt": "route_id,agency_id,route_short_name,route_type\nr,a,1,0\n",
    "trips.txt": "route_id,service_id,trip_id\nr,s,first\nr,s,second\n",
    "stop_times.txt": "trip_id,arrival_time,departure_time,stop_id,stop_sequence\n"
    "first,08:00:00,08:00:00,A,1\nfirst,08:10:00,08:10:00,B,2\nfirst,08:20:00,08:20:00,C,3\n"
    "second,08:30:00,08:30:00,A,1\nsecond,08:40:00,08:40:00,B,2\n",
    "calendar.txt": "service_id,monday,tuesday,wednesday,thursday,friday,saturday,sunday,start_date,end_date\n"
    "s,1,1,1,1,1,0,0,20260504,20260508\n",
}
EIGHT = Question("2026-05-04", "08:00")
WINDOW = Question("2026-05-04", "07:58", "08:01", percentiles=(25, 50, 75, 100))


def write_feed(folder: Path, **changed: str) -> Path:
    folder.mkdir()
    for name, text in FEED.items():
        (folder / name).write_text(changed.get(name.removesuffix(".txt"), text))
    return folder


@pytest.fixture(autouse=True)
def own_cache(monkeypatch: pytest.MonkeyPatch, tmp_path: Path) -> None:
    monkeypatch.setenv("TTM_CACHE", str(tmp_path / "cache"))


@pytest.fixture
def network(tmp_path: Path, program: str, monkeypatch: pytest.MonkeyPatch) -> Iterator[Network]:
    monkeypatch.setattr(settings, "engine", Path(program))
    with open_network(write_feed(tmp_path / "feed")) as found:
        yield found


def homes(*metres: float, crs: int = 4326) -> Any:
    """Places at these metres north of A, with the numbers 1, 2 .. as identifiers."""
    points = [Point(0.0, 51.0 + one * NORTH) for one in metres]
    frame = geopandas.GeoDataFrame({"id": range(1, len(metres) + 1)}, geometry=points, crs=4326)
    return frame.to_crs(crs)


def cells(matrix: Any, **which: Any) -> list[list[float]]:
    found: list[list[float]] = np.nan_to_num(matrix.wide(**which).to_numpy(), nan=-1).tolist()
    return found


def test_times_between_stops_are_those_of_the_timetable(network: Network) -> None:
    matrix = network.matrix(["A", "B"], ["C", "B"], EIGHT)
    assert cells(matrix) == [[1200, 600], [1200, 0]]
    assert matrix.scenarios == ("today",) and matrix.question == EIGHT
    assert [note.kind for note in matrix.notes] == ["engine"] and "within max_walk of each other" in matrix.notes[
        0
    ].text
    assert matrix.origins["stop_name"].tolist() == ["Alpha", "Beta"] and matrix.origins.crs == 4326


def test_percentiles_are_by_nearest_rank_over_the_departures(network: Network) -> None:
    matrix = network.matrix(["A"], ["B", "C"], WINDOW)
    # to B 720, 660, 600 and, having missed the first trip, 2340 seconds; the next trip to C goes the day after
    found = {percent: cells(matrix, percentile=percent)[0] for percent in matrix.percentiles}
    assert found == {25: [600, 1200], 50: [660, 1260], 75: [720, 1320], 100: [2340, 87_540]}
    with pytest.raises(ArgumentError, match="percentile must be named; allowed: 25, 50, 75, 100"):
        matrix.wide()


def test_each_departure_has_its_own_time(network: Network) -> None:
    pytest.importorskip("xarray")
    found = network.by_departure(["A"], ["B", "C"], WINDOW)
    assert found.dims == ("scenario", "departure", "from_id", "to_id") and found.attrs["units"] == "s"
    assert found.sel(scenario="today", from_id="A", to_id="B").to_numpy().tolist() == [720, 660, 600, 2340]
    assert str(found["departure"].to_numpy()[0]) == "2026-05-04T07:58:00.000000000"


def test_places_are_reached_on_foot_in_any_projection(network: Network) -> None:
    for crs in (4326, 27700, 3857):
        # 100 and 10 metres, times 1.3, at 4.8 km/h: 98 and 10 seconds, so who leaves the first at 07:59 misses the trip
        matrix = network.matrix(homes(100, 10, crs=crs), ["B"], EIGHT.replace(first="07:59"))
        assert cells(matrix) == [[2460], [660]] and matrix.wide().index.tolist() == [1, 2]
        assert matrix.origins.crs == crs
    earlier = network.matrix(homes(100), ["B"], EIGHT.replace(first="07:58"))
    assert cells(earlier) == [[720]]


def test_a_polygon_counts_as_a_point_inside_and_one_frame_twice_is_one_set(network: Network) -> None:
    around = Polygon([(-0.0001, 50.9999), (0.0001, 50.9999), (0.0001, 51.0001), (-0.0001, 51.0001)])
    area = geopandas.GeoDataFrame({"id": ["square"]}, geometry=[around], crs=4326)
    assert cells(network.matrix(area, ["B"], EIGHT)) == [[600]]
    places = homes(0, 201)
    both = network.matrix(places, places, EIGHT)
    # 201 metres: 196 seconds
    assert cells(both) == [[0, 196], [196, 0]]


def test_the_index_names_places_that_have_no_identifiers(network: Network) -> None:
    series = geopandas.GeoSeries([Point(0, 51)], index=["home"], crs=4326)
    assert network.matrix(series, ["B"], EIGHT).wide().loc["home", "B"] == 600


def test_rides_and_travel_times_are_limited(network: Network) -> None:
    assert cells(network.matrix(["A"], ["A", "B"], EIGHT.replace(max_rides=0))) == [[0, -1]]
    assert cells(network.matrix(["A"], ["B", "C"], EIGHT.replace(max_travel="10 min"))) == [[600, -1]]
    assert cells(network.matrix(homes(100), ["A"], EIGHT.replace(max_walk="97 s"))) == [[-1]]


def test_places_without_a_stop_are_kept_and_named(network: Network) -> None:
    with pytest.warns(UnreachableWarning, match="origins: 1 place without a stop within max_walk: 2"):
        matrix = network.matrix(homes(0, 1000), ["B"], EIGHT)
    assert cells(matrix) == [[600], [-1]] and matrix.unreachable[0].tolist() == [2]
    assert [note.kind for note in matrix.notes] == ["unreachable"] and matrix.notes[0].affected == 1


def test_a_day_without_service_is_warned_of(network: Network) -> None:
    with pytest.warns(NoServiceWarning, match="no trip runs"):
        matrix = network.matrix(["A"], ["B"], EIGHT.replace(date="2026-05-10", days_before=0, days_after=0))
    assert cells(matrix) == [[-1]]


def test_days_stops_routes_and_extent_are_the_feed_s(network: Network) -> None:
    assert network.dates == (dt.date(2026, 5, 4), dt.date(2026, 5, 8))
    assert network.trips_by_date.tolist() == [2] * 5
    assert network.stops.loc["B", "stop_name"] == "Beta" and network.stops.geometry.loc["B"].y == 51.02
    routes = network.routes
    assert routes.loc["r", "mode"] == "tram" and routes.geometry.loc["r"].geoms[0].coords[:] == [
        (0, 51),
        (0, 51.02),
        (0, 51.04),
    ]
    assert network.extent.bounds == (0, 51, 0, 51.04) and len(network.repairs) == 0


def test_scenarios_are_compared_with_today(network: Network) -> None:
    late = Scenario("late").shift_route("r", "5 min")
    none = (
        Scenario("none")
        .remove_modes("tram")
        .add_line("T", ["A", "C"], departures=[("08:00", "08:00", "1 h")], run_times=["3 min"], both_ways=False)
    )
    with network.with_scenarios(late, none) as planned:
        assert planned.scenarios == ("today", "late", "none")
        assert any(note.kind == "scenario" and "shift_route r" in note.text for note in planned.notes)
        matrix = planned.matrix(["A"], ["B", "C"], EIGHT)
        assert [cells(matrix, scenario=name) for name in matrix.scenarios] == [
            [[600, 1200]],
            [[900, 1500]],
            [[-1, 180]],
        ]
        difference = matrix.difference("none")
        assert difference[["cut_off", "faster"]].values.tolist() == [[1, 1]]
        assert planned.matrix(["A"], ["B"], EIGHT, scenarios=["late"]).shape == (1, 1, 1, 1)
        assert cells(planned.matrix(homes(0), ["B"], EIGHT), scenario="late") == [[900]]
    with pytest.raises(InputError, match=r"scenario late, action 1 \(shift_route\): route 'x' is not a route"):
        network.with_scenarios(Scenario("late").shift_route("x", "5 min"))


def test_what_is_wrong_with_places_is_said_with_its_row(network: Network) -> None:
    frame = homes(0, 0)
    for places, message in (
        (frame.assign(id=[1, 1]), r"origins: row 1: id '1' occurs twice"),
        (frame.assign(id=[1, None]), r"origins: row 1: id is missing"),
        (frame.set_geometry([Point(0, 51), None], crs=4326), r"origins: row 1: geometry is missing or empty"),
        (
            geopandas.GeoDataFrame({"id": [1]}, geometry=[Point(0, 51)]),
            r"origins: names no coordinate reference system",
        ),
        (frame.iloc[:0], r"origins: has no rows"),
        (["A", "Q"], r"origins: row 1: stop_id 'Q' is not a stop of the feed"),
        ([], r"origins: has no stops"),
        ("A", r"origins: is str; allowed: a GeoDataFrame, a GeoSeries, or a list of stop_id"),
    ):
        with pytest.raises(InputError, match=message):
            network.matrix(places, ["B"], EIGHT)


def test_arguments_that_are_not_allowed_are_named(network: Network) -> None:
    with pytest.raises(ArgumentError, match="question is '08:00'; allowed: a Question"):
        network.matrix(["A"], ["B"], "08:00")  # type: ignore[arg-type]
    with pytest.raises(ArgumentError, match="scenarios is 'tram'; allowed: today"):
        network.matrix(["A"], ["B"], EIGHT, scenarios=["tram"])
    with pytest.raises(ArgumentError, match="threads is 0; allowed: 1 to 64"):
        network.matrix(["A"], ["B"], EIGHT, threads=0)
    with pytest.raises(ArgumentError, match="the feed comes first"):
        open_network("streets.osm.pbf", "feed.zip")


def test_a_closed_network_says_so_and_a_pickled_one_opens_again(network: Network) -> None:
    copy = pickle.loads(pickle.dumps(network))
    network.close()
    with pytest.raises(ArgumentError, match="the network is closed"):
        network.matrix(["A"], ["B"], EIGHT)
    with copy:
        assert cells(copy.matrix(["A"], ["B"], EIGHT)) == [[600]]


def test_an_executor_gives_the_same_matrix(network: Network, monkeypatch: pytest.MonkeyPatch) -> None:
    monkeypatch.setattr("ttm_tools.api.asking.LEAST_ORIGINS", 1)
    monkeypatch.setattr("ttm_tools.api.asking.CELLS_AT_ONCE", 1)
    places = homes(*range(0, 600, 50))
    alone = network.matrix(places, ["B", "C"], WINDOW)
    done = list[tuple[int, int]]()
    with ProcessPoolExecutor(2) as pool:
        split = network.matrix(
            places, ["B", "C"], WINDOW, executor=pool, progress=lambda now, total: done.append((now, total))
        )
    assert split.long().equals(alone.long()) and done[-1] == (12, 12) and len(done) == 12


def test_a_callback_can_end_the_work_and_the_network_goes_on(network: Network) -> None:
    def stop(done: int, total: int) -> None:
        raise KeyboardInterrupt

    with pytest.raises(KeyboardInterrupt):
        network.matrix(["A"], ["B"], EIGHT, progress=stop)
    assert cells(network.matrix(["A"], ["B"], EIGHT)) == [[600]]


def test_repairs_are_warned_of_and_listed(tmp_path: Path, program: str, monkeypatch: pytest.MonkeyPatch) -> None:
    monkeypatch.setattr(settings, "engine", Path(program))
    feed = write_feed(tmp_path / "feed", trips=FEED["trips.txt"] + "r,s,\n")
    with pytest.warns(RepairWarning, match="trips.txt"):
        network = open_network(feed, allow_loss=True)
    assert network.repairs["file"].tolist() == ["trips.txt"] and network.repairs["record"].tolist() == [4]
    assert network.notes[0].kind == "repaired" and network.notes[0].affected == 1
    with network, warnings.catch_warnings():
        warnings.simplefilter("error", RepairWarning)
        assert cells(network.matrix(["A"], ["B"], EIGHT)) == [[600]]
    with pytest.raises(InputError, match="trips.txt"):
        open_network(feed, repair=False)


def test_a_matrix_is_written_as_it_comes(network: Network, tmp_path: Path) -> None:
    pytest.importorskip("h5py")
    matrix = network.matrix(homes(0), ["B"], EIGHT, out=tmp_path / "m.omx")
    assert cells(matrix) == [[600]] and matrix.question == EIGHT and (tmp_path / "m.omx").is_file()
