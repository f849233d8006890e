"""Bad input to the library: an error or a warning of its own class with the argument, the row and what is allowed."""

import os
import signal
import warnings
from collections.abc import Callable, Iterator
from pathlib import Path
from typing import Any

import numpy as np
import pytest

for package in ("geopandas", "shapely"):
    pytest.importorskip(package)
import geopandas  # noqa: E402
from shapely.geometry import Point, Polygon  # noqa: E402

import ttm_tools as ttm  # noqa: E402
from test_api_network import EIGHT, FEED, homes, write_feed  # noqa: E402

HOMES, CENTRE = homes(0, 100), homes(10)


@pytest.fixture
def network(tmp_path: Path, monkeypatch: pytest.MonkeyPatch) -> Iterator[Any]:
    """The feed of `test_api_network`, for which no program runs."""
    monkeypatch.setenv("TTM_CACHE", str(tmp_path / "cache"))
    with ttm.open_network(write_feed(tmp_path / "feed")) as found:
        yield found


@pytest.fixture
def running(network: Any, program: str, monkeypatch: pytest.MonkeyPatch) -> Any:
    monkeypatch.setattr(ttm.settings, "engine", Path(program))
    return network


def with_row(row: int, **changed: Any) -> Any:
    frame = HOMES.astype({"id": object}).copy()
    for column, value in changed.items():
        frame.at[row, column] = value
    return frame


PLACES: list[tuple[Callable[[], Any], str]] = [
    (lambda: HOMES.drop(columns="geometry"), "origins: is DataFrame; allowed: a GeoDataFrame, a GeoSeries"),
    (lambda: "A", "origins: is str; allowed: a GeoDataFrame, a GeoSeries, or a list of stop_id"),
    (lambda: 7, "origins: is int; allowed: "),
    (lambda: geopandas.GeoDataFrame(HOMES.drop(columns="geometry"), geometry=list(HOMES.geometry)), "set_crs"),
    (lambda: HOMES.iloc[:0], "origins: has no rows"),
    (lambda: [], "origins: has no stops"),
    (lambda: with_row(1, id=1), r"origins: row 1: id '1' occurs twice"),
    (lambda: with_row(1, id=None), "origins: row 1: id is missing"),
    (lambda: with_row(1, geometry=None), "origins: row 1: geometry is missing or empty"),
    (lambda: with_row(0, geometry=Polygon()), "origins: row 0: geometry is missing or empty"),
    (lambda: with_row(0, geometry=Point(600000, 200000)), "origins: row 0: geometry lies off the globe"),
    (lambda: ["A", "X"], r"origins: row 1: stop_id 'X' is not a stop of the feed"),
    (lambda: ["A", "A"], r"origins: row 1: stop_id 'A' occurs twice"),
]


@pytest.mark.parametrize("given, message", PLACES, ids=[message for _, message in PLACES])
def test_places_that_cannot_be_used_are_named_with_their_row(network: Any, given: Any, message: str) -> None:
    with pytest.raises(ttm.InputError, match=message) as raised:
        network.matrix(given(), CENTRE, EIGHT)
    assert raised.value.source == "origins"
    with pytest.raises(ttm.InputError, match=message.replace("origins", "destinations")):
        network.matrix(CENTRE, given(), EIGHT)


QUESTIONS: list[tuple[dict[str, Any], str]] = [
    ({"date": "4 May"}, "date is '4 May'; allowed: a date"),
    ({"date": 20260504}, "date is 20260504; allowed: a date"),
    ({"first": "8:00"}, "first is '8:00'; allowed: a minute of the day"),
    ({"last": "07:00"}, "last is 07:00, before first"),
    ({"max_walk": 15}, "max_walk is 15; allowed: a timedelta, or a text with a unit"),
    ({"max_walk": "15"}, "max_walk is '15'; allowed: a timedelta"),
    ({"max_walk": "3 h"}, "max_walk is '3 h'; allowed: whole seconds, from 0 min to 120 min"),
    ({"max_travel": 3600}, "max_travel is 3600; allowed: a timedelta"),
    ({"percentiles": 50}, "percentiles is 50; allowed: one to 8"),
    ({"percentiles": (50, 50)}, "percentiles is .* different whole numbers"),
    ({"percentiles": tuple(range(1, 10))}, "percentiles is .* one to 8"),
    ({"max_rides": 2.5}, "max_rides is 2.5; allowed: "),
    ({"max_rides": 9}, "max_rides is 9; allowed: 0 to 8"),
    ({"walking_kmh": 0}, "walking_kmh is 0; allowed: "),
    ({"walking_kmh": np.nan}, "walking_kmh is nan; allowed: "),
]


@pytest.mark.parametrize("changed, message", QUESTIONS, ids=[str(changed) for changed, _ in QUESTIONS])
def test_settings_of_a_question_are_named_with_what_is_allowed(changed: dict[str, Any], message: str) -> None:
    settings: dict[str, Any] = {"date": "2026-05-04", "first": "08:00", **changed}
    with pytest.raises(ttm.ArgumentError, match=message) as raised:
        ttm.Question(**settings)
    assert "\n" not in str(raised.value)


CALLS: list[tuple[str, tuple[Any, ...], dict[str, Any], str]] = [
    ("matrix", (HOMES, CENTRE, "08:00"), {}, "question is '08:00'; allowed: a Question"),
    ("matrix", (HOMES, CENTRE, EIGHT), {"threads": 0}, "threads is 0; allowed: 1 to 64"),
    ("matrix", (HOMES, CENTRE, EIGHT), {"scenarios": ["tram"]}, "scenarios is 'tram'; allowed: today"),
    ("isochrones", (HOMES, EIGHT, [15]), {}, "isochrones need streets; give open_network a file of OpenStreetMap"),
    ("isochrones", (HOMES, EIGHT, []), {}, r"minutes is \[\]; allowed: one or more numbers from 0 on"),
    ("itineraries", (HOMES, CENTRE, EIGHT), {"pairs": "each"}, "pairs is 'each'; allowed: all or row_by_row"),
    ("itineraries", (HOMES, CENTRE, EIGHT), {"pairs": "row_by_row"}, "for 2 origins and 1 destination; allowed"),
    ("service", ("2026-05-04",), {"by": "line"}, "by is 'line'; allowed: direction, route, stop, all"),
    ("service", ("May",), {}, "date is 'May'; allowed: a date"),
    ("snap", (HOMES.geometry,), {}, "snap needs streets"),
]


@pytest.mark.parametrize("method, given, named, message", CALLS, ids=[call[-1] for call in CALLS])
def test_arguments_of_a_network_are_named_with_what_is_allowed(
    network: Any, method: str, given: Any, named: Any, message: str
) -> None:
    with pytest.raises(ttm.ArgumentError, match=message):
        getattr(network, method)(*given, **named)


def test_files_that_cannot_be_opened_are_named(tmp_path: Path, monkeypatch: pytest.MonkeyPatch) -> None:
    monkeypatch.setenv("TTM_CACHE", str(tmp_path / "cache"))
    with pytest.raises(ttm.InputError, match="nowhere"):
        ttm.open_network(tmp_path / "nowhere")
    with pytest.raises(ttm.ArgumentError, match="gtfs is empty"):
        ttm.open_network([])
    with pytest.raises(ttm.ArgumentError, match="the feed comes first"):
        ttm.open_network("streets.osm.pbf", "feed")
    with pytest.raises(ttm.InputError, match="nowhere.omx"):
        ttm.open_matrix(tmp_path / "nowhere.omx")


def test_a_closed_network_says_so(running: Any) -> None:
    running.matrix(["A"], ["B"], EIGHT)
    running.close()
    with pytest.raises(ttm.ArgumentError, match="the network is closed"):
        running.matrix(["A"], ["B"], EIGHT)


def test_a_dead_engine_is_started_again(running: Any) -> None:
    before = running.matrix(["A"], ["B"], EIGHT).wide()
    (engine,) = running._state.engines.kept.values()
    for conversation in [one for one in engine.pool.idle.queue if one is not None]:
        os.kill(conversation.process.pid, signal.SIGKILL)
        conversation.process.wait()
    assert running.matrix(["A"], ["B"], EIGHT).wide().equals(before)


def test_places_far_from_any_stop_and_dates_without_service_are_warnings(running: Any) -> None:
    with pytest.warns(ttm.UnreachableWarning, match="origins: 1 place without a stop within max_walk: 2"):
        matrix = running.matrix(homes(0, 50_000), ["B"], EIGHT)
    assert matrix.unreachable[0].tolist() == [2] and np.isnan(matrix.wide().loc[2, "B"])
    with pytest.warns(ttm.NoServiceWarning, match="no trip runs"):
        running.matrix(["A"], ["B"], EIGHT.replace(date="2027-05-04"))


def test_a_scenario_that_changes_nothing_on_the_date_is_a_warning(running: Any) -> None:
    later = ttm.Scenario("later").shift_route("r", "2 min")
    planned = running.with_scenarios(later, ttm.Scenario("without").remove_routes("r"))
    alone = EIGHT.replace(days_before=0, days_after=0)
    with warnings.catch_warnings(record=True) as caught:
        warnings.simplefilter("always")
        matrix = planned.matrix(["A"], ["B"], alone)
        assert matrix.wide("later").loc["A", "B"] == 720 and np.isnan(matrix.wide("without").loc["A", "B"])
        assert [one for one in caught if one.category is ttm.NoServiceWarning] == []
        saturday = planned.matrix(["A"], ["B"], alone.replace(date="2026-05-09"))
    texts = [str(one.message) for one in caught if one.category is ttm.NoServiceWarning]
    changes = "changes nothing on 2026-05-09: no trip that it changes runs then"
    assert [text for text in texts if "changes" in text] == [
        f"the scenario {name} {changes}" for name in planned.scenarios[1:]
    ]
    assert {note.text for note in saturday.notes if note.kind == "no service"} == set(texts)
    assert len(FEED) == 6
