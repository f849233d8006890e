"""`Network.itineraries` and `Network.service`, by the timetable of test_api_network; limits as errors; the logger.

Walks are straight: 4.8 km/h with a detour of 1.3, so 100 metres take 98 seconds.
"""

import logging
from pathlib import Path
from typing import Any

import numpy as np
import pandas
import pytest

pytest.importorskip("geopandas")

from test_api_network import EIGHT, NORTH, homes, network, own_cache, write_feed  # noqa: E402, F401
from ttm_tools.api.cells import grid  # noqa: E402
from ttm_tools.api.network import Network  # noqa: E402
from ttm_tools.api.opening import open_network  # noqa: E402
from ttm_tools.api.scenario import Scenario  # noqa: E402
from ttm_tools.core.errors import ArgumentError, InputError, LimitError  # noqa: E402
from ttm_tools.core.notes import NoServiceWarning, TtmWarning  # noqa: E402
from ttm_tools.core.question import Question  # noqa: E402

WINDOW = Question("2026-05-04", "07:56", "07:58")
B = 0.02 / NORTH  # metres from A
ALONE = pytest.mark.filterwarnings("ignore:no two stops:ttm_tools.core.notes.TtmWarning")


def times(*clock: str) -> list[pandas.Timestamp]:
    return [pandas.Timestamp(f"2026-05-04 {one}") for one in clock]


def test_legs_are_those_of_the_last_departure_that_arrives_no_later(network: Network) -> None:  # noqa: F811
    found = network.itineraries(homes(100), homes(B + 60), WINDOW)
    assert found["mode"].tolist() == ["walk", "tram", "walk"]
    assert found["departure"].tolist() == times("07:58:00", "08:00:00", "08:10:00")
    assert found["arrival"].tolist() == times("07:59:38", "08:10:00", "08:10:59")
    assert found["seconds"].tolist() == [98, 600, 59] and found["wait_seconds"].tolist() == [0, 22, 0]
    assert np.allclose(found["metres"], [100 * 1.3, B, 60 * 1.3], atol=0.1)
    assert found["from_stop_id"].tolist() == [None, "A", "B"] and found["to_stop_id"].tolist() == ["A", "B", None]
    assert found["route_id"].tolist() == [None, "r", None] and found["trip_id"].tolist() == [None, "first", None]
    assert found[["scenario", "from_id", "to_id", "option"]].drop_duplicates().values.tolist() == [["today", 1, 1, 0]]
    assert found["leg"].tolist() == [0, 1, 2] and list(found.index) == [0, 1, 2]


def test_a_frame_of_legs_has_the_projection_of_the_origins(network: Network) -> None:  # noqa: F811
    found = network.itineraries(homes(100, crs=32631), homes(B), WINDOW)
    assert found.crs == 32631
    assert found.geometry.length.sum() == pytest.approx(100 + B, rel=2e-3)
    none = network.itineraries(homes(100, crs=32631), homes(B), WINDOW.replace(max_travel="5 min"))
    assert len(none) == 0 and none.crs == 32631
    assert none.dtypes.tolist() == found.dtypes.tolist()


@ALONE
def test_each_scenario_has_journeys_of_its_own(network: Network) -> None:  # noqa: F811
    with network.with_scenarios(Scenario("late").remove_trips("first")) as planned:
        found = planned.itineraries(["A"], ["B"], EIGHT)
        assert found["scenario"].tolist() == ["today", "late"] and found["trip_id"].tolist() == ["first", "second"]
        assert found["wait_seconds"].tolist() == [0, 1800]
        assert found["from_stop_id"].tolist() == ["A", "A"]
        one = planned.itineraries(["A"], ["B"], EIGHT, scenarios=["late"])
        assert one["trip_id"].tolist() == ["second"]


@ALONE
def test_pairs_are_all_or_row_by_row(network: Network) -> None:  # noqa: F811
    def pairs(origins: Any, destinations: Any, **how: Any) -> list[tuple[object, object]]:
        found = network.itineraries(origins, destinations, EIGHT, **how)
        return list(zip(found["from_id"], found["to_id"]))

    assert pairs(["A", "B"], ["C", "B"]) == [("A", "C"), ("A", "B"), ("B", "C")]
    assert pairs(["A", "B"], ["B", "C"], pairs="row_by_row") == [("A", "B"), ("B", "C")]
    with pytest.raises(ArgumentError, match="'row_by_row' for 2 origins and 1 destination; allowed: as many"):
        pairs(["A", "B"], ["C"], pairs="row_by_row")
    with pytest.raises(ArgumentError, match="pairs is 'some'; allowed: all or row_by_row"):
        pairs(["A"], ["C"], pairs="some")


def test_a_question_without_rides_has_walks_alone(network: Network) -> None:  # noqa: F811
    found = network.itineraries(homes(0), homes(100, 5000), WINDOW.replace(max_rides=0))
    assert found[["to_id", "mode", "seconds"]].values.tolist() == [[1, "walk", 98]]
    assert found["departure"].tolist() == times("07:58:00")


def test_another_travel_time_of_the_engine_is_an_error(
    network: Network, monkeypatch: pytest.MonkeyPatch  # noqa: F811
) -> None:
    from ttm_tools.journeys import search

    true = search.durations
    monkeypatch.setattr(search, "durations", lambda *given: [item and item + 60 for item in true(*given)])
    with pytest.raises(InputError, match="at 07:58: ttm has 779.0 seconds, and this search 839"):
        network.itineraries(homes(100), homes(B + 60), WINDOW)


def test_a_station_is_no_place_of_a_journey(tmp_path: Path, program: str) -> None:
    stops = "stop_id,stop_name,stop_lat,stop_lon,location_type,parent_station\n"
    stops += "A,Alpha,51,0,0,S\nB,Beta,51.02,0,,\nC,Gamma,51.04,0,,\nS,Station,51,0,1,\n"
    with open_network(write_feed(tmp_path / "stations", stops=stops)) as net:
        with pytest.raises(InputError, match="origins: row 1: stop_id 'S' is a location at which no vehicle calls"):
            net.matrix(["A", "S"], ["B"], EIGHT)


def test_service_of_a_day_by_route_direction_stop_and_in_all(network: Network) -> None:  # noqa: F811
    by_route = network.service("2026-05-04")
    assert by_route[["scenario", "route_id", "route_name", "departures", "vehicles"]].values.tolist() == [
        ["today", "r", "1", 2, 1]
    ]
    assert by_route["vehicle_hours"].tolist() == [0.5] and by_route["headway_minutes"].isna().all()
    assert by_route["first_departure"].tolist() == [8 * 3600] and by_route["last_arrival"].tolist() == [31_200]
    assert network.service("20260504", by="direction")["headway_minutes"].tolist() == [30]
    by_stop = network.service("2026-05-04", by="stop")
    assert by_stop[["stop_id", "stop_name", "departures"]].values.tolist() == [["A", "Alpha", 2], ["B", "Beta", 1]]
    assert network.service("2026-05-04", by="all")["vehicle_kilometres"].tolist() == [
        pytest.approx(3 * B / 1000, rel=3e-3)
    ]
    with pytest.raises(ArgumentError, match="by is 'line'; allowed: direction, route, stop, all"):
        network.service("2026-05-04", by="line")  # type: ignore[arg-type]


def test_service_compares_scenarios_and_warns_of_a_day_without_any(network: Network) -> None:  # noqa: F811
    with network.with_scenarios(Scenario("late").remove_trips("first")) as planned:
        found = planned.service("2026-05-04")
        assert found[["scenario", "departures"]].values.tolist() == [["today", 2], ["late", 1]]
    with pytest.warns(NoServiceWarning, match="no trip runs on 2026-05-09"):
        none = network.service("2026-05-09")
    assert len(none) == 0 and list(none.columns) == list(found.columns)


def test_what_the_engine_does_not_take_is_a_limit_error(tmp_path: Path) -> None:
    many = [Scenario(f"s{number}").remove_trips("first") for number in range(15)]
    with open_network(write_feed(tmp_path / "feed")) as net:
        with pytest.raises(LimitError, match="scenario s14: name 's14' is scenario 15; ttm takes 14") as raised:
            net.with_scenarios(*many)
    assert raised.value.limit == 14
    with pytest.raises(LimitError, match="^cell_m: .* cells are too many: use larger cells") as cells:
        grid(homes(0, 20_000), cell_m=0.01)
    assert cells.value.limit > 65_535


def test_the_logger_says_what_is_computed(network: Network, caplog: pytest.LogCaptureFixture) -> None:  # noqa: F811
    with caplog.at_level(logging.DEBUG, logger="ttm_tools"), pytest.warns(TtmWarning):
        network.matrix(["A", "B"], ["C"], EIGHT)
    assert [record.name for record in caplog.records] == ["ttm_tools"] * len(caplog.records)
    assert "2 origins, 1 destination" in caplog.text and "places" in caplog.text


@ALONE
def test_no_warning_says_that_today_changes_nothing(network: Network) -> None:  # noqa: F811
    with network.with_scenarios(Scenario("late").remove_trips("first")) as planned:
        assert {note.kind for note in planned.matrix(["A"], ["B"], EIGHT).notes} == {"scenario", "engine"}
