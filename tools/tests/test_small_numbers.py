"""Numbers that the decimals of a table, a map or a sentence would show as 0, large ones, and counts of one."""

import math

import pytest

from helpers import CALENDAR, STOP_TIMES, Room, Table, Town, read, town_matrix
from test_isochrones import PLAIN, ROUND
from test_maps import figure
from ttm_tools.core.text import rounded

pytest.importorskip("matplotlib")


@pytest.mark.parametrize(
    "number, decimals, text",
    [
        (1234.56, 1, "1,234.6"),
        (0, 1, "0.0"),
        (-96.2, 1, "-96.2"),
        (0.05, 1, "0.1"),
        (0.0118, 1, "0.012"),
        (-0.04, 1, "-0.04"),
        (0.3, 0, "0.3"),
        (0.0996, 0, "0.1"),
        (2e-7, 1, "0.0000002"),
    ],
)
def test_a_number_that_decimals_would_show_as_0_has_two_digits(number: float, decimals: int, text: str) -> None:
    assert rounded(number, decimals) == text


def test_a_map_of_a_short_walk_shows_no_area_of_0(town: Town, monkeypatch: pytest.MonkeyPatch) -> None:
    pytest.importorskip("shapely")
    town.matrix(town_matrix(True))
    arguments = ["isochrones", "--origin", "A", "--scenario", "base", "--breaks", "0.5,1", *PLAIN]
    texts, _, classes = figure(town, monkeypatch, *arguments)
    areas = [math.pi * (metres / 1000) ** 2 * ROUND for metres in (30, 60)]
    assert [f"{area:.2g}" for area in areas] == ["0.0028", "0.011"]
    assert classes[:2] == ["up to 0.5 minutes: 0.0028 km²", "up to 1 minutes: 0.011 km²"]
    assert texts[1] == "0.011 km² within 1 minutes"


def test_a_small_loss_in_percent_is_not_0(town: Town, monkeypatch: pytest.MonkeyPatch) -> None:
    text = town_matrix(True, {"base": {"A": [0, 1, 2, 3]}, "cut": {"A": [0, 1, 2, ""]}})
    town.matrix(text.replace("A,50,4,", "A,50,10000,").replace("A,50,3,", "A,50,9997,"))
    (row,) = read(town.ran("compare", "--by", "origin", town.file)[0])
    assert (row["change"], row["percent"]) == ("-3", "-0.03")
    texts, _, _ = figure(town, monkeypatch, "difference", "--breaks", "0.01,1", "--unit", "jobs")
    assert texts[1] == "Of 1 stops 1 loses, 0 gain; the greatest loss: 0.03 % (3 jobs) at Alpha (A)"


def test_a_large_number_of_the_nearest_has_all_its_digits(town: Town, monkeypatch: pytest.MonkeyPatch) -> None:
    town.matrix(town_matrix(True))
    jobs = town.write("jobs.csv", "stop_id,jobs", [["A", 1_000_000], ["B", 5]])
    arguments = ["nearest", "--scenario", "base", "--opportunities", jobs]
    texts, _, _ = figure(town, monkeypatch, *arguments, "--nearest", "1000003")
    assert texts[0] == "Travel time to the 1000003 nearest jobs"
    assert texts[1] == "1 of 2 stops reach at least 1000003 jobs, half of these within 5 minutes"
    texts, _, _ = figure(town, monkeypatch, *arguments, "--nearest", "2.5")
    assert texts[0] == "Travel time to the 2.5 nearest jobs"


def line(room: Room) -> Room:
    """A bus that takes nine seconds for 30 metres."""
    room.stops(("A", 0, 0), ("B", 0, 30))
    room.write("routes.txt", "route_id", [["R"]])
    room.write("calendar.txt", *CALENDAR)
    room.write("trips.txt", "route_id,service_id,trip_id", [["R", "M", "T"]])
    room.write("stop_times.txt", STOP_TIMES, [["T", *["08:00:00"] * 2, "A", 1], ["T", *["08:00:09"] * 2, "B", 2]])
    return room


def test_the_totals_of_one_short_trip(room: Room) -> None:
    line(room).write("cut.csv", "action,id,seconds", [["remove_trip", "T", ""]])
    arguments = ["service", str(room.folder), room.path("cut.csv"), "--date", "20260504", "--by", "all"]
    out, errors, _ = room.ran(*arguments)
    base, compared = errors.splitlines()
    assert base == "base: 1 departure, 1 vehicle at once, 0.0025 vehicle hours, 0.03 vehicle kilometres"
    assert compared.endswith(
        "departures 1 to 0, vehicles at once 1 to 0, vehicle hours 0.0025 to 0.0, vehicle kilometres 0.03 to 0.0"
    )
    assert read(out)[0]["vehicle_hours"] == "0.0025"


def test_one_stop_without_a_place(town: Town) -> None:
    pytest.importorskip("shapely")
    places: Table = [["A", 0, 9], ["B", "", ""], ["C", 0, 9.1], ["D", 1, 9]]
    town.write("stops.txt", "stop_id,stop_lat,stop_lon", places)
    town.matrix(town_matrix(True))
    end = ["--feed", town.feed, "--out", town.path("map.png"), town.file]
    sentence = "1 stop has no stop_lat and stop_lon and is not drawn\n"
    for kind in ("times", "isochrones"):
        assert town.ran("map", kind, "--origin", "A", *end)[1] == sentence
