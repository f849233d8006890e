"""Footpaths from coordinates: by hand, and on drawn places."""

import csv
import itertools
import math
import random
import subprocess
from pathlib import Path
from typing import Any

import numpy as np
import pytest

from helpers import CALENDAR, METRE, STOP_TIMES, Room, Table, launched
from ttm_tools.gtfs.stops import read_stops
from ttm_tools.core.walking import Walking
from ttm_tools.streets import straight
from ttm_tools.streets.counting import TooManyWalks
from ttm_tools.streets.walks import straight_walks


def found(room: Room, limit: float = 600, speed: float = 1.0, detour: float = 1.0) -> dict[tuple[str, str], int]:
    result = straight_walks(read_stops(str(room.folder)), Walking(3.6 * speed, detour, limit))
    return {(a, b): seconds for a, b, seconds in result.rows()}


def both(*pairs: tuple[str, str, int]) -> dict[tuple[str, str], int]:
    return {ends: seconds for a, b, seconds in pairs for ends in ((a, b), (b, a))}


def test_both_directions_rounded_up_and_nothing_past_the_limit(room: Room) -> None:
    room.stops(("A", 0, 0), ("B", 99.5, 0), ("C", 0, 600), ("D", 0, -600.5))
    assert found(room) == both(("A", "B", 100), ("A", "C", 600))


def test_a_detour_makes_ways_longer_and_speed_makes_them_shorter(room: Room) -> None:
    room.stops(("A", 0, 0), ("B", 100, 0))
    assert found(room, detour=1.5, speed=2.0)["A", "B"] == 75


def test_stops_at_one_place_are_0_seconds_apart(room: Room) -> None:
    room.stops(("A", 5, 5), ("B", 5, 5))
    assert found(room) == both(("A", "B", 0))


def test_a_stop_without_coordinates_has_no_footpath_and_is_counted(room: Room) -> None:
    room.stops(("A", 0, 0), ("B", None, None), ("C", 10, 0))
    assert set(found(room)) == {("A", "C"), ("C", "A")}
    message = f"{room.path('footpaths.csv')}: 2 footpaths; 1 stop without coordinates\n"
    assert room.ran("walks", str(room.folder)) == ("", message, 0)


def test_0_and_0_and_what_is_no_place_on_earth_are_missing_coordinates(room: Room) -> None:
    places: Table = [
        ["A", 0, 0],
        ["B", "0.0", "-0"],
        ["C", 91, 9],
        ["D", 9, 181],
        ["E", "nan", 9],
        ["F", "x", 9],
        ["G", 9, ""],
    ]
    room.write("stops.txt", "stop_id,stop_lat,stop_lon", [*places, ["H", 9, 0], ["I", 9, 0]])
    assert found(room) == both(("H", "I", 0))
    assert room.ran("walks", str(room.folder))[1].endswith("2 footpaths; 7 stops without coordinates\n")


def test_names_in_windows_1252_do_not_stop_it_and_identifiers_keep_their_bytes(room: Room) -> None:
    stops = "stop_id,stop_name,stop_lat,stop_lon\nA\xe9,Caf\xe9 \x80,9,9\nB,Caf\xe9,9,9\n".encode("latin-1")
    (room.folder / "stops.txt").write_bytes(stops)
    assert read_stops(str(room.folder)).names == ["Café €", "Café"]
    assert room.ran("walks", str(room.folder))[2] == 0
    expected = b"from_stop_id,to_stop_id,seconds\nA\xe9,B,0\nB,A\xe9,0\n"
    assert (room.folder / "footpaths.csv").read_bytes() == expected


def test_stations_and_entrances_are_no_ends_of_footpaths(room: Room) -> None:
    room.stops(("A", 0, 0), ("S", 10, 0, 1), ("E", 20, 0, 2, "S"), ("P", 30, 0, 0, "S"))
    assert set(found(room)) == {("A", "P"), ("P", "A")}


def test_a_platform_is_reached_by_the_nearest_entrance_of_its_station(room: Room) -> None:
    entrances = (("E", 0, 150, 2, "S"), ("F", 0, 90, 2, "S"))
    room.stops(("A", 0, 0), ("S", 0, 50, 1), ("P", 0, 50, 0, "S"), *entrances)
    assert found(room)["A", "P"] == 130


def test_within_a_station_one_walks_directly(room: Room) -> None:
    room.stops(("S", 0, 0, 1), ("P", 0, 0, 0, "S"), ("Q", 0, 12, 0, "S"), ("E", 0, 300, 2, "S"))
    assert found(room)["P", "Q"] == 12


def test_between_two_stations_one_goes_by_an_entrance_of_each(room: Room) -> None:
    one = (("S", 0, 0, 1), ("P", 0, 0, 0, "S"), ("E", 0, 40, 2, "S"))
    room.stops(*one, ("T", 0, 100, 1), ("Q", 0, 100, 0, "T"), ("F", 30, 100, 2, "T"))
    assert found(room)["P", "Q"] == math.ceil(40 + math.hypot(30, 60) + 30)


def test_the_date_line_and_the_poles_are_no_edges(room: Room) -> None:
    ends = [["A", 0, 180 - 50 * METRE], ["B", 0, -180 + 50 * METRE]]
    poles = [["C", 90 - 50 * METRE, 0], ["D", 90 - 50 * METRE, 180]]
    room.write("stops.txt", "stop_id,stop_lat,stop_lon", ends + poles)
    assert found(room) == both(("A", "B", 100), ("C", "D", 100))


@pytest.mark.parametrize("limit", [1, 30, 600, 20000])
def test_each_pair_that_is_near_enough_is_found(room: Room, limit: int) -> None:
    draw = random.Random(limit)
    places = [(draw.uniform(-3000, 3000), draw.uniform(-3000, 3000)) for _ in range(300)]
    room.stops(*((str(number), *place) for number, place in enumerate(places)))
    result = found(room, limit)
    pairs = itertools.permutations(range(300), 2)
    expected = {(str(a), str(b)) for a, b in pairs if math.dist(places[a], places[b]) < limit - 0.1}
    assert expected <= set(result)
    for (a, b), seconds in result.items():
        assert seconds == pytest.approx(math.dist(places[int(a)], places[int(b)]) + 0.5, abs=0.52)


@pytest.mark.parametrize("first", [5, 30, 300])
def test_walks_of_the_first_stops_are_those_among_all(room: Room, first: int) -> None:
    draw = random.Random(first)
    stations: list[list[Any]] = [[f"s{n}", *[draw.uniform(-900, 900) for _ in "ne"], 1] for n in range(9)]
    doors: list[list[Any]] = [[f"d{n}", *[draw.uniform(-900, 900) for _ in "ne"], 2, f"s{n % 5}"] for n in range(12)]
    stops = [[str(n), *[draw.uniform(-900, 900) for _ in "ne"], 0, draw.choice(["", f"s{n % 9}"])] for n in range(300)]
    room.stops(*stops, *stations, *doors)
    read = read_stops(str(room.folder))
    every, some = (set(straight_walks(read, Walking(max_seconds=300.0), item).rows()) for item in (None, first))
    assert some == {(a, b, seconds) for a, b, seconds in every if int(a) < first or int(b) < first} != set()


@pytest.mark.parametrize("words, seconds", [([], 975), (["--kmh", "3.6"], 1300), (["--speed", "1"], 1300)])
def test_the_speed_is_in_kilometres_an_hour_or_metres_a_second(room: Room, words: list[str], seconds: int) -> None:
    room.stops(("A", 0, 0), ("B", 999.9, 0))
    assert room.ran("walks", "--limit", "2000", *words, str(room.folder))[2] == 0
    assert (room.folder / "footpaths.csv").read_text().splitlines()[1] == f"A,B,{seconds}"


@pytest.mark.parametrize("at_once", [40, 1_000_000])
@pytest.mark.parametrize("most", [100, 4_000_000])
def test_pairs_of_near_points_are_found_whole_or_in_parts(
    monkeypatch: pytest.MonkeyPatch, most: int, at_once: int
) -> None:
    monkeypatch.setattr(straight, "MOST_FOOTPATHS", most)
    monkeypatch.setattr(straight, "PAIRS_AT_ONCE", at_once)
    points = np.random.default_rng(3).uniform(0, 1000, (200, 3))
    near = np.linalg.norm(points[:, None] - points, axis=2) <= 200
    expected = {(a, b) for a, b in zip(*np.nonzero(near)) if a != b}
    assert 300 < len(expected) < 4000
    pairs = [pair for one, other in straight.near_pairs(points, 200) for pair in zip(one, other)]
    assert len(pairs) == len(expected) / 2 and {*pairs, *((b, a) for a, b in pairs)} == expected
    some = np.array([7, 3, 150])
    pairs = [pair for one, other in straight.near_pairs(points, 200, some) for pair in zip(one, other)]
    assert len(pairs) == len(set(pairs)) and set(pairs) == {(a, b) for a, b in expected if a in some}


def test_too_many_walks_are_refused_before_they_are_found(room: Room, monkeypatch: pytest.MonkeyPatch) -> None:
    monkeypatch.setattr("ttm_tools.streets.counting.MOST_FOOTPATHS", 11)
    monkeypatch.setattr(straight, "near_pairs", None)
    room.stops(*((str(number), 0, number) for number in range(4)))  # 12 walks
    read = read_stops(str(room.folder))
    with pytest.raises(TooManyWalks, match="more than the 11 walks"):
        straight_walks(read, Walking(max_seconds=300.0))


def test_a_table_of_walks_is_rounded_up_and_counted(room: Room) -> None:
    room.stops(("A", 0, 0), ("B", 99.5, 0), ("C", 0, 600))
    table = room.write("osrm.csv", "from_stop_id,to_stop_id,seconds", [["A", "B", 120.2], ["B", "A", "119.0"]])
    message = f"{room.path('footpaths.csv')}: 2 footpaths; 1 time with decimals rounded up\n"
    assert room.ran("walks", "--table", table, str(room.folder)) == ("", message, 0)
    assert (room.folder / "footpaths.csv").read_text() == "from_stop_id,to_stop_id,seconds\nA,B,121\nB,A,119\n"
    (room.folder / "footpaths.csv").unlink()
    bad: list[tuple[list[Any], str]] = [
        (["A", "Z", 1], f"record 2: to_stop_id 'Z' is not a stop of {room.path('stops.txt')}"),
        (["A", "B", "-1"], "record 2: seconds '-1' is invalid; allowed: a number from 0 to 4294967295"),
        (["A", "B", "nan"], "record 2: seconds 'nan' is invalid; allowed: a number from 0 to 4294967295"),
    ]
    for row, message in bad:
        room.write("osrm.csv", "from_stop_id,to_stop_id,seconds", [row])
        room.refused(f"{table}: {message}", "walks", "--table", table, str(room.folder))


def test_the_program_takes_the_file(room: Room, program: str) -> None:
    room.stops(("A", 0, 0), ("B", 99.5, 0), ('a, "b"', 120, 0))
    room.write("routes.txt", "route_id", [["R"]])
    room.write("calendar.txt", *CALENDAR)
    room.write("trips.txt", "route_id,service_id,trip_id", [["R", "M", "T"]])
    times = [["T", "08:00:00", "08:00:00", "A", 1], ["T", "08:09:00", "08:09:00", "B", 2]]
    room.write("stop_times.txt", STOP_TIMES, times)
    assert launched("walks", "--speed", "1", "--detour", "1", str(room.folder)).returncode == 0
    arguments = f"--feed {room.folder} --footpaths {room.folder}/footpaths.csv --date 20260504 --from 08:00 --to 08:00"
    arguments += " --trips 1 --walk 600 --share 50 --within 60 --workers 1 --tries 1"
    ran = subprocess.run([program, *arguments.split()], capture_output=True, text=True)
    assert (ran.returncode, ran.stderr) == (0, "")
    matrix = list(csv.reader(ran.stdout.splitlines()))
    assert matrix[0][-3:] == ["A", "B", 'a, "b"']
    assert [row[-3:] for row in matrix[1:]] == [["0", "100", "120"], ["100", "0", "21"], ["120", "21", "0"]]


def test_a_folder_without_stops_is_told(room: Room) -> None:
    room.refused(f"{room.path('stops.txt')}: No such file or directory", "walks", str(room.folder))
    zipped = Path(room.path("feed.zip"))
    zipped.write_bytes(b"")
    room.refused(f"{zipped}: not the folder of a feed (unzip it first)", "walks", str(zipped))
