"""Several feeds as one: identifiers stay apart, and each feed's travel times are what they were."""

import csv
import io
from pathlib import Path

import pytest

from damages import Damaged, matrix_of
from helpers import CALENDAR, STOP_TIMES, Room, Table


def write_feed(room: Room, name: str, stops: str, route: str, agency: str) -> None:
    (room.folder / name).mkdir()
    places: Table = [[stop, "", "G"] for stop in stops] + [["G", 1, ""]]
    room.write(f"{name}/stops.txt", "stop_id,location_type,parent_station", places)
    room.write(f"{name}/routes.txt", "route_id,agency_id", [[route, agency]])
    room.write(f"{name}/agency.txt", "agency_id,agency_name", [[agency, name]])
    room.write(f"{name}/calendar.txt", *CALENDAR)
    room.write(f"{name}/trips.txt", "route_id,service_id,trip_id", [[route, "M", "T"]])
    calls: Table = [["T", f"08:0{n}:00", f"08:0{n}:00", stop, n] for n, stop in enumerate(stops)]
    room.write(f"{name}/stop_times.txt", STOP_TIMES, calls)
    room.write(f"{name}/fares.txt", "fare", [])


def merged(room: Room, *names: str) -> str:
    paths = [room.path(name) for name in names]
    out, errors, status = room.ran("prepare", "--out", room.path("out"), *paths)
    assert (out, status) == ("", 0), errors
    return errors


def test_identifiers_that_collide_get_a_prefix(room: Room) -> None:
    write_feed(room, "bus", "AB", "R", "X")
    write_feed(room, "tram", "CD", "Q", "X")
    printed = merged(room, "bus", "tram")
    kinds = ("stop", "service", "trip", "agency")
    lines = [f"tram: the identifiers of all {kind}s begin with tram:" for kind in kinds]
    lines.insert(0, "left out, since no rule merges them: bus/fares.txt, tram/fares.txt")
    assert printed.splitlines() == [*lines, f"{room.path('out')}: 6 stops and stations, 2 trips, 4 stop times"]
    result = {path.name: path.read_text().splitlines()[1:] for path in (room.folder / "out").iterdir()}
    assert result["stops.txt"] == ["A,,G", "B,,G", "G,1,", "tram:C,,tram:G", "tram:D,,tram:G", "tram:G,1,"]
    assert result["routes.txt"] == ["R,X", "Q,tram:X"]
    assert result["agency.txt"] == ["X,bus", "tram:X,tram"]
    assert result["trips.txt"] == ["R,M,T", "Q,tram:M,tram:T"]
    assert result["stop_times.txt"][2:] == ["tram:T,08:00:00,08:00:00,tram:C,0", "tram:T,08:01:00,08:01:00,tram:D,1"]
    assert [line.split(",")[0] for line in result["calendar.txt"]] == ["M", "tram:M"]
    assert "fares.txt" not in result and result["prepared.csv"] == []


def test_a_feed_that_is_named_twice_gets_two_prefixes(room: Room) -> None:
    write_feed(room, "bus", "AB", "R", "X")
    merged(room, "bus", "bus", "bus")
    result = (room.folder / "out" / "trips.txt").read_text().splitlines()[1:]
    assert result == ["R,M,T", "bus:R,bus:M,bus:T", "bus2:R,bus2:M,bus2:T"]


def test_rules_name_the_feed(room: Room) -> None:
    write_feed(room, "bus", "AB", "R", "X")
    write_feed(room, "tram", "CD", "Q", "X")
    room.write("tram/routes.txt", "route_id,agency_id", [["Q", "X"], ["Q", "X"]])
    out, errors, status = room.ran(
        "prepare", "--repair", "--out", room.path("out"), room.path("bus"), room.path("tram")
    )
    assert status == 0 and errors.startswith("same: tram/routes.txt: 1 record removed\n")
    result = (room.folder / "out" / "prepared.csv").read_text().splitlines()[1:]
    assert result == ["tram/routes.txt,3,route_id,Q,same,record left out"]


def cells(matrix: bytes) -> dict[tuple[str, str], str]:
    """The travel times between all stops."""
    header, *lines = csv.reader(io.StringIO(matrix.decode()))
    return {(line[1], stop): cell for line in lines for stop, cell in zip(header[4:], line[4:])}


@pytest.mark.parametrize("first", range(0, 20, 10))
def test_travel_times_of_each_feed_are_what_they_were(program: str, room: Room, first: int) -> None:
    for seed in range(first, first + 10):
        names = (f"one{seed}", f"two{seed}")
        for part, name in enumerate(names):
            Damaged(2 * seed + part, 0).put_into(room.folder / name)
        out = room.path(f"out{seed}")
        assert room.ran("prepare", "--allow-loss", "--out", out, *map(room.path, names))[2] == 0
        status, matrix, printed = matrix_of(program, Path(out))
        assert status == 0, printed
        result = cells(matrix)
        for name, begins in zip(names, ("", f"two{seed}:")):
            alone = cells(matrix_of(program, room.folder / name)[1])
            prefix = begins if any(stop.startswith(begins) for stop, _ in result) else ""
            assert (seed, alone) == (seed, {pair: result[prefix + pair[0], prefix + pair[1]] for pair in alone})
