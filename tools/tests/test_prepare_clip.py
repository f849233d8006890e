"""Clipped feeds: by hand; and on drawn feeds, compared with the program's matrix of the whole feed without boarding and
alighting outside.
"""

import csv
import io
import json
import random
from pathlib import Path
from typing import Any

import pytest

from damages import Damaged, matrix_of, prepared
from helpers import STOP_TIMES, Room, Table

HEAD = "stop_id,stop_lat,stop_lon,location_type,parent_station"
STOPS: Table = [
    ["A", 50.0, 8.0, "", ""],
    ["B", 50.1, 8.0, "", "S"],
    ["C", 50.2, 8.0, "", ""],
    ["D", 50.3, 8.0, "", ""],
    ["S", 60.0, 8.0, "1", ""],
    ["E", 60.0, 8.0, "2", "S"],
    ["F", "", "", "", "S"],
]
WEEK = "monday,tuesday,wednesday,thursday,friday,saturday,sunday"
SOUTH = "7,49,9,50.15"


@pytest.fixture
def feed(room: Room) -> Room:
    """Trips from A by B and C to D: T at its times, U at headways, V back on Sundays."""
    (room.folder / "in").mkdir()
    room.write("in/stops.txt", HEAD, STOPS)
    room.write("in/routes.txt", "route_id,agency_id", [["R", "X"], ["Q", "Y"]])
    room.write("in/agency.txt", "agency_id", [["X"], ["Y"]])
    days: Table = [["M", *[1] * 5, 0, 0, 20260504, 20260531], ["N", *[0] * 6, 1, 20260504, 20260531]]
    room.write("in/calendar.txt", f"service_id,{WEEK},start_date,end_date", days)
    room.write("in/calendar_dates.txt", "service_id,date,exception_type", [["M", 20260510, 1], ["N", 20260510, 2]])
    room.write("in/trips.txt", "route_id,service_id,trip_id", [["R", "M", "T"], ["R", "M", "U"], ["Q", "N", "V"]])
    times = ["08:00:00", "", "", "08:31:00"]
    calls: Table = [["T", time, time, stop, n] for n, (time, stop) in enumerate(zip(times, "ABCD"))]
    calls += [["U", time, time, stop, n] for n, (time, stop) in enumerate(zip(times, "DCBA"))]
    calls += [["V", time, time, stop, n] for n, (time, stop) in enumerate(zip(times, "DDCA"))]
    room.write("in/stop_times.txt", STOP_TIMES, calls)
    room.write("in/frequencies.txt", "trip_id,start_time,end_time,headway_secs", [["U", "09:00:00", "10:00:00", 600]])
    walks: Table = [["A", "C", 2, 60], ["S", "A", 2, 60], ["A", "B", 2, 60]]
    room.write("in/transfers.txt", "from_stop_id,to_stop_id,transfer_type,min_transfer_time", walks)
    return room


def clipped(room: Room, *arguments: str) -> str:
    out, errors, status = room.ran("prepare", "--out", room.path("out"), *arguments, room.path("in"))
    assert (out, status) == ("", 0), errors
    return errors


def texts(room: Room, name: str) -> list[str]:
    return (room.folder / "out" / name).read_text().splitlines()[1:]


def firsts(room: Room, name: str) -> list[str]:
    return [line.split(",")[0] for line in texts(room, name)]


@pytest.mark.parametrize("box", [["--box", "-7,49,9,50.15"], ["--box=-.5,49,9,50.15"]])
def test_a_region_may_begin_west_of_greenwich(feed: Room, box: list[str]) -> None:
    """An argument that begins with a minus and a number is no option."""
    clipped(feed, *box)
    assert firsts(feed, "stops.txt") == ["A", "B", "S", "E"]


def test_a_region_keeps_stops_inside_with_their_stations_and_the_calls_there(feed: Room) -> None:
    clipped(feed, "--box", SOUTH)
    assert firsts(feed, "stops.txt") == ["A", "B", "S", "E"]
    assert texts(feed, "stop_times.txt") == [
        "T,08:00:00,08:00:00,A,0",
        "T,08:10:20,08:10:20,B,1",
        "U,08:20:40,08:20:40,B,2",
        "U,08:31:00,08:31:00,A,3",
    ]
    assert texts(feed, "frequencies.txt") == ["U,09:20:40,10:20:40,600"]
    assert texts(feed, "transfers.txt") == ["S,A,2,60", "A,B,2,60"]
    assert (firsts(feed, "routes.txt"), firsts(feed, "calendar.txt")) == (["R"], ["M"])
    assert texts(feed, "calendar_dates.txt") == ["M,20260510,1"]


def test_a_stop_without_a_place_lies_at_its_station(feed: Room) -> None:
    feed.write("in/stops.txt", HEAD, [*STOPS[:4], ["S", 50.12, 8, "1", ""], *STOPS[5:]])
    clipped(feed, "--box", SOUTH)
    assert firsts(feed, "stops.txt") == ["A", "B", "S", "E", "F"]


def test_a_long_file_is_clipped_alike_and_faults_outside_are_not_looked_at(
    feed: Room, monkeypatch: pytest.MonkeyPatch
) -> None:
    pytest.importorskip("pandas")
    with open(feed.path("in/stop_times.txt"), "a") as file:
        file.write("W,x,,D,1\n")
    clipped(feed, "--box", SOUTH)
    before = {path.name: path.read_bytes() for path in (feed.folder / "out").iterdir()}
    monkeypatch.setattr("ttm_tools.gtfs.reading.SMALL", 0)
    for count in (1, 2, 3, 7):
        monkeypatch.setattr("ttm_tools.gtfs.reading.ROWS_AT_ONCE", count)
        for path in (feed.folder / "out").iterdir():
            path.unlink()
        clipped(feed, "--box", SOUTH)
        assert {path.name: path.read_bytes() for path in (feed.folder / "out").iterdir()} == before
    whole = ["prepare", "--out", feed.path("whole"), feed.path("in")]
    feed.refused(
        f"{feed.path('in')}: 2 errors, the first: stop_times.txt: record 14: unknown trip "
        "(--check lists all, --repair repairs what its rules cover)",
        *whole,
    )


def test_an_area_is_polygons_of_geojson(feed: Room) -> None:
    pytest.importorskip("shapely")
    ring = [[7, 49], [9, 49], [9, 50.15], [7, 50.15], [7, 49]]
    far = [[[[0, 0], [1, 0], [1, 1], [0, 0]]], [ring]]
    one: dict[str, Any] = {"type": "Polygon", "coordinates": [ring]}
    for geometry in (one, {"type": "MultiPolygon", "coordinates": far}):
        feature = {"type": "FeatureCollection", "features": [{"type": "Feature", "geometry": geometry}]}
        (feed.folder / "area.json").write_text(json.dumps(feature))
        out = f"out{geometry['type']}"
        assert feed.ran("prepare", "--out", feed.path(out), "--area", feed.path("area.json"), feed.path("in"))[2] == 0
        result = (feed.folder / out / "stops.txt").read_text().splitlines()[1:]
        assert [line.split(",")[0] for line in result] == ["A", "B", "S", "E"]


def test_areas_that_are_none_are_told(feed: Room) -> None:
    pytest.importorskip("shapely")
    arguments = ["prepare", "--out", feed.path("out"), "--area", feed.path("area.json"), feed.path("in")]
    feed.refused(f"{feed.path('area.json')}: No such file or directory", *arguments)
    message = "no polygon in it; allowed: a GeoJSON Polygon or MultiPolygon, or features of these"
    cases: list[tuple[Any, str]] = [
        ({"type": "Point", "coordinates": [1, 2]}, message),
        ([], message),
        ({"type": "Polygon", "coordinates": [[[1, 1], [2, 1], [2, 2], [1, 1]]]}, "no stop of the feed lies in it"),
        (
            {"type": "Polygon", "coordinates": [[[0, 0], [5e6, 0], [5e6, 6e6], [0, 0]]]},
            "coordinates that are not degrees; allowed: longitude and latitude, WGS 84",
        ),
    ]
    for read, message in cases:
        (feed.folder / "area.json").write_text(json.dumps(read))
        feed.refused(f"{feed.path('area.json')}: {message}", *arguments)
    (feed.folder / "area.json").write_text('{"type": "Polygon", "coordinates": [[1]]}')
    assert "an invalid polygon" in feed.ran(*arguments)[1]
    feed.refused("--box: no stop of the feed lies in it", *arguments[:3], "--box", "1,1,2,2", feed.path("in"))


def test_routes_and_agencies_keep_their_trips_and_where_these_call(feed: Room) -> None:
    clipped(feed, "--routes", "Q")
    assert (firsts(feed, "trips.txt"), firsts(feed, "stops.txt")) == (["Q"], ["A", "C", "D"])
    assert (firsts(feed, "routes.txt"), texts(feed, "transfers.txt")) == (["Q"], ["A,C,2,60"])
    arguments = ["prepare", "--out", feed.path("other")]
    assert feed.ran(*arguments, "--agency", "X", feed.path("in"))[2] == 0
    result = (feed.folder / "other" / "stops.txt").read_text().splitlines()[1:]
    assert [line.split(",")[0] for line in result] == ["A", "B", "C", "D", "S", "E"]
    arguments[2] = feed.path("no")
    feed.refused("routes.txt: no route Z", *arguments, "--routes", "Z", feed.path("in"))
    feed.refused("routes.txt: no agency Z", *arguments, "--agency", "Z", feed.path("in"))


@pytest.mark.parametrize("day, kept", [("20260509", "TU"), ("20260510", "TU"), ("20260517", "V")])
def test_a_date_keeps_what_runs_on_it(feed: Room, day: str, kept: str) -> None:
    printed = clipped(feed, "--date", day, "--back", "0", "--ahead", str(int(day == "20260509")))
    runs = {"TU": "7 with 28 stop times", "V": "1 with 4 stop times"}[kept]
    assert f": {runs}\n" in printed
    assert [line.split(",")[2] for line in texts(feed, "trips.txt")] == list(kept)
    assert len(texts(feed, "stops.txt")) == 7


def test_a_date_on_which_nothing_runs_is_refused(feed: Room) -> None:
    arguments = ["prepare", "--out", feed.path("out"), "--date", "20260603", "--back", "0", "--ahead", "1"]
    hint = "(--allow-loss writes the feed anyway; --check lists all errors)"
    message = f"no trip runs from 2026-06-03 to 2026-06-04, only from 2026-05-04 to 2026-05-31 {hint}"
    feed.refused(f"{feed.path('in')}: {message}", *arguments, feed.path("in"))
    assert feed.ran(*arguments, "--allow-loss", feed.path("in"))[2] == 0 and texts(feed, "trips.txt") == []


def test_what_is_too_much_is_told_with_what_helps(feed: Room) -> None:
    many: Table = [[f"s{n}", 10 + n / 70_000, 0.5, "", ""] for n in range(65_536)]
    feed.write("in/stops.txt", HEAD, STOPS + many)
    less = "use --box, --area, --routes or --agency"
    message = f"stops.txt: 65,543 records; ttm takes at most 65,535 records; {less}"
    feed.refused(message, "prepare", "--out", feed.path("out"), feed.path("in"))
    clipped(feed, "--box", SOUTH)


def test_wrong_boxes_and_dates(feed: Room) -> None:
    for arguments in (["--box", "1,2,3"], ["--box", "1,2,3,x"], ["--box", "1,5,3,4"], ["--date", "20260230"]):
        assert feed.ran("prepare", "--out", feed.path("out"), *arguments, feed.path("in"))[2] == 2


def test_a_box_west_of_greenwich_is_taken_as_it_is_written(feed: Room) -> None:
    feed.write("in/stops.txt", HEAD, [[name, north, east and -0.1, *more] for name, north, east, *more in STOPS])
    clipped(feed, "--box", "-0.2,49,.1,50.15")
    assert firsts(feed, "stops.txt") == ["A", "B", "S", "E"]


@pytest.mark.parametrize("date", ["20260517", "2026-05-17"])
def test_a_date_is_taken_in_both_forms(feed: Room, date: str) -> None:
    clipped(feed, "--date", date, "--back", "0", "--ahead", "0")
    assert [line.split(",")[2] for line in texts(feed, "trips.txt")] == ["V"]


def cells(matrix: bytes, stops: list[str]) -> dict[tuple[str, str], str]:
    """The travel times between some stops."""
    header, *lines = csv.reader(io.StringIO(matrix.decode()))
    pairs = [(line[1], stop, cell) for line in lines for stop, cell in zip(header[4:], line[4:])]
    return {(origin, stop): cell for origin, stop, cell in pairs if origin in stops and stop in stops}


def only_within(feed: Damaged, kept: set[str]) -> None:
    """Nobody boards or alights outside, and no row of transfers.txt leads there."""
    for call in feed.files["stop_times.txt"][1:]:
        call[5:] = call[5:] if call[3] in kept else ["1", "1"]
    header, *walks = feed.files["transfers.txt"]
    feed.files["transfers.txt"] = [header, *(walk for walk in walks if kept.issuperset(walk[:2]))]


@pytest.mark.parametrize("first", range(0, 60, 20))
def test_times_in_a_region_are_those_of_boarding_and_alighting_in_it_alone(
    program: str, tmp_path: Path, first: int
) -> None:
    for seed in range(first, first + 20):
        feed, draw = Damaged(seed, 0), random.Random(seed)
        folder = tmp_path / str(seed)
        feed.put_into(folder)
        places = {stop[0]: float(stop[3]) for stop in feed.files["stops.txt"][1:] if stop[1] != "1"}
        south, north = sorted(draw.choice(list(places.values())) for _ in range(2))
        out = prepared(folder, "--box", f"7,{south},9,{north}")
        inside = [stop for stop, latitude in places.items() if south <= latitude <= north]
        with open(out / "stops.txt", newline="") as file:
            kept = {line[0] for line in csv.reader(file)} - {"stop_id"}
        assert set(inside) == kept - set(feed.stations)
        only_within(feed, kept)
        feed.put_into(folder)
        (status, clipped_matrix, printed), whole = matrix_of(program, out), matrix_of(program, folder)
        assert (seed, status, whole[0]) == (seed, 0, 0), printed
        assert (seed, cells(clipped_matrix, inside)) == (seed, cells(whole[1], inside))


@pytest.mark.parametrize("first", range(0, 40, 20))
def test_the_matrix_of_the_days_is_the_same(program: str, tmp_path: Path, first: int) -> None:
    for seed in range(first, first + 20):
        feed = Damaged(seed, 0)
        feed.put_into(tmp_path / str(seed))
        out = prepared(tmp_path / str(seed), "--date", "20260506")
        assert matrix_of(program, out) == matrix_of(program, tmp_path / str(seed))
