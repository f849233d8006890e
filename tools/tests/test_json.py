"""What commands print with `--json`: the page has each field, and values are those found by hand on a small feed."""

import json
import shutil
import subprocess
import sys
from pathlib import Path
from typing import Any

import pytest

import json_fields as expected
from asking import script
from helpers import CALENDAR, LAUNCHER, METRE, STOP_TIMES, Room, Table
from json_fields import answer, assert_fields, failure, values
from streets import write_osm
from ttm_tools import cli
from ttm_tools.cli import machine
from ttm_tools.core import notices

ROOT = Path(LAUNCHER).parents[1]
DATE = ("--date", "20260504")
EXPLAIN = (*DATE, *"--from 07:58 --to 08:01 --trips 2 --walk 120 --ahead 0".split())
BLOCK = {1: (0.0, 0.0), 2: (0.0, 400.0), 3: (100.0, 0.0), 4: (100.0, 400.0)}  # metres north and east, see `Room.stops`


@pytest.fixture
def small(room: Room) -> Room:
    """Two routes: T1 runs from A to B along a shape, T2 goes on from B to C; D is 100 seconds of walking from C."""
    places: Table = [["A", "Alpha", 0, 9], ["B", "", 0, 9.01], ["C", "", 0.01, 9.01], ["D", "", 0.011, 9.01]]
    room.write("stops.txt", "stop_id,stop_name,stop_lat,stop_lon", places)
    room.write("routes.txt", "route_id,route_short_name,route_type", [["R1", "1", 3], ["R2", "", 0]])
    trips: Table = [["R1", "M", "T1", "s", 0], ["R2", "M", "T2", "", ""]]
    room.write("trips.txt", "route_id,service_id,trip_id,shape_id,direction_id", trips)
    room.write("calendar.txt", *CALENDAR)
    times = [["T1", "8:00:00", "8:00:00", "A", 1], ["T1", "8:10:00", "8:10:00", "B", 2]]
    times += [["T2", "8:15:00", "8:15:00", "B", 1], ["T2", "8:30:00", "8:30:00", "C", 2]]
    room.write("stop_times.txt", STOP_TIMES, times)
    # the shape begins west of A, turns north before B and comes back south past it
    turns = [[0, 8.99], [0, 9.005], [0.005, 9.005], [0.005, 9.01], [-0.01, 9.01]]
    points = [["s", *place, number] for number, place in enumerate(turns)]
    room.write("shapes.txt", "shape_id,shape_pt_lat,shape_pt_lon,shape_pt_sequence", points)
    room.write("walks.csv", "from_stop_id,to_stop_id,seconds", [["C", "D", 100]])
    room.write("pairs.csv", "origin,destination", [["A", "D"], ["D", "A"], ["A", "A"]])
    matrix = [["base", "A", 50, 1, 0, 1960], ["base", "D", 50, 1, "", 0]]
    room.write("matrix.csv", "scenario,origin,share,access_1800,A,D", matrix)
    return room


def test_the_page_has_each_field_with_its_type() -> None:
    assert expected.tables_of_page() == expected.TABLES
    tables = [table for tables in expected.tables_of_page().values() for table in tables]
    assert [list(table) for table in tables] == [list(t) for tables in expected.TABLES.values() for t in tables]
    by_stop = ", ".join(f"`{name}`" for name in expected.SERVICE_OF_STOPS if not name.startswith("departures"))
    assert f"With `--by stop` the columns are {by_stop}, `departures` (integer)" in " ".join(
        expected.PAGE.read_text().split()
    )


def test_the_page_has_each_kind_of_warning_and_error() -> None:
    assert expected.kinds_of_page("Warnings") == notices.KINDS
    assert expected.kinds_of_page("Errors") == {kind: meaning for kind, (_, meaning) in machine.KINDS.items()}


def test_the_page_names_the_commands_that_have_it() -> None:
    have = [name for name in cli.COMMANDS if "--json" in helped(name)]
    assert set(have) == {heading.split()[0] for heading in list(expected.TABLES)[3:]}
    assert all("--progress {json}" in helped(name) for name in have)


def helped(name: str) -> str:
    parser = next(action for action in cli.parser_of()._actions if action.dest == "command")
    text: str = dict(parser.choices or {})[name].format_help()
    return text


def test_the_example_of_the_page(room: Room) -> None:
    town = [sys.executable, str(ROOT / "bench" / "feedgen.py"), "town", "checked"]
    subprocess.run(town, cwd=room.folder, check=True, capture_output=True)
    block = expected.PAGE.read_text().partition("    $ mkdir")[2].partition("\n\n")[0].splitlines()
    edit = block[0].partition("&& ")[2].partition("&& ")[2]
    command = block[1].removeprefix("    $ ").replace("ttm-tools", f"{sys.executable} {LAUNCHER}")
    ran = subprocess.run(["sh", "-c", f"{edit}\n{command}"], cwd=room.folder, capture_output=True, text=True)
    assert ran.stdout.splitlines() == [line.removeprefix("    ") for line in block[2:]], ran.stderr


def test_a_prepared_feed(small: Room) -> None:
    small.write("frequencies.txt", "trip_id,start_time,end_time,headway_secs", [["T2", "8:15:00", "8:45:00", 600]])
    small.write("calendar_dates.txt", "service_id,date,exception_type", [["M", 20260505, 2], ["M", 20260602, 1]])
    found = answer(small, "prepare", "--out", small.path("out"), str(small.folder), table=expected.TABLES["prepare"][0])
    assert {name: found[name] for name in ("folder", "stops", "routes", "trips", "stop_times")} == {
        "folder": small.path("out"),
        "stops": 4,
        "routes": 2,
        "trips": 2,
        "stop_times": 4,
    }
    # T1 runs once a day, T2 at 8:15, 8:25 and 8:35; not on 5 May, and on 2 June after two days without service
    days = found["trips_by_date"]
    assert len(days) == 30 and list(days)[:2] == ["2026-05-04", "2026-05-05"]
    assert (days["2026-05-04"], days["2026-05-05"], days["2026-06-01"], days["2026-06-02"]) == (4, 0, 0, 4)
    assert (found["repairs_file"], found["repairs"], found["warnings"]) == (small.path("out/prepared.csv"), {}, [])


def test_repairs_are_counted_and_are_warnings(small: Room) -> None:
    with open(small.path("routes.txt"), "a") as file:
        file.write("R2,,0\n")
    with open(small.path("stop_times.txt"), "a") as file:
        file.write("T1,8:5,8:5:0,A,3\n")
    text = Path(small.path("stop_times.txt")).read_text().replace("T1,8:5,8:5:0,A,3\n", "T2,8:40,8:40:0,A,3\n")
    Path(small.path("stop_times.txt")).write_text(text)
    arguments = ["prepare", "--repair", "--out", small.path("out"), str(small.folder)]
    found = answer(small, *arguments, table=expected.PREPARE)
    assert found["repairs"] == {"same": 1, "time": 2}
    assert found["warnings"] == [
        {"kind": "repaired", "text": "same: routes.txt: 1 record removed", "affected": 1},
        {"kind": "repaired", "text": "time: stop_times.txt: 2 fields repaired", "affected": 2},
    ]


def test_all_errors_of_a_feed(small: Room) -> None:
    Path(small.path("calendar.txt")).unlink()
    text = Path(small.path("stop_times.txt")).read_text()
    Path(small.path("stop_times.txt")).write_text(
        text.replace("8:10:00,8:10:00", "8:10,9h").replace("15:00,B", "15:00,X")
    )
    (small.folder / "feed").mkdir()
    for name in ("stops", "routes", "trips", "stop_times"):
        shutil.move(small.path(f"{name}.txt"), small.path("feed"))
    feed = small.path("feed")
    found = answer(small, "prepare", "--check", feed, table=expected.TABLES["prepare --check"][0], status=1)
    for error in found["errors"]:
        assert_fields(error, expected.FOUND_ERROR)
    words = [
        tuple(error[name] for name in ("feed", "file", "record", "column", "value", "error"))
        for error in found["errors"]
    ]
    assert words == [
        (feed, "calendar.txt", None, None, None, "missing file"),
        (feed, "stop_times.txt", 3, "arrival_time", "8:10", "bad time"),
        (feed, "stop_times.txt", 3, "departure_time", "9h", "bad time"),
        (feed, "stop_times.txt", 4, "stop_id", "X", "unknown stop"),
    ]
    assert found["errors"][1]["allowed"] == "a time is H:MM:SS, 0:00:00 to 167:59:59"


def test_a_feed_without_errors_has_warnings_of_a_check(small: Room) -> None:
    with open(small.path("stops.txt"), "a") as file:
        file.write("E,=1,,\n")
    found = answer(small, "prepare", "--check", str(small.folder), table=expected.TABLES["prepare --check"][0])
    assert found["errors"] == []
    assert [(warning["kind"], warning["affected"]) for warning in found["warnings"]] == [("place", 1), ("feed", 1)]
    assert found["warnings"][0]["text"] == "stops.txt: 1 stop without coordinates, or at 0 and 0, such as E"


PLAN = """\
[[stop]]
id = "N"
name = "New"
lat = 0.02
lon = 9.02

[[scenario]]
name = "late"
[[scenario.action]]
do = "shift_route"
route = "R2"
seconds = 300
[[scenario.action]]
do = "remove_route"
route = "R1"

[[scenario]]
name = "again"
[[scenario.action]]
do = "remove_trip"
trip = "T2"
"""


def test_the_scenarios_of_a_plan(small: Room) -> None:
    Path(small.path("plan.toml")).write_text(PLAN)
    table, out = expected.TABLES["scenarios"][0], small.path("out")
    found = answer(small, "scenarios", str(small.folder), small.path("plan.toml"), "--out", out, table=table)
    assert found["folder"] == out
    assert found["files"] == [f"{out}/scenarios/{name}.csv" for name in ("today", "late", "again")]
    for action in found["actions"]:
        assert_fields(action, expected.ACTION)
    shift, remove, again = found["actions"]
    assert shift == values(
        scenario="late",
        number=1,
        line=9,
        do="shift_route",
        about=["R2"],
        trips_before=2,
        trips_after=2,
        stops_before=3,
        stops_after=3,
        stop_times_before=4,
        stop_times_after=4,
        removed=0,
        shifted=1,
        changed=0,
        added=0,
        notes=shift["notes"],
    )
    assert (remove["number"], remove["removed"], remove["trips_after"], remove["stops_after"]) == (2, 1, 1, 2)
    assert (again["scenario"], again["number"], again["about"], again["line"]) == ("again", 1, ["T2"], 19)
    text = "stop N is left out: no trip calls there"
    assert found["warnings"] == [{"kind": "left out", "text": text, "affected": 1}]
    shutil.rmtree(out)
    arguments = ["scenarios", str(small.folder), small.path("plan.toml"), "--only", "late", "--out", out]
    assert answer(small, *arguments, table=table)["files"] == []


def test_points_and_what_they_do_not_reach(small: Room) -> None:
    metre = METRE  # north of A
    homes = [["h1", 100 * metre, 9, 1.5], ["h2", 1, 9, 2], ["h3", 1.1, 9, 0]]
    small.write("homes.csv", "id,lat,lon,people", homes)
    small.write("jobs.csv", "id,lat,lon", [["j1", 0, 9], ["A", 2, 9]])
    ends = ["--origins", small.path("homes.csv"), "--destinations", small.path("jobs.csv")]
    out = small.path("out")
    arguments = ["points", str(small.folder), *ends, "--limit", "130", "--speed", "1", "--detour", "1", "--out", out]
    found = answer(small, *arguments, table=expected.POINTS)
    # h1 and jobs:j1 are at A or 100 metres north of it, C and D 111 metres apart, all others alone: four pairs
    assert found == found | values(
        folder=out,
        feed=f"{out}/feed",
        footpaths_file=f"{out}/footpaths.csv",
        footpaths=8,
        points=5,
        unreachable={"origins": ["h2", "h3"], "destinations": ["jobs:A"]},
        far_from_street=[],
        without_street=[],
        without_coordinates=[],
    )
    assert [(warning["kind"], warning["affected"]) for warning in found["warnings"]] == [
        ("renamed", 2),
        ("unreachable", 3),
        ("rounded", 1),
        ("rounded", 1),
    ]
    found = answer(small, *arguments[:-1], small.path("less"), "--leave-out", table=expected.POINTS)
    assert (found["points"], found["footpaths"]) == (2, 8)
    assert found["unreachable"] == {"origins": ["h2", "h3"], "destinations": ["jobs:A"]}


def test_walks_along_streets_and_stops_apart_from_these(room: Room) -> None:
    pytest.importorskip("osmium")
    pytest.importorskip("scipy")
    # B is 150 metres south of the street, C five kilometres, and N has no place
    room.stops(("A", 0, 50), ("B", -150, 100), ("C", -5000, 0), ("N", None, None))
    streets = write_osm(room.folder / "block.osm", BLOCK, [([1, 2], {"highway": "residential"})])
    arguments = ["walks", "--streets", streets, "--speed", "1", "--detour", "1", "--limit", "400", str(room.folder)]
    found = answer(room, *arguments, table=expected.WALKS)
    assert found == found | values(
        feed=str(room.folder),
        footpaths_file=room.path("footpaths.csv"),
        footpaths=2,
        unreachable={"origins": [], "destinations": []},
        far_from_street=["B"],
        without_street=["C"],
        without_coordinates=["N"],
    )
    assert [(one["kind"], one["affected"]) for one in found["warnings"]] == [("place", 1)] * 3


def test_walks_of_a_table(small: Room) -> None:
    small.write("own.csv", "from_stop_id,to_stop_id,seconds", [["A", "B", 9.5], ["B", "A", 9]])
    found = answer(small, "walks", "--table", small.path("own.csv"), str(small.folder), table=expected.WALKS)
    assert (found["footpaths"], found["without_coordinates"]) == (2, [])
    text = f"{small.path('own.csv')}: 1 time with decimals rounded up"
    assert found["warnings"] == [{"kind": "rounded", "text": text, "affected": 1}]


def test_what_runs(small: Room) -> None:
    small.write("late.csv", "action,id,seconds", [["remove_route", "R2", ""]])
    arguments = ["service", str(small.folder), small.path("late.csv"), *DATE]
    found = answer(small, *arguments, table=expected.TABLES["service"][0])
    for row in found["rows"]:
        assert_fields(row, expected.SERVICE)
    assert [(row["scenario"], row["route"], row["direction"], row["departures"]) for row in found["rows"]] == [
        ("base", "R1", "0", 1),
        ("late", "R1", "0", 1),
        ("base", "R2", None, 1),
        ("late", "R2", None, 0),
    ]
    first, gone = found["rows"][0], found["rows"][3]
    # 1.1132 km along the equator of the ellipsoid in ten minutes
    assert first == first | values(
        route_name="1",
        period="00:00 to 48:00",
        headway_minutes=None,
        greatest_gap_minutes=None,
        first_departure="08:00:00",
        last_arrival="08:10:00",
        kilometres_an_hour=6.68,
        vehicles=1,
        vehicle_hours=0.17,
        vehicle_kilometres=1.11,
    )
    assert (gone["first_departure"], gone["last_arrival"], gone["kilometres_an_hour"]) == (None, None, None)
    assert (gone["vehicles"], gone["vehicle_hours"], gone["vehicle_kilometres"]) == (0, 0, 0)
    whole = answer(small, *arguments, "--by", "all", table=expected.TABLES["service"][0])["rows"]
    assert (whole[0]["route"], whole[0]["route_name"], whole[0]["departures"]) == (None, None, 2)


def test_what_leaves_a_stop(small: Room) -> None:
    arguments = ["service", str(small.folder), *DATE, "--by", "stop", "--periods", "08:00,09:30"]
    found = answer(small, *arguments, table=expected.TABLES["service"][0])
    for row in found["rows"]:
        assert_fields(row, expected.SERVICE_OF_STOPS)
    assert [list(row.values()) for row in found["rows"]] == [
        ["base", "A", "Alpha", "08:00 to 09:30", 1, pytest.approx(2 / 3)],
        ["base", "B", "B", "08:00 to 09:30", 1, pytest.approx(2 / 3)],
    ]


def journeys(room: Room, *arguments: str) -> list[dict[str, Any]]:
    words = ["explain", str(room.folder), *EXPLAIN, "--footpaths", room.path("walks.csv"), *arguments]
    found = answer(room, *words, "--matrix", room.path("matrix.csv"), table=expected.TABLES["explain"][0])["journeys"]
    for journey in found:
        assert_fields(journey, expected.JOURNEY)
        for leg in journey["legs"]:
            assert_fields(leg, expected.LEG)
    return list(found)


def test_journeys_with_their_legs_and_lines(small: Room) -> None:
    there, back, none = journeys(small, "--pairs", small.path("pairs.csv"))
    head = {"scenario": "base", "percentile": 50, "option": 1}
    # half of the departures 07:58 to 08:01 take at most the 1,960 seconds of 07:59: to 08:31:40
    assert there == there | head | {"origin": "A", "destination": "D", "seconds": 1960, "departure": 28_740}
    assert back == head | {"origin": "D", "destination": "A", "seconds": None, "departure": None, "legs": []}
    assert none == head | {"origin": "A", "destination": "A", "seconds": 0, "departure": 28_680, "legs": []}
    bus, tram, walk = there["legs"]
    # along the shape: half a hundredth of a degree east, north, east and south, at 111.195 metres a thousandth
    assert bus == values(
        mode="BUS",
        route_id="R1",
        route_name="1",
        trip_id="T1",
        from_stop_id="A",
        to_stop_id="B",
        departure=28_800,
        wait=60,
        seconds=600,
        metres=2223.9,
        line=[[9, 0], [9.005, 0], [9.005, 0.005], [9.01, 0.005], [9.01, 0]],
    )
    # without a shape from stop to stop; five minutes after the bus
    assert tram == values(
        mode="TRAM",
        route_id="R2",
        route_name="R2",
        trip_id="T2",
        from_stop_id="B",
        to_stop_id="C",
        departure=29_700,
        wait=300,
        seconds=900,
        metres=1112.0,
        line=[[9.01, 0], [9.01, 0.01]],
    )
    assert walk == values(
        mode="WALK",
        route_id=None,
        route_name=None,
        trip_id=None,
        from_stop_id="C",
        to_stop_id="D",
        departure=30_600,
        wait=0,
        seconds=100,
        metres=111.2,
        line=[[9.01, 0.01], [9.01, 0.011]],
    )


def test_a_point_is_no_stop_and_a_stop_without_a_place_has_no_line(small: Room) -> None:
    small.write("points.csv", "id,lat,lon", [["D", 0.011, 9.01]])
    text = Path(small.path("stops.txt")).read_text()
    Path(small.path("stops.txt")).write_text(text.replace("C,,0.01,9.01", "C,,,"))
    there = journeys(small, "--origin", "A", "--destination", "D")[0]["legs"]
    assert [(leg["from_stop_id"], leg["to_stop_id"]) for leg in there] == [("A", "B"), ("B", "C"), ("C", None)]
    assert [leg["line"] is None for leg in there] == [False, True, True]
    assert [leg["metres"] is None for leg in there] == [False, True, True]


def test_walks_are_drawn_along_streets(small: Room) -> None:
    pytest.importorskip("osmium")
    pytest.importorskip("scipy")
    # from C east, north and back west to D: 30 + 111 + 30 metres
    nodes = {1: (1112, 1112.0), 2: (1112, 1142.0), 3: (1223, 1142.0), 4: (1223, 1112.0)}
    streets = write_osm(small.folder / "block.osm", nodes, [([1, 2, 3, 4], {"highway": "residential"})])
    places = {"C": (1112, 1112.0), "D": (1223, 1112.0)}
    rows = [[name, "", north * METRE, 1 + east * METRE] for name, (north, east) in places.items()]
    small.write("stops.txt", "stop_id,stop_name,stop_lat,stop_lon", [["A", "", 0, 1], ["B", "", 0, 1.01], *rows])
    walk = journeys(small, "--origin", "A", "--destination", "D", "--streets", streets)[0]["legs"][2]
    assert walk["metres"] == pytest.approx(171, abs=0.2)
    turns = [[round(1 + east * METRE, 6), round(north * METRE, 6)] for north, east in nodes.values()]
    assert [turn for turn in walk["line"] if turn in turns] == turns


def test_each_departure_that_arrives_later_has_a_journey(small: Room) -> None:
    times = [["T1", "8:00:00", "8:00:00", "A", 1], ["T1", "8:10:00", "8:10:00", "B", 2]]
    times += [["T2", "7:59:30", "7:59:30", "A", 1], ["T2", "8:20:00", "8:20:00", "C", 2]]
    small.write("stop_times.txt", STOP_TIMES, times)
    arguments = ["--origin", "A", "--destination", "C", "--all-options"]
    # 07:58 and 07:59 take T2 to 08:20:00, and the later one sets out last; from 08:00 on no traveller gets there
    small.write("matrix.csv", "scenario,origin,share,access_1800,C", [["base", "A", 50, 1, 1320]])
    found = journeys(small, *arguments)
    assert [(one["option"], one["seconds"], one["departure"]) for one in found] == [(1, 1260, 28_740)]
    # with two minutes of walking from B, T1 at 08:00 gets there at 08:12, before T2
    small.write("walks.csv", "from_stop_id,to_stop_id,seconds", [["B", "C", 120]])
    small.write("matrix.csv", "scenario,origin,share,access_1800,C", [["base", "A", 50, 1, 780]])
    found = journeys(small, *arguments)
    assert [(one["option"], one["seconds"], one["departure"]) for one in found] == [(1, 720, 28_800)]
    # T2 a minute before that: each of the two is the fastest of some departure
    times[-1][1:3] = ["8:11:00", "8:11:00"]
    small.write("stop_times.txt", STOP_TIMES, times)
    small.write("matrix.csv", "scenario,origin,share,access_1800,C", [["base", "A", 50, 1, 720]])
    found = journeys(small, *arguments)
    assert [(one["option"], one["seconds"], one["departure"]) for one in found] == [
        (1, 720, 28_740),
        (2, 720, 28_800),
    ]
    assert [[leg["trip_id"] for leg in one["legs"]] for one in found] == [["T2"], ["T1", None]]


def test_the_same_journey_of_several_departures_is_one(small: Room) -> None:
    # each of the four departures walks, and arrives at a minute of its own
    small.write("matrix.csv", "scenario,origin,share,access_1800,D", [["base", "C", 50, 1, 100]])
    found = journeys(small, "--origin", "C", "--destination", "D", "--all-options")
    assert [(one["option"], one["seconds"], one["departure"]) for one in found] == [(1, 100, 28_680)]


# Stands in for `ttm`: prints a matrix of A to C with 780 seconds, and answers questions by the seconds of a departure.
FAKE = """\
#!/usr/bin/python3
import json, os, sys
HEAD = "scenario,origin,share,access_1800,C\\n"
if "--ask" not in sys.argv:
    sys.exit(print(HEAD + "base,A,75,1,780"))
seconds, block = json.load(open(os.path.join(os.path.dirname(sys.argv[0]), "seconds"))), []
for line in sys.stdin:
    block.append(line.rstrip("\\n"))
    if line == "\\n":
        asked, block = dict(zip(block[::2], block[1::2])), []
        assert asked["--from"] == asked["--to"] and asked["--share"] == "100", asked
        body = HEAD + "base,A,100,1,%s\\n" % seconds[asked["--from"]]
        sys.stdout.write("answer 0 %d\\n%s" % (len(body), body))
        sys.stdout.flush()
"""


def test_each_journey_is_compared_with_a_run_of_its_departure(small: Room) -> None:
    times = [["T1", "8:00:00", "8:00:00", "A", 1], ["T1", "8:12:00", "8:12:00", "C", 2]]
    times += [["T2", "7:59:30", "7:59:30", "A", 1], ["T2", "8:11:00", "8:11:00", "C", 2]]
    small.write("stop_times.txt", STOP_TIMES, times)
    words = ["explain", str(small.folder), *EXPLAIN, "--origin", "A", "--destination", "C", "--all-options"]
    words += ["--share", "75", "--program", script(small.folder / "fake", FAKE)]
    # three of four departures take at most the 780 seconds of 07:58; 07:59 and 08:00 have the two journeys
    Path(small.path("seconds")).write_text(json.dumps({"07:59": 720, "08:00": 720}))
    out, said, status = small.ran(*words, "--json")
    assert status == 0, said
    found = json.loads(out)["journeys"]
    assert [(one["option"], one["departure"], one["seconds"]) for one in found] == [(1, 28_740, 720), (2, 28_800, 720)]
    Path(small.path("seconds")).write_text(json.dumps({"07:59": 720, "08:00": 721}))
    error = failure(small, *words)
    text = "from A to C at 08:00, base: ttm has 721 seconds, and this search, which isn't proved, has 720 seconds"
    assert error["line"] == f"the travel times differ: {text}"


def test_the_journeys_of_all_departures_with_the_program(small: Room, program: str) -> None:
    small.write("late.csv", "action,id,seconds", [["shift_trip", "T1", 120]])
    pairs = small.write("pairs.csv", "origin,destination", [["A", "D"], ["A", "B"], ["D", "C"]])
    words = ["explain", str(small.folder), small.path("late.csv"), *EXPLAIN, "--footpaths", small.path("walks.csv")]
    words += ["--pairs", pairs, "--all-options", "--program", program]
    found = answer(small, *words, table=expected.TABLES["explain"][0])["journeys"]
    listed = [(one["scenario"], one["destination"], one["departure"], one["seconds"]) for one in found]
    assert listed == [
        # T1 and T2, and the walk to D: at 08:31:40; two minutes later from A, T1 still gets T2 at 08:15
        *[("base", "D", 28_800, 1900), ("late", "D", 28_860, 1840)],
        *[("base", "B", 28_800, 600), ("late", "B", 28_860, 660)],
        *[("base", "C", None, None), ("late", "C", None, None)],
    ]


def test_without_json_the_same_text_is_printed(small: Room) -> None:
    words = ["explain", str(small.folder), *EXPLAIN, "--footpaths", small.path("walks.csv"), "--origin", "A"]
    words += ["--destination", "D", "--matrix", small.path("matrix.csv")]
    printed = small.ran(*words)
    _, said, status = small.ran(*words, "--json", "--out", small.path("text"))
    assert (printed[1], printed[2], said, status) == ("", 0, "", 0)
    assert Path(small.path("text")).read_text() == printed[0]
    for words in (["prepare", "--check", str(small.folder)], ["walks", str(small.folder)]):
        out, said, status = small.ran(*words)
        assert small.ran(*words, "--json")[1:] == (out + said, status)


def test_areas_on_standard_output(small: Room) -> None:
    pytest.importorskip("shapely")
    words = ["isochrones", "--feed", str(small.folder), "--origin", "A", "--bands", "10,40", "--speed", "1"]
    words += ["--detour", "1", "--walk", "600", small.path("matrix.csv")]
    out, said, status = small.ran(*words, "--out", "-")
    assert (status, said) == (0, "2 areas; 0 stops without coordinates\n")
    found = json.loads(out)
    assert list(found) == ["type", "features"] and found["type"] == "FeatureCollection"
    names = ["origin", "scenario", "percentile", "minutes", "square_km", "reached"]
    assert [list(feature["properties"]) for feature in found["features"]] == [names, names]
    wide, narrow = (feature["properties"] for feature in found["features"])
    # a circle of 600 metres around A, whose polygon has 48 corners; in 40 minutes also one of 440 around D, apart
    assert narrow == narrow | {"origin": "A", "scenario": "base", "percentile": 50, "minutes": 10, "reached": 1}
    assert narrow["square_km"] == pytest.approx(24 * 0.36 * 0.1305262, rel=1e-3)
    assert wide["square_km"] == pytest.approx(24 * (0.36 + 0.1936) * 0.1305262, rel=1e-3)
    own = answer(small, *words, "--out", "-", table=expected.COLLECTION)
    assert own["features"] == found["features"] and own["type"] == found["type"]


def test_areas_in_a_file(small: Room) -> None:
    pytest.importorskip("shapely")
    words = ["isochrones", "--feed", str(small.folder), "--origin", "A", "--bands", "10,40", small.path("matrix.csv")]
    found = answer(small, *words, "--out", small.path("areas.json"), table=expected.AREAS_FILE)
    assert (found["file"], found["areas"]) == (small.path("areas.json"), 2)
    assert len(json.loads(Path(small.path("areas.json")).read_text())["features"]) == 2
