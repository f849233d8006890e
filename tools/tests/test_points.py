"""From door to door: the folder of points by hand, what is refused, and travel times as a second program finds them."""

import csv
import json
import random
import shlex
import subprocess
from pathlib import Path
from typing import Any

import pytest

from helpers import CALENDAR, METRE, STOP_TIMES, Room
from streets import write_osm
from test_damages import damaged
from ttm_tools.places import folder as points_folder

PROGRAM_TESTS = Path(__file__).resolve().parents[2] / "tests/program"
PACE = ("--speed", "1", "--detour", "1")


def place(north: float, east: float) -> list[float]:
    """Degrees near the place of `Room.stops`."""
    return [north * METRE, 1 + east * METRE]


def feed(room: Room) -> str:
    """A feed with two stops, 1,000 metres apart, and a bus between them at 08:00."""
    folder = room.folder / "town"
    folder.mkdir()
    inner = Room(folder, room.captured)
    inner.stops(("A", 0, 0), ("B", 0, 1000))
    inner.write("routes.txt", "route_id", [["R"]])
    inner.write("calendar.txt", *CALENDAR)
    inner.write("trips.txt", "route_id,service_id,trip_id", [["R", "M", "T"]])
    times = [["T", "08:10:00", "08:10:00", "A", 1], ["T", "08:13:00", "08:13:00", "B", 2]]
    inner.write("stop_times.txt", STOP_TIMES, times)
    return str(folder)


def cells(room: Room, name: str = "cells.csv") -> str:
    """Two cells, 30 and 40 metres from A and B, and one far away."""
    rows = [
        ["1", *place(30, 0), "One", 50, 3, 0.5],
        ["2", *place(0, 1040), "", "", 1, 2],
        ["3", *place(9000, 0), "", "", 0, 0],
    ]
    return room.write(name, "id,lat,lon,name,width,people,jobs", rows)


def test_the_folder_has_what_a_run_needs(room: Room) -> None:
    town, out = feed(room), room.path("doors")
    _, errors, status = room.ran("points", town, cells(room), "--out", out, "--limit", "300", *PACE)
    whole = f"{out}: 3 points, 4 footpaths; the arguments of a run are in {out}/words.txt"
    rounded = "1 number with decimals rounded for ttm"
    by_how_much = "rounded, ttm counts 3 jobs instead of 2.5: use ttm-tools access, which counts decimals"
    assert (errors.splitlines(), status) == (["1 point without a stop in reach: 3", rounded, by_how_much, whole], 0)
    result = {str(path.relative_to(out)): path.read_text() for path in Path(out).rglob("*") if path.is_file()}
    assert result["footpaths.csv"] == "from_stop_id,to_stop_id,seconds\nA,1,30\nB,2,40\n1,A,30\n2,B,40\n"
    assert result["origins.csv"] == result["destinations.csv"] == "stop_id\n1\n2\n3\n"
    assert result["opportunities_people.csv"] == "stop_id,opportunities\n1,3\n2,1\n3,0\n"
    assert result["opportunities_jobs.csv"] == "stop_id,opportunities\n1,1\n2,2\n3,0\n"
    assert result["words.txt"].startswith(f"--feed {out}/feed\n--footpaths {out}/footpaths.csv\n--walk 300\n")
    stops = result["feed/stops.txt"].splitlines()
    assert stops[0] == "stop_id,stop_lat,stop_lon,location_type,parent_station,stop_name"
    assert [line.split(",")[0] for line in stops[1:]] == ["A", "B", "1", "2", "3"]
    assert stops[3] == f"1,{30 * METRE!r},1.0,,,One"
    points = list(csv.DictReader(result["feed/points.csv"].splitlines()))
    assert [(row["id"], row["name"], row["width"], row["people"], row["jobs"]) for row in points] == [
        ("1", "One", "50", "3", "0.5"),
        ("2", "2", "", "1", "2"),
        ("3", "3", "", "0", "0"),
    ]
    for name in ("routes.txt", "calendar.txt", "trips.txt", "stop_times.txt"):
        assert result[f"feed/{name}"] == (Path(town) / name).read_text()


def test_the_scenarios_of_a_plan_stay_beside_its_feed(room: Room) -> None:
    town, out = feed(room), room.path("doors")
    Path(town, "scenarios").mkdir()
    Path(town, "scenarios", "today.csv").write_text("action,id,seconds\nremove_trip,T,\n")
    Path(town, "new_stops.csv").write_text("stop_id\nB\n")
    Path(town, "footpaths.csv").write_text("from_stop_id,to_stop_id,seconds\n")
    assert room.ran("points", town, cells(room), "--out", out, *PACE)[2] == 0
    result = {str(path.relative_to(town)): path.read_text() for path in Path(town).rglob("*.csv")}
    del result["footpaths.csv"]
    assert {name: Path(out, "feed", name).read_text() for name in result} == result
    assert not Path(out, "feed", "footpaths.csv").exists()


def test_points_without_a_stop_in_reach_are_left_out_if_asked_for(room: Room) -> None:
    out = room.path("doors")
    _, errors, _ = room.ran("points", feed(room), cells(room), "--out", out, "--leave-out", "--limit", "300", *PACE)
    assert errors.splitlines()[0] == "1 point without a stop in reach, left out: 3"
    assert "which are left out, have" not in errors
    rows = [["1", *place(30, 0), 3, 0.5], ["3", *place(9000, 0), 4, 0], ["4", *place(0, 9000), 1.5, 0.25]]
    far = room.write("far.csv", "id,lat,lon,people,jobs", rows)
    words = ["points", room.path("town"), far, "--limit", "300", *PACE]
    errors = room.ran(*words, "--out", room.path("far"), "--leave-out")[1]
    sentence = "points without a stop in reach, which are left out, have 5.5 people, 0.25 jobs"
    assert errors.splitlines()[1] == sentence
    assert sentence not in room.ran(*words, "--out", room.path("all"))[1]
    assert Path(out, "origins.csv").read_text() == "stop_id\n1\n2\n"
    assert Path(out, "footpaths.csv").read_text().splitlines()[1:] == ["A,1,30", "B,2,40", "1,A,30", "2,B,40"]
    assert Path(out, "feed", "points.csv").read_text().count("\n") == 3


def test_several_files_have_roles_and_collisions_get_the_name_of_the_file(room: Room) -> None:
    town, out = feed(room), room.path("doors")
    homes = room.write("homes.csv", "id,lat,lon,people", [["A", *place(30, 0), 3], ["2", *place(20, 0), 4]])
    schools = room.write("schools.csv", "lon,lat,id,places", [[*reversed(place(0, 990)), "2", 70]])
    _, errors, _ = room.ran("points", town, "--origins", homes, "--destinations", schools, "--out", out, *PACE)
    assert errors.splitlines()[:2] == [
        f"{homes}: identifiers begin with homes: in the feed, since one of them already exists",
        f"{out}: 3 points, 8 footpaths; the arguments of a run are in {out}/words.txt",
    ]
    assert Path(out, "origins.csv").read_text() == "stop_id\nhomes:A\nhomes:2\n"
    assert Path(out, "destinations.csv").read_text() == "stop_id\n2\n"
    assert Path(out, "opportunities_people.csv").read_text() == "stop_id,opportunities\nhomes:A,3\nhomes:2,4\n"
    assert Path(out, "opportunities_places.csv").read_text() == "stop_id,opportunities\n2,70\n"
    assert room.ran("points", town, "--origins", homes, "--out", room.path("no"))[2] == 2


@pytest.mark.parametrize(
    "header, row, message",
    [
        ("id,lat", ["1", 0.1], "record 1: no column lon"),
        ("id,lat,lon", ["", 0.1, 1], "record 2: id is empty"),
        ("id,lat,lon", ["1", "x", 1], "record 2: lat 'x' is invalid; allowed: degrees from -90 to 90"),
        ("id,lat,lon", ["1", 0.1, 181], "record 2: lon '181' is invalid; allowed: degrees from -180 to 180"),
        ("id,lat,lon", ["1", 0, "-0.0"], "record 2: lat and lon are 0 and 0, which is not a place"),
        ("id,lat,lon,jobs", ["1", 0.1, 1, -1], "record 2: jobs '-1' is invalid; allowed: a number from 0 on"),
        (
            "id,lat,lon,width",
            ["1", 0.1, 1, 0],
            "record 2: width '0' is invalid; allowed: metres above 0, up to 1,000,000, or nothing",
        ),
    ],
)
def test_bad_points_are_refused_with_file_and_record(room: Room, header: str, row: list[Any], message: str) -> None:
    town, bad = feed(room), room.write("bad.csv", header, [row])
    room.refused(f"{bad}: {message}", "points", town, bad, "--out", room.path("doors"))


def test_what_is_there_twice_or_not_at_all_is_refused(room: Room) -> None:
    town = feed(room)
    twice = room.write("twice.csv", "id,lat,lon", [["1", 0.1, 1], ["2", 0.1, 1], ["1", 0.2, 1]])
    arguments = ["--out", room.path("doors")]
    room.refused(f"{twice}: record 4: 1 occurs twice", "points", town, twice, *arguments)
    none = room.write("none.csv", "id,lat,lon", [])
    room.refused(f"{none}: no points", "points", town, none, *arguments)
    room.refused(f"{room.path('x.csv')}: No such file or directory", "points", town, room.path("x.csv"), *arguments)
    room.refused(f"{town}: already exists, and isn't empty", "points", town, cells(room), "--out", town)


def test_what_ttm_does_not_take_is_told_before_anything_is_written(room: Room, monkeypatch: pytest.MonkeyPatch) -> None:
    arguments = ["points", feed(room), cells(room), "--out", room.path("doors"), "--limit", "300", *PACE]
    helps = "use --leave-out for points without a stop in reach, or take parts of the region"
    monkeypatch.setattr(points_folder, "MOST_STOPS", 4)
    message = "2 locations of the feed and 3 points are more than the 4 that ttm takes"
    room.refused(f"{room.path('cells.csv')}: {message}: {helps}", *arguments)
    assert room.ran(*arguments, "--leave-out")[2] == 0
    monkeypatch.setattr(points_folder, "MOST_STOPS", 65535)
    monkeypatch.setattr(points_folder, "MOST_FOOTPATHS", 3)
    message = "4 walks are more than the 3 that ttm takes: use a shorter --limit, or fewer points"
    arguments[arguments.index("--out") + 1] = room.path("more")
    room.refused(f"{room.path('cells.csv')}: {message}; {helps}", *arguments)


def test_areas_become_points_inside_of_them(room: Room) -> None:
    pytest.importorskip("geopandas")
    south, west = place(20, -10)
    north, east = place(40, 10)
    ring = [[west, south], [east, south], [east, north], [west, north], [west, south]]
    feature: dict[str, Any] = {"type": "Feature", "geometry": {"type": "Polygon", "coordinates": [ring]}}
    feature["properties"] = {"id": 7, "kind": "a text", "people": 12}
    areas = Path(room.path("areas.geojson"))
    areas.write_text(json.dumps({"type": "FeatureCollection", "features": [feature]}))
    out = room.path("doors")
    assert room.ran("points", feed(room), str(areas), "--out", out, *PACE)[2] == 0
    assert Path(out, "footpaths.csv").read_text().splitlines()[1:] == ["A,7,30", "7,A,30"]
    assert Path(out, "opportunities_people.csv").read_text() == "stop_id,opportunities\n7,12\n"
    import geopandas

    packed = room.path("areas.gpkg")
    geopandas.read_file(areas).to_crs(3857).to_file(packed, driver="GPKG")
    again = room.path("again")
    assert room.ran("points", room.path("town"), packed, "--out", again, *PACE)[2] == 0
    assert Path(again, "footpaths.csv").read_text().splitlines()[1:] == ["A,7,30", "7,A,30"]
    del feature["properties"]["id"]
    areas.write_text(json.dumps({"type": "FeatureCollection", "features": [feature]}))
    room.refused(f"{areas}: no column id", "points", room.path("town"), str(areas), "--out", room.path("more"))


def test_points_are_reached_along_streets_too(room: Room) -> None:
    pytest.importorskip("osmium")
    pytest.importorskip("scipy")
    nodes = {1: (0.0, 0.0), 2: (100.5, 0.0), 3: (100.5, 1040.0)}
    streets = write_osm(room.folder / "s.osm", nodes, [([1, 2, 3], {"highway": "footway"})])
    points = room.write("cells.csv", "id,lat,lon", [["1", *place(29.5, 0)], ["2", *place(100.5, 79.8)]])
    out = room.path("doors")
    assert room.ran("points", feed(room), points, "--streets", streets, "--out", out, *PACE)[2] == 0
    walks = Path(out, "footpaths.csv").read_text().splitlines()[1:]
    # A lies on the street, 1 too, 29.5 metres on, and 2 another 71 and 79.8 on
    assert walks[:2] == ["A,1,30", "A,2,181"] and "1,2,151" in walks and "2,1,151" in walks


# Beside a second program.


def draw_town(room: Room, draw: random.Random) -> str:
    """A town of eight stops within a square of 1,600 metres, with change times and a walk of its own."""
    folder = room.folder / "drawn"
    folder.mkdir()
    inner = Room(folder, room.captured)
    inner.stops(*((f"s{number}", draw.uniform(0, 1600), draw.uniform(0, 1600)) for number in range(8)))
    inner.write("routes.txt", "route_id", [["R"]])
    inner.write("calendar.txt", *CALENDAR)
    trips = [f"t{number}" for number in range(12)]
    inner.write("trips.txt", "route_id,service_id,trip_id", [["R", "M", trip] for trip in trips])
    rows = []
    for trip in trips:
        time = 8 * 3600 + draw.randrange(0, 1500)
        for number, stop in enumerate(draw.sample(range(8), 4)):
            clock = f"{time // 3600:02}:{time // 60 % 60:02}:{time % 60:02}"
            rows.append([trip, clock, clock, f"s{stop}", number])
            time += draw.randrange(30, 200)
    inner.write("stop_times.txt", STOP_TIMES, rows)
    changes = [["s0", "s0", 2, 120], ["s1", "s2", 2, 45]]
    inner.write("transfers.txt", "from_stop_id,to_stop_id,transfer_type,min_transfer_time", changes)
    return str(folder)


class Doors:
    """Journeys from point to point by the functions of the plain program on the feed without points: a walk, rides
    with walks between them, and a walk. Points are no stops here.
    """

    def __init__(self, plain: Any, town: str, footpaths: str, limit: int) -> None:
        self.plain, self.feed, self.limit = plain, plain.Feed(town), limit
        self.count, direct = len(self.feed.stops), self.feed.direct_footpaths(None)
        self.own: dict[tuple[Any, Any], int] = {}
        for row in plain.rows(footpaths):
            a, b, seconds = row["from_stop_id"], row["to_stop_id"], int(row["seconds"])
            if a in self.feed.stop_no and b in self.feed.stop_no:
                pair = (self.feed.stop_no[a], self.feed.stop_no[b])
                direct[pair] = min(direct.get(pair, plain.NEVER), seconds)
            else:
                self.own[self.feed.stop_no.get(a, a), self.feed.stop_no.get(b, b)] = seconds
        self.feet = plain.closed_footpaths(self.count, direct, limit)
        self.changes = self.feed.change_times()

    def to_stops(self, point: str) -> list[int]:
        """The least walk from a point to each stop."""
        first = [self.own.get((point, stop), self.plain.NEVER) for stop in range(self.count)]
        return [time if time <= self.limit else self.plain.NEVER for time in self.plain.walked(first, first, self.feet)]

    def durations(self, runs: Any, points: list[str], origin: str, departure: int, rides: int) -> list[int | None]:
        """The least duration to each point."""
        never, access = self.plain.NEVER, self.to_stops(origin)
        ready = [departure + time if time < never else never for time in access]
        ride = [never] * self.count
        for _ in range(rides):
            arrived = ride[:]
            for run in runs:
                aboard = False
                for event in run:
                    if aboard and event.alight:
                        arrived[event.stop] = min(arrived[event.stop], event.arrive)
                    aboard = aboard or (event.board and ready[event.stop] <= event.depart)
            ride = arrived
            changed = [time + more if time < never else never for time, more in zip(ride, self.changes)]
            walked = self.plain.walked(ride, changed, self.feet)
            ready = [min(a, departure + b if b < never else never) for a, b in zip(walked, access)]
        return [self.duration(origin, point, departure, ride, access) for point in points]

    def duration(self, origin: str, point: str, departure: int, ride: list[int], access: list[int]) -> int | None:
        if origin == point:
            return 0
        onward = [self.least_walk(stop, point) for stop in range(self.count)]
        never = self.plain.NEVER
        afoot = [a + self.own.get((stop, point), never) for stop, a in enumerate(access)]
        on_foot = min([self.own.get((origin, point), never), *[time for time in afoot if time <= self.limit]])
        by_ride = min(a + b for a, b in zip(ride, onward))
        found = min(departure + on_foot, by_ride)
        return found - departure if found < never else None

    def least_walk(self, stop: int, point: str) -> int:
        """The least walk from a stop to a point within the limit."""
        chains = [time + self.own.get((other, point), self.plain.NEVER) for other, time in self.feet[stop]]
        best = min([self.own.get((stop, point), self.plain.NEVER), *chains])
        return int(best if best <= self.limit else self.plain.NEVER)


@pytest.mark.parametrize("seed", range(4))
def test_drawn_towns_have_the_durations_of_journeys_that_begin_and_end_with_a_walk(
    room: Room, program: str, monkeypatch: pytest.MonkeyPatch, seed: int
) -> None:
    monkeypatch.syspath_prepend(str(PROGRAM_TESTS))
    import plain

    draw = random.Random(seed)
    town, limit = draw_town(room, draw), draw.choice([300, 420, 600])
    names = [f"p{number}" for number in range(7)]
    rows = [[name, *place(draw.uniform(-200, 1800), draw.uniform(-200, 1800))] for name in names]
    out = room.path("doors")
    points = room.write("points.csv", "id,lat,lon", rows)
    assert room.ran("points", town, points, "--limit", str(limit), "--out", out)[2] == 0
    arguments = shlex.split(Path(out, "words.txt").read_text())
    doors, reached = Doors(plain, town, f"{out}/footpaths.csv", limit), 0
    for minute in range(0, 20, 4):
        own = f"--date 20260504 --from 08:{minute:02} --to 08:{minute:02} --trips 3 --share 100 --within 1800"
        own += " --workers 1 --tries 1 --back 0 --ahead 0"
        ran = subprocess.run([program, *arguments, *own.split()], capture_output=True, text=True, check=True)
        args = plain.options([*arguments, *own.split()])
        runs = plain.network(doors.feed, args, None)
        for row in csv.DictReader(ran.stdout.splitlines()):
            expected = doors.durations(runs, names, row["origin"], args.departures[0], 3)
            assert [int(row[name]) if row[name] else None for name in names] == expected, (seed, minute, row["origin"])
            reached += sum(time is not None and time > limit for time in expected)
    assert reached > 0, f"seed {seed}: nobody rides"


@pytest.mark.parametrize("seed", range(3))
def test_whatever_is_damaged_is_told_in_a_line(room: Room, seed: int) -> None:
    pytest.importorskip("osmium")
    pytest.importorskip("scipy")
    draw, town = random.Random(seed), feed(room)
    nodes = {1: (0.0, 0.0), 2: (100.5, 0.0), 3: (100.5, 1040.0)}
    streets = write_osm(room.folder / "s.osm", nodes, [([1, 2, 3], {"highway": "footway"})])
    inputs = [cells(room), f"{town}/stops.txt", streets]
    whole = {name: Path(name).read_bytes() for name in inputs}
    statuses = set()
    for trial in range(20):
        name, out = draw.choice(inputs), room.path(f"doors{trial}")
        Path(name).write_bytes(damaged(draw, whole[name]))
        before = room.names()
        arguments = ["points", town, inputs[0], "--out", out, *(["--streets", streets] if name == streets else [])]
        _, errors, status = room.ran(*arguments)
        statuses.add(status)
        lines = [line for line in errors.splitlines() if line.startswith("ttm-tools points: ")]
        assert (status, len(lines)) in ((0, 0), (1, 1)), (seed, trial, errors)
        assert status == 0 or room.names() == before
        Path(name).write_bytes(whole[name])
    assert statuses == {0, 1}


def test_columns_of_text_are_labels_and_columns_may_have_other_names(room: Room) -> None:
    near = [["p", *place(30, 0), "East", 3], ["q", *place(0, 1040), "", 4]]
    path, out = room.write("p.csv", "cell,y,x,quarter,jobs", near), room.path("doors")
    arguments = ["--id", "cell", "--lat", "y", "--lon", "x", "--out", out]
    assert room.ran("points", *arguments, feed(room), path)[2] == 0
    assert Path(out, "labels.csv").read_text() == "id,quarter\np,East\nq,\n"
    assert Path(out, "feed", "points.csv").read_text().splitlines()[0] == "id,name,lat,lon,width,jobs"


def test_a_column_with_a_number_and_a_text_is_refused(room: Room) -> None:
    path = room.write("p.csv", "id,lat,lon,jobs", [["p", *place(30, 0), "many"], ["q", *place(0, 1040), 4]])
    message = f"{path}: record 2: jobs 'many' is invalid; allowed: a number from 0 on"
    room.refused(message, "points", "--out", room.path("doors"), feed(room), path)


def test_heights_of_cells_are_kept(room: Room) -> None:
    rows = [["p", *place(30, 0), 50, 80], ["q", *place(0, 1040), 60, ""]]
    path, out = room.write("p.csv", "id,lat,lon,width,height", rows), room.path("doors")
    assert room.ran("points", "--out", out, feed(room), path)[2] == 0
    result = Path(out, "feed", "points.csv").read_text().splitlines()
    assert result[0] == "id,name,lat,lon,width,height" and [item.split(",")[4:] for item in result[1:]] == [
        ["50", "80"],
        ["60", "60"],
    ]
