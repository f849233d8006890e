"""Service of a day: by hand on three stops, and compared with plain loops on drawn runs."""

import random
from pathlib import Path
from typing import Any

import numpy as np
import pytest

from helpers import CALENDAR, EASTWARDS, METRE, STOP_TIMES, Room, read
from ttm_tools.measures.service import ServiceCalls, Period, ServiceRuns, vehicles_in

NONE = np.zeros(0, np.int64)


@pytest.fixture
def line(room: Room) -> Room:
    """A, B and C lie 1 and 2 km apart. Route R takes 2 and 4 minutes, from A at 8:00, 8:10 and 8:30 and back at 8:20; a
    night bus leaves A at 24:10 and arrives at B 4 minutes later. The scenario cut takes out the trip at 8:30.
    """
    kilometre = 1000 * EASTWARDS / METRE  # on the ellipsoid
    room.stops(("A", 0, 0), ("B", 0, kilometre), ("C", 0, 3 * kilometre))
    room.write("routes.txt", "route_id,route_short_name", [["R", "7"], ["Q", ""]])
    room.write("calendar.txt", *CALENDAR)
    trips: list[list[Any]] = [["R", "M", f"T{number}", 0] for number in range(3)]
    room.write(
        "trips.txt", "route_id,service_id,trip_id,direction_id", [*trips, ["R", "M", "S", 1], ["Q", "M", "N", ""]]
    )
    calls = []
    for trip, start, way in (("T0", 0, "ABC"), ("T1", 10, "ABC"), ("T2", 30, "ABC"), ("S", 20, "CBA")):
        later = (0, 2, 6) if trip != "S" else (0, 4, 6)
        for number, (stop, minutes) in enumerate(zip(way, later)):
            calls.append([trip, *[f"08:{start + minutes:02}:00"] * 2, stop, number])
    night = [["N", "24:10:00", "24:10:00", "A", 1], ["N", "24:14:00", "24:14:00", "B", 2]]
    room.write("stop_times.txt", STOP_TIMES, [*calls, *night])
    room.write("cut.csv", "action,id,seconds", [["remove_trip", "T2", ""]])
    return room


def service(line: Room, *arguments: str) -> list[dict[str, str]]:
    out, _, status = line.ran("service", str(line.folder), *arguments, "--date", "20260504")
    assert status == 0
    return read(out)


def numbers(row: dict[str, str]) -> list[str]:
    return list(row.values())[5:]


def test_a_direction_of_a_route_by_hand(line: Room) -> None:
    base, cut, back, *_ = service(line, line.path("cut.csv"))
    assert [base[name] for name in ("scenario", "route", "route_name", "direction")] == ["base", "R", "7", "0"]
    # gaps of 10 and 20 minutes; 3 km in 6 minutes, three times
    assert numbers(base) == ["3", "15", "20", "08:00:00", "08:36:00", "30", "1", "0.3", "9"]
    assert numbers(cut) == ["2", "10", "10", "08:00:00", "08:16:00", "30", "1", "0.2", "6"]
    assert (back["direction"], numbers(back)[:3]) == ("1", ["1", "", ""])


def test_periods_have_what_leaves_in_them(line: Room) -> None:
    rows = [row for row in service(line, "--periods", "08:00,08:15,24:10,25:00") if row["direction"] == "0"]
    assert [(row["period"], row["departures"], row["headway_minutes"]) for row in rows] == [
        ("08:00 to 08:15", "2", "10"),
        ("08:15 to 24:10", "1", ""),
    ]
    night = [row for row in service(line, "--by", "route", "--periods", "24:10,25:00")]
    assert [(row["route"], row["route_name"], row["first_departure"]) for row in night] == [("Q", "Q", "24:10:00")]


def test_all_together_and_what_a_scenario_takes(line: Room) -> None:
    out, errors, _ = line.ran("service", str(line.folder), line.path("cut.csv"), "--by", "all", "--date", "20260504")
    base, cut = read(out)
    # 4 runs of 3 km and 6 minutes, and one of 1 km and 4 minutes; no two at once
    assert (base["departures"], base["vehicle_hours"], base["vehicle_kilometres"]) == ("5", "0.47", "13")
    assert (cut["departures"], cut["vehicles"]) == ("4", "1")
    assert errors.splitlines() == [
        "base: 5 departures, 1 vehicle at once, 0.5 vehicle hours, 13.0 vehicle kilometres",
        "cut compared with base: departures 5 to 4, vehicles at once 1 to 1, vehicle hours 0.5 to 0.4, "
        "vehicle kilometres 13.0 to 10.0",
    ]


def test_departures_an_hour_by_stop(line: Room) -> None:
    rows = service(line, "--by", "stop", "--periods", "08:00,08:30")
    # from A at 8:00 and 8:10; from B at 8:02, 8:12, and back at 8:24; from C at 8:20
    assert [(row["stop_id"], row["departures"], row["departures_an_hour"]) for row in rows] == [
        ("A", "2", "4"),
        ("B", "3", "6"),
        ("C", "1", "2"),
    ]


def test_a_day_without_service_has_no_lines(line: Room) -> None:
    out, errors, status = line.ran("service", str(line.folder), "--date", "2026-06-04")
    assert (out.count("\n"), status) == (1, 0) and errors.startswith("base: 0 departures, 0 vehicles at once")


def test_headways_count_as_departures(line: Room) -> None:
    line.write("frequencies.txt", "trip_id,start_time,end_time,headway_secs", [["N", "22:00:00", "23:00:00", 1200]])
    (row,) = [row for row in service(line) if row["route"] == "Q"]
    assert numbers(row)[:5] == ["3", "20", "20", "22:00:00", "22:44:00"]


def test_the_page_has_minutes_by_hour_for_each_scenario(line: Room) -> None:
    page = line.path("p.html")
    arguments = [line.path("cut.csv"), "--page", page, "--out", line.path("o.csv")]
    assert line.ran("service", str(line.folder), *arguments, "--date", "20260504")[2] == 0
    text = Path(page).read_text()
    assert "<h2>Route 7, direction 0</h2>" in text
    assert "<tr><th>08</th><td>00 10 30</td><td>00 10</td></tr>" in text and "<tr><th>24</th><td>10</td>" in text


def test_the_page_takes_names_as_text(line: Room) -> None:
    line.write("routes.txt", "route_id,route_short_name", [["R", "<script>x</script>"], ["Q", ""]])
    page = line.path("p.html")
    arguments = ["--page", page, "--out", line.path("o.csv"), "--date", "20260504"]
    assert line.ran("service", str(line.folder), *arguments)[2] == 0
    assert "<script>" not in Path(page).read_text() and "Route &lt;script&gt;" in Path(page).read_text()


def test_lines_on_the_map_are_wider_where_more_run(line: Room, monkeypatch: pytest.MonkeyPatch) -> None:
    pytest.importorskip("matplotlib")
    from matplotlib.figure import Figure

    figures: list[Figure] = []
    monkeypatch.setattr(Figure, "savefig", lambda figure, *_, **__: figures.append(figure))
    arguments = ["--picture", line.path("m.png"), "--periods", "08:00,09:00", "--out", line.path("o.csv")]
    assert line.ran("service", str(line.folder), *arguments, "--date", "20260504")[2] == 0
    (axes,) = figures[0].axes
    (pieces,) = axes.collections
    # A to B and B to C have four an hour, both ways together
    assert list(pieces.get_linewidths()) == [2.2, 2.2]
    assert [text.get_text() for text in figures[0].legends[0].get_texts()] == ["4 to 8"]


def test_the_scenarios_of_a_plan_are_taken_with_today_first(line: Room) -> None:
    (line.folder / "scenarios").mkdir()
    line.write("scenarios/today.csv", "action,id,seconds", [["remove_trip", "N", ""]])
    line.write("scenarios/more.csv", "action,id,seconds", [])
    rows = service(line, "--by", "all")
    assert [(row["scenario"], row["departures"]) for row in rows] == [("today", "4"), ("more", "5")]


def test_what_a_scenario_adds_to_a_route_is_of_that_route(line: Room) -> None:
    line.write("routes.txt", "route_id,route_short_name", [["R", "7"], ["Q", ""], ["R@more", "7"], ["X@more", "9"]])
    trips: list[list[Any]] = [["R", "M", f"T{number}", 0] for number in range(3)]
    more: list[list[Any]] = [["R@more", "M", "S", 0], ["X@more", "M", "N", ""]]
    line.write("trips.txt", "route_id,service_id,trip_id,direction_id", [*trips, *more])
    (line.folder / "scenarios").mkdir()
    line.write("scenarios/today.csv", "action,id,seconds", [["remove_trip", "S", ""], ["remove_trip", "N", ""]])
    line.write("scenarios/more.csv", "action,id,seconds", [])
    result = [(row["scenario"], row["route"], row["departures"]) for row in service(line, "--by", "route")]
    assert result == [("today", "R", "3"), ("more", "R", "4"), ("today", "X@more", "0"), ("more", "X@more", "1")]


def test_wrong_words_are_told(line: Room) -> None:
    for arguments in (["--periods", "08:00"], ["--periods", "9:00,08:00"], ["--periods", "08:00,x"], ["--by", "x"]):
        assert line.ran("service", str(line.folder), "--date", "20260504", *arguments)[2] == 2
    other = line.write("scenarios.csv", "action,id,seconds", [])
    message = "two scenario files have the same name, or one is called base"
    line.refused(f"{other}, {other}: {message}", "service", str(line.folder), other, other, "--date", "20260504")


@pytest.mark.parametrize("seed", range(5))
def test_vehicles_are_those_that_a_count_by_the_second_finds(seed: int) -> None:
    draw = random.Random(seed)
    start = np.array([draw.randrange(100) for _ in range(12)])
    end = start + np.array([draw.randrange(1, 40) for _ in range(12)])
    running = ServiceRuns(np.arange(12), start, end, np.zeros(12), ServiceCalls(NONE, NONE, NONE, NONE, NONE))
    chosen = np.array([draw.random() < 0.8 for _ in range(12)])
    period = Period(draw.randrange(50), draw.randrange(60, 120))
    most = max(
        sum(item and begin <= second < last for item, begin, last in zip(chosen, start, end))
        for second in range(period.start, period.end)
    )
    assert vehicles_in(running, chosen, period) == most


def test_a_run_of_a_loop_counts_once_for_the_headway(room: Room) -> None:
    room.stops(*[(name, 0, 1000 * place) for place, name in enumerate("ABCD")])
    room.write("routes.txt", "route_id", [["R"]])
    room.write("calendar.txt", *CALENDAR)
    trips = {"T0": 480, "T1": 510, "T2": 540, "T3": 570}  # every 30 minutes, A-B-C-B-D with 5 minutes between two calls
    room.write("trips.txt", "route_id,service_id,trip_id", [["R", "M", trip] for trip in trips])
    times = [
        (trip, begin + 5 * number, stop, number) for trip, begin in trips.items() for number, stop in enumerate("ABCBD")
    ]
    calls = [[trip, *[f"{time // 60:02}:{time % 60:02}:00"] * 2, stop, number] for trip, time, stop, number in times]
    room.write("stop_times.txt", STOP_TIMES, calls)
    (row,) = service(room)
    assert (row["departures"], row["headway_minutes"], row["greatest_gap_minutes"]) == ("4", "30", "30")
    # B is left eight times: departures of vehicles, not of runs
    assert {row["stop_id"]: row["departures"] for row in service(room, "--by", "stop")} == {
        "A": "4",
        "B": "8",
        "C": "4",
    }


def test_a_day_without_periods_has_24_hours(line: Room, monkeypatch: pytest.MonkeyPatch) -> None:
    # A is left at 8:00, 8:10, 8:30 and 24:10; B at 8:02, 8:12, 8:32 and 8:24
    rates = {row["stop_id"]: row["departures_an_hour"] for row in service(line, "--by", "stop")}
    assert rates["A"] == rates["B"] == "0.1667"
    rates = {
        row["stop_id"]: row["departures_an_hour"] for row in service(line, "--by", "stop", "--periods", "00:00,12:00")
    }
    assert (rates["A"], rates["B"]) == ("0.25", "0.3333")


def test_stops_without_coordinates_are_reported(line: Room) -> None:
    path = line.folder / "stops.txt"
    said = line.ran("service", str(line.folder), "--date", "20260504")[1]
    assert "coordinates" not in said
    rows = path.read_text().splitlines()
    path.write_text("\n".join([rows[0], rows[1], "B,,,,", rows[3], "Z,,,,", ""]))
    out, said, status = line.ran("service", str(line.folder), "--date", "20260504")
    assert status == 0 and numbers(read(out)[0])[-1] == "9"  # straight from A to C
    sentence = "vehicles call at 1 stop without coordinates: kilometres and speeds are those of straight lines between"
    assert said.splitlines()[-1] == f"{sentence} the others"


def test_the_scenarios_of_a_plan_have_its_order(line: Room) -> None:
    (line.folder / "scenarios").mkdir()
    names = ["today", "zebra", "more", "alpha"]
    for name in reversed(names):
        line.write(f"scenarios/{name}.csv", "action,id,seconds", [])
    words = " ".join(["--feed planned", *(f"planned/scenarios/{name}.csv" for name in names)])
    Path(line.path("scenarios.words")).write_text(f"{words}\n")
    assert [row["scenario"] for row in service(line, "--by", "all")] == names
    Path(line.path("scenarios.words")).unlink()
    assert [row["scenario"] for row in service(line, "--by", "all")] == ["today", "alpha", "more", "zebra"]


@pytest.mark.parametrize("seed", range(4))
def test_drawn_routes_with_loops_run_as_plain_loops_say(room: Room, seed: int) -> None:
    draw = random.Random(seed)
    east = {name: draw.randrange(20_000) for name in "ABCDE"}  # metres along the equator
    room.stops(*[(name, 0, metres * EASTWARDS / METRE) for name, metres in east.items()])
    room.write("routes.txt", "route_id", [["R"]])
    room.write("calendar.txt", *CALENDAR)
    ways = [[draw.choice("ABCDE") for _ in range(draw.randint(2, 7))] for _ in range(3)]
    trips = {f"T{number}": (draw.choice(ways), draw.randrange(0, 86_400)) for number in range(12)}
    room.write("trips.txt", "route_id,service_id,trip_id", [["R", "M", trip] for trip in trips])
    calls = {
        trip: [(begin + 120 * place, stop) for place, stop in enumerate(way)] for trip, (way, begin) in trips.items()
    }
    rows = [
        [trip, *[f"{time // 3600}:{time // 60 % 60:02}:{time % 60:02}"] * 2, stop, place]
        for trip, own in calls.items()
        for place, (time, stop) in enumerate(own)
    ]
    room.write("stop_times.txt", STOP_TIMES, rows)
    (row,) = service(room)
    metres = sum(abs(east[a] - east[b]) for own in calls.values() for (_, a), (_, b) in zip(own, own[1:]))
    assert float(row["vehicle_kilometres"]) == pytest.approx(metres / 1000, abs=0.006)
    first = {
        stop: [
            next(time for time, at in own[:-1] if at == stop)
            for own in calls.values()
            if stop in [at for _, at in own[:-1]]
        ]
        for stop in east
    }
    most = max(map(len, first.values()))
    gaps = {stop: np.diff(sorted(times)) / 60 for stop, times in first.items() if len(times) == most}
    found = float(row["headway_minutes"] or "nan"), float(row["greatest_gap_minutes"] or "nan")
    assert any(
        found == pytest.approx((float(np.median(own)), float(own.max())), abs=1e-3) for own in gaps.values() if len(own)
    )
