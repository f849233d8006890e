"""Travel times: by hand on a small feed, and all rows of the generated town equal to those of `ttm`."""

from __future__ import annotations

import csv
import random
from pathlib import Path
from typing import Any

import pytest

from helpers import MONDAY, SMALL, Direct, layer_of, points, refusal, rows_of, run, times_in, town, write_feed

WALK = 600
SHARES = (25, 50, 75)


def small(tmp_path: Path, **more: Any) -> dict[str, Any]:
    """The parameters of a run on the small feed from A at 08:00."""
    ends = {"ORIGINS": points(["A"]), "ORIGIN_ID": "id", "DESTINATIONS": points(["B", "C"]), "DESTINATION_ID": "id"}
    times = {"DATE": MONDAY, "FROM": "08:00", "TO": "08:00"}
    out = {"OUTPUT": "TEMPORARY_OUTPUT", "PAIRS": "TEMPORARY_OUTPUT"}
    return {"FEED": str(write_feed(tmp_path / "feed")), **ends, **times, **out, **more}


def test_one_departure_by_hand(with_program: str, tmp_path: Path) -> None:
    found = run("traveltimes", **small(tmp_path))
    assert rows_of(found["OUTPUT"]) == [("A", "B", 600, 2)]
    assert rows_of(found["PAIRS"]) == [("A", "B", 600), ("A", "C", 1800)]
    assert (found["ORIGINS_UNREACHED"], found["DESTINATIONS_UNREACHED"]) == (0, 0)


def test_percentiles_by_hand(with_program: str, tmp_path: Path) -> None:
    # the departures at 07:58, 07:59, 08:00 take 720, 660, 600 seconds to B; that at 08:01 never arrives
    window = {"FROM": "07:58", "TO": "08:01", "PERCENTILES": "100, 25 50,75", "DAYS_AFTER": 0}
    found = run("traveltimes", **small(tmp_path, **window))
    assert rows_of(found["PAIRS"]) == [("A", "B", 600, 660, 720, None), ("A", "C", 1800, 1860, 1920, None)]
    assert rows_of(found["OUTPUT"]) == [("A", "B", 600, 660, 720, None, 2)]


def test_longest_travel_time(with_program: str, tmp_path: Path) -> None:
    found = run("traveltimes", **small(tmp_path, MAX_TRAVEL=10))
    assert rows_of(found["PAIRS"]) == [("A", "B", 600), ("A", "C", None)]
    assert rows_of(found["OUTPUT"], "nearest", "reached") == [("B", 1)]


def test_on_foot_nobody_rides(with_program: str, tmp_path: Path) -> None:
    found = run("traveltimes", **small(tmp_path, MAX_RIDES=0, ORIGINS=points(["A", "B"])))
    assert rows_of(found["PAIRS"]) == [("A", "B", None), ("A", "C", None), ("B", "B", 0), ("B", "C", None)]
    assert rows_of(found["OUTPUT"]) == [("A", None, None, 0), ("B", "B", 0, 1)]


def test_a_field_for_each_destination(with_program: str, tmp_path: Path) -> None:
    found = run("traveltimes", **small(tmp_path, EACH=True))
    assert rows_of(found["OUTPUT"], "B_p50_s", "C_p50_s") == [(600, 1800)]
    many = layer_of([([f"d{n}"], "POINT(-0.1 51.52)") for n in range(101)])
    message = refusal("traveltimes", **small(tmp_path, EACH=True, DESTINATIONS=many))
    assert "101 fields are more than 100" in message


def test_places_far_from_any_stop_are_named(with_program: str, tmp_path: Path) -> None:
    far = layer_of([(["A"], "POINT(-0.10 51.50)"), (["far"], "POINT(-0.3 51.3)")])
    log: list[str] = []
    found = run("traveltimes", **small(tmp_path, ORIGINS=far, log=log))
    assert rows_of(found["OUTPUT"]) == [("A", "B", 600, 2), ("far", None, None, 0)]
    assert found["ORIGINS_UNREACHED"] == 1
    assert "Origins: 1 without a stop within the longest walk: far" in log


def test_a_date_without_trips_is_warned_of(with_program: str, tmp_path: Path) -> None:
    log: list[str] = []
    run("traveltimes", **small(tmp_path, DATE="2026-05-06", log=log))
    assert "Date: no trip runs on 2026-05-06; the nearest date with trips is 2026-05-04" in log


def drawn_places(feed: Path, name: str, count: int, seed: int) -> dict[str, tuple[float, float]]:
    """Places around stops of the town, some of them far from any."""
    with (feed / "stops.txt").open(newline="") as file:
        stops = [row for row in csv.DictReader(file) if row["stop_lat"]]
    draw = random.Random(seed)
    chosen = draw.sample(stops, count)
    move = [draw.choice((0.0005, 0.003, 0.02)) for _ in chosen]
    return {
        f"{name}{place:03d}": (
            float(stop["stop_lon"]) + draw.uniform(-by, by),
            float(stop["stop_lat"]) + draw.uniform(-by, by),
        )
        for place, (stop, by) in enumerate(zip(chosen, move))
    }


@pytest.fixture(scope="session")
def town_feed(tmp_path_factory: pytest.TempPathFactory) -> Path:
    return town(tmp_path_factory.mktemp("town") / "feed")


def test_all_rows_of_the_town_equal_those_of_ttm(
    with_program: str, tools: str, town_feed: Path, tmp_path: Path
) -> None:
    origins, destinations = drawn_places(town_feed, "o", 120, 1), drawn_places(town_feed, "d", 12, 2)
    order = random.Random(3).sample(sorted(origins), len(origins))  # the layer's order is not that of the names
    layers = {
        "ORIGINS": layer_of([([name], "POINT({!r} {!r})".format(*origins[name])) for name in order]),
        "DESTINATIONS": layer_of([([name], "POINT({!r} {!r})".format(*place)) for name, place in destinations.items()]),
    }
    names = {"ORIGIN_ID": "id", "DESTINATION_ID": "id", "PERCENTILES": "25,50,75", "DATE": MONDAY}
    out = {"OUTPUT": "TEMPORARY_OUTPUT", "PAIRS": "TEMPORARY_OUTPUT"}
    found = run("traveltimes", FEED=str(town_feed), **layers, **names, **out)
    direct = Direct((tools, with_program), tmp_path / "direct", town_feed)
    direct.join(origins, destinations, WALK)
    window = ("--from", "08:00", "--to", "08:59", "--trips", "4", "--share", "25,50,75")
    expected = times_in(direct.matrix(WALK, *window))
    pairs = {(row[0], row[1]): row[2:] for row in rows_of(found["PAIRS"])}
    assert len(pairs) == 120 * 12
    assert pairs == {
        (origin, to): tuple(expected[origin, share][to] for share in SHARES)
        for origin in origins
        for to in destinations
    }
    assert sum(row[1] is None for row in pairs.values()) > 20  # some are not reached
    for name, nearest, *seconds, reached in rows_of(found["OUTPUT"]):
        middle = {to: time for to, time in expected[name, 50].items() if time is not None}
        assert reached == len(middle)
        if middle:
            assert seconds[1] == min(middle.values()) == middle[nearest]
            assert seconds == [expected[name, share][nearest] for share in SHARES]
        else:
            assert [nearest, *seconds] == [None] * 4


def test_identifiers_of_any_kind(with_program: str, tmp_path: Path) -> None:
    rows = [(["A"], "POINT(-0.10 51.50)"), (['a,"b'], "POINT(-0.10 51.50)"), (["1"], "POINT(-0.08 51.54)")]
    ends = {"ORIGINS": layer_of(rows), "DESTINATIONS": layer_of([([7], "POINT(-0.10 51.52)")], "id:integer")}
    found = run("traveltimes", **small(tmp_path, **ends))
    assert rows_of(found["PAIRS"]) == [("A", 7, 600), ('a,"b', 7, 600), ("1", 7, None)]
    assert rows_of(found["OUTPUT"], "nearest") == [(7,), (7,), (None,)]


def test_repairs_of_a_cached_feed_are_reported_again(with_program: str, tmp_path: Path) -> None:
    given = small(tmp_path)
    damaged = SMALL["stop_times.txt"].replace("08:10:00,08:10:00", "8:10,08:10:00")
    write_feed(tmp_path / "feed", {**SMALL, "stop_times.txt": damaged})
    logs: list[list[str]] = [[], []]
    for log in logs:
        run("traveltimes", **given, log=log)
    assert logs[0] == logs[1]
    (line,) = logs[0]
    assert line.startswith("The feed was repaired (time 1); ") and line.endswith("prepared.csv lists each record")
    assert Path(line.split("; ")[1].split(" lists")[0]).is_file()


def test_the_second_run_takes_the_prepared_feed(with_program: str, tmp_path: Path) -> None:
    changed = {**SMALL, "stop_times.txt": SMALL["stop_times.txt"].replace("08:10:00,08:10:00", "08:09:00,08:09:00")}
    given = small(tmp_path)
    first = rows_of(run("traveltimes", **given)["OUTPUT"])
    assert rows_of(run("traveltimes", **given)["OUTPUT"]) == first == [("A", "B", 600, 2)]
    write_feed(tmp_path / "feed", changed)
    assert rows_of(run("traveltimes", **given)["OUTPUT"]) == [("A", "B", 540, 2)]
