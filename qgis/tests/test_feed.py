"""Prepare a feed, and a feed as layers: by hand on a small feed."""

from __future__ import annotations

from pathlib import Path

import pytest

from helpers import MONDAY, SMALL, layer_of, refusal, rows_of, run, write_feed

DAMAGED = {**SMALL, "stop_times.txt": SMALL["stop_times.txt"].replace("08:10:00,08:10:00", "8:10,08:10:00")}
OUT = {"STOPS": "TEMPORARY_OUTPUT", "LINES": "TEMPORARY_OUTPUT"}


def test_a_feed_is_repaired(with_program: str, tmp_path: Path) -> None:
    feed = write_feed(tmp_path / "feed", DAMAGED)
    folder = tmp_path / "out"
    found = run("preparefeed", FEEDS=[str(feed)], OUTPUT=str(folder), REPAIRS="TEMPORARY_OUTPUT")
    assert [row[:5] for row in rows_of(found["REPAIRS"])] == [("stop_times.txt", 3, "arrival_time", "8:10", "time")]
    assert "08:10:00,08:10:00" in (folder / "stop_times.txt").read_text()
    numbers = {name: found[name] for name in ("STOPS", "TRIPS", "STOP_TIMES", "REPAIRED")}
    assert numbers == {"STOPS": 3, "TRIPS": 2, "STOP_TIMES": 4, "REPAIRED": 1}
    dates = [found[name] for name in ("FIRST_DATE", "LAST_DATE", "BUSIEST_WEEKDAY")]
    assert dates == ["2026-05-04", "2026-05-25", "2026-05-04"]


def test_a_damaged_feed_is_refused(with_program: str, tmp_path: Path) -> None:
    feed = write_feed(tmp_path / "feed", DAMAGED)
    message = refusal("preparefeed", FEEDS=[str(feed)], OUTPUT=str(tmp_path / "out"), REPAIR=False)
    assert "stop_times.txt" in message and "8:10" in message and "H:MM:SS" in message
    assert not (tmp_path / "out").exists() or not any((tmp_path / "out").iterdir())


def test_feeds_are_merged_and_clipped(with_program: str, tmp_path: Path) -> None:
    renamed = {name: text.replace("R1", "X1").replace("R2", "X2") for name, text in SMALL.items()}
    feeds = [str(write_feed(tmp_path / name, files)) for name, files in (("one", SMALL), ("two", renamed))]
    found = run("preparefeed", FEEDS=feeds, OUTPUT=str(tmp_path / "merged"), ROUTES="R1, X2")
    assert (found["TRIPS"], found["STOP_TIMES"]) == (2, 4)
    box = "POLYGON((-0.2 51.4, 0 51.4, 0 51.53, -0.2 51.53, -0.2 51.4))"  # without C
    area = layer_of([(["x"], box)], kind="Polygon", crs="EPSG:27700")
    found = run("preparefeed", FEEDS=feeds[:1], OUTPUT=str(tmp_path / "clipped"), AREA=area, ALLOW_LOSS=True)
    assert (found["STOPS"], found["TRIPS"]) == (2, 1)


def test_a_folder_that_is_not_empty_is_refused(with_program: str, tmp_path: Path) -> None:
    feed = write_feed(tmp_path / "feed")
    assert "is not empty" in refusal("preparefeed", FEEDS=[str(feed)], OUTPUT=str(feed))


def test_feed_as_layers_by_hand(with_program: str, tmp_path: Path) -> None:
    found = run("feedlayers", FEED=str(write_feed(tmp_path / "feed")), DATE=MONDAY, FROM="07:00", TO="09:00", **OUT)
    stops = rows_of(found["STOPS"], "stop_id", "name", "station", "routes", "departures", "per_hour")
    assert stops == [("A", "Alpha", "", "1", 1, 0.5), ("B", "Beta", "", "2, 1", 1, 0.5)] or stops == [
        ("A", "Alpha", "", "1", 1, 0.5),
        ("B", "Beta", "", "1, 2", 1, 0.5),
    ]
    names = ("route_id", "short_name", "long_name", "mode", "direction", "departures", "per_hour", "headway_min")
    lines = rows_of(found["LINES"], *names, "first", "last", "vehicles", "veh_hours")
    assert lines == [
        ("R1", "1", "North", "bus", None, 1, 0.5, None, "08:00", "08:10", 1, 0.17),
        ("R2", "2", "East", "tram", None, 1, 0.5, None, "08:15", "08:30", 1, 0.25),
    ]
    shapes = [feature.geometry().asWkt(2) for feature in found["LINES"].getFeatures()]
    assert shapes[0] == "MultiLineString ((-0.1 51.5, -0.1 51.52))"
    assert found["STOPS"].featureCount() == 2


def test_lines_follow_shapes(with_program: str, tmp_path: Path) -> None:
    shape = "shape_id,shape_pt_lat,shape_pt_lon,shape_pt_sequence\nS,51.52,-0.10,9\nS,51.51,-0.12,5\nS,51.50,-0.10,1\n"
    trips = "route_id,service_id,trip_id,direction_id,shape_id\nR1,MON,T1,1,S\nR2,MON,T2,0,\n"
    feed = write_feed(tmp_path / "feed", {**SMALL, "shapes.txt": shape, "trips.txt": trips})
    found = run("feedlayers", FEED=str(feed), DATE=MONDAY, **OUT)
    shapes = {row[0]: shape for row, shape in zip(rows_of(found["LINES"], "route_id"), found["LINES"].getFeatures())}
    assert shapes["R1"].geometry().asWkt(2) == "MultiLineString ((-0.1 51.5, -0.12 51.51, -0.1 51.52))"
    assert shapes["R1"]["direction"] == 1
    both = run("feedlayers", FEED=str(feed), DATE=MONDAY, BY=1, **OUT)
    assert [row[0] for row in rows_of(both["LINES"], "direction")] == [None, None]


def test_routes_without_a_type_count_as_buses(qgis: object) -> None:
    from ttm_processing.classes import mode_of

    wanted = {"0": "tram", "1": "metro", "2": "rail", "3": "bus", "": "bus", "109": "rail", "700": "bus", "900": "tram"}
    assert {given: mode_of(given) for given in wanted} == wanted


@pytest.mark.parametrize("day", [MONDAY])
def test_an_empty_period_is_refused(with_program: str, tmp_path: Path, day: str) -> None:
    feed = str(write_feed(tmp_path / "feed"))
    message = refusal("feedlayers", FEED=feed, DATE=day, FROM="08:00", TO="08:00", **OUT)
    assert "To: the period is empty" in message
