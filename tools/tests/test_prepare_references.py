"""Feeds that are clipped or merged stay feeds by the reference: no record refers to a removed one without a report."""

from pathlib import Path

import pytest

from helpers import CALENDAR, STOP_TIMES, Room, Table

OTHERS: dict[str, tuple[str, Table]] = {
    "agency.txt": (
        "agency_id,agency_name,agency_timezone",
        [["X", "Ex", "Europe/Berlin"], ["Y", "Why", "Europe/Berlin"]],
    ),
    "fare_attributes.txt": ("fare_id,price", [["one", 1], ["two", 2], ["all", 3]]),
    "fare_rules.txt": ("fare_id,route_id,origin_id", [["one", "R", ""], ["two", "Q", ""], ["one", "", "z"]]),
    "pathways.txt": ("pathway_id,from_stop_id,to_stop_id", [["p", "A", "B"], ["q", "C", "D"]]),
    "stop_areas.txt": ("area_id,stop_id", [["a", "A"], ["a", "D"]]),
    "shapes.txt": ("shape_id,shape_pt_lat,shape_pt_lon,shape_pt_sequence", [["s", 1, 1, 1], ["t", 1, 1, 1]]),
    "translations.txt": (
        "table_name,field_name,language,translation,record_id,record_sub_id",
        [
            ["stops", "stop_name", "fr", "Un", "A", ""],
            ["stops", "stop_name", "fr", "Quatre", "D", ""],
            ["stop_times", "stop_headsign", "fr", "Un", "T", "0"],
            ["stop_times", "stop_headsign", "fr", "Un", "V", "0"],
            ["feed_info", "feed_publisher_name", "fr", "Moi", "", ""],
        ],
    ),
    "attributions.txt": ("attribution_id,route_id,organization_name", [["1", "R", "Er"], ["2", "Q", "Qu"]]),
}


def write_feed(room: Room, name: str = "in") -> None:
    """T of R from A to B, V of Q from C to D; and files that refer to these."""
    (room.folder / name).mkdir()
    places: Table = [[stop, 50 + n / 10, 8, zone] for n, (stop, zone) in enumerate(zip("ABCD", "yyzz"))]
    room.write(f"{name}/stops.txt", "stop_id,stop_lat,stop_lon,zone_id", places)
    room.write(f"{name}/routes.txt", "route_id,agency_id", [["R", "X"], ["Q", "Y"]])
    room.write(f"{name}/calendar.txt", *CALENDAR)
    room.write(
        f"{name}/trips.txt", "route_id,service_id,trip_id,shape_id", [["R", "M", "T", "s"], ["Q", "M", "V", "t"]]
    )
    calls: Table = [["T", "08:00:00", "08:00:00", "A", 0], ["T", "08:10:00", "08:10:00", "B", 1]]
    calls += [["V", "08:00:00", "08:00:00", "C", 0], ["V", "08:10:00", "08:10:00", "D", 1]]
    room.write(f"{name}/stop_times.txt", STOP_TIMES, calls)
    for file, (header, rows) in OTHERS.items():
        room.write(f"{name}/{file}", header, rows)


def firsts(room: Room, name: str) -> list[str]:
    return [line.split(",")[0] for line in (room.folder / "out" / name).read_text().splitlines()[1:]]


@pytest.mark.parametrize("arguments", [("--routes", "R"), ("--agency", "X"), ("--box", "7,49,9,50.15")])
def test_what_refers_to_what_went_goes_too(room: Room, arguments: tuple[str, str]) -> None:
    write_feed(room)
    out, errors, status = room.ran("prepare", *arguments, "--out", room.path("out"), room.path("in"))
    assert (out, status) == ("", 0), errors
    kept = {name: firsts(room, name) for name in OTHERS}
    assert kept == {
        "agency.txt": ["X", "Y"],
        "fare_attributes.txt": ["one", "all"],
        "fare_rules.txt": ["one"],
        "pathways.txt": ["p"],
        "stop_areas.txt": ["a"],
        "shapes.txt": ["s"],
        "translations.txt": ["stops", "stop_times", "feed_info"],
        "attributions.txt": ["1"],
    }
    assert (
        "removed with what they name: attributions.txt 1 record, fare_attributes.txt 1 record, fare_rules.txt 2 "
        "records, pathways.txt 1 record, shapes.txt 1 record, stop_areas.txt 1 record, translations.txt 2 records"
        in errors.splitlines()
    )
    assert "left out: stops.txt 2 of 4, routes.txt 1 of 2, trips.txt 1 of 2" in errors


def test_feeds_of_two_time_zones_are_refused(room: Room) -> None:
    write_feed(room, "one")
    write_feed(room, "two")
    room.write("two/agency.txt", "agency_id,agency_name,agency_timezone", [["X", "Ex", "Europe/London"]])
    arguments = ["prepare", "--out", room.path("out"), room.path("one"), room.path("two")]
    message = "the feeds have several time zones, Europe/Berlin (one), Europe/London (two)"
    room.refused(f"agency.txt: {message}: --same-clock takes their times as those of one", *arguments)
    assert room.ran(*arguments, "--same-clock")[2] == 0


def test_merged_feeds_keep_fares_pathways_and_the_publisher(room: Room) -> None:
    for name, days in (("one", ["20260101", "20261231"]), ("two", ["20260201", "20270131"])):
        write_feed(room, name)
        header = "feed_publisher_name,feed_publisher_url,feed_lang,feed_start_date,feed_end_date"
        room.write(f"{name}/feed_info.txt", header, [[name, f"http://{name}", "de", *days]])
    assert room.ran("prepare", "--out", room.path("out"), room.path("one"), room.path("two"))[2] == 0
    out = Path(room.path("out"))
    assert firsts(room, "fare_attributes.txt") == ["one", "two", "all", "two:one", "two:two", "two:all"]
    assert (out / "fare_rules.txt").read_text().splitlines()[4:] == [
        "two:one,two:R,",
        "two:two,two:Q,",
        "two:one,,two:z",
    ]
    assert (out / "pathways.txt").read_text().splitlines()[3:] == ["two:p,two:A,two:B", "two:q,two:C,two:D"]
    assert (out / "translations.txt").read_text().splitlines()[6:8] == [
        "stops,stop_name,fr,Un,two:A,",
        "stops,stop_name,fr,Quatre,two:D,",
    ]
    assert (out / "feed_info.txt").read_text().splitlines()[1:] == ['"one, two",http://one,de,20260201,20261231']


def test_a_nameless_agency_is_named_where_feeds_are_merged(room: Room) -> None:
    for name in ("one", "two"):
        write_feed(room, name)
        room.write(f"{name}/agency.txt", "agency_name,agency_timezone", [[name, "Europe/Berlin"]])
        room.write(f"{name}/routes.txt", "route_id", [["R"], ["Q"]])
    _, errors, status = room.ran("prepare", "--out", room.path("out"), room.path("one"), room.path("two"))
    assert status == 0 and "one: agency one added to 6 records" in errors.splitlines()
    out = Path(room.path("out"))
    assert (out / "agency.txt").read_text().splitlines()[1:] == ["one,Europe/Berlin,one", "two,Europe/Berlin,two"]
    assert (out / "routes.txt").read_text().splitlines()[1:] == ["R,one", "Q,one", "two:R,two", "two:Q,two"]
