"""All faults of a feed: the first is the line that `ttm` prints; and what is likely not meant."""

import subprocess
from pathlib import Path

import pytest

from damages import WORDS, first_fault_differs
from helpers import CALENDAR, METRE, STOP_TIMES, Room
from ttm_tools.gtfs.feeds import read_feed


@pytest.fixture
def feed(room: Room) -> Room:
    """A right feed of three stops and a station, two trips, and a headway."""
    place = [50, 8]
    stops = [["A", *place, 0, ""], ["B", 50 + 500 * METRE, 8, "", "S"], ["C", 50, 8.01, "", "S"], ["S", *place, 1, ""]]
    room.write("stops.txt", "stop_id,stop_lat,stop_lon,location_type,parent_station", stops)
    room.write("routes.txt", "route_id", [["R"]])
    room.write("calendar.txt", *CALENDAR)
    room.write("trips.txt", "route_id,service_id,trip_id", [["R", "M", "T"], ["R", "M", "U"]])
    calls = [["T", "08:00:00", "08:00:00", "A", 1], ["T", "08:10:00", "08:10:00", "B", 2]]
    calls += [["U", "09:00:00", "09:00:00", "A", 1], ["U", "09:10:00", "09:10:00", "C", 2]]
    room.write("stop_times.txt", STOP_TIMES, calls)
    room.write("frequencies.txt", "trip_id,start_time,end_time,headway_secs", [["U", "09:00:00", "10:00:00", 600]])
    return room


def edit(room: Room, name: str, old: str, new: str) -> None:
    path = room.folder / name
    text = path.read_text()
    assert old in text
    path.write_text(text.replace(old, new))


def checked(room: Room, *arguments: str) -> tuple[list[str], int]:
    out, err, status = room.ran("prepare", "--check", *arguments, str(room.folder))
    assert err == ""
    return out.splitlines(), status


DAYS = [
    "runs from 2026-05-04 to 2026-05-31; the most, 7, on 2026-05-04",
    "runs on Mondays 7, Tuesdays 7, Wednesdays 7, Thursdays 7, Fridays 7, Saturdays 7, Sundays 7 (medians)",
]


def test_a_right_feed_has_no_faults(feed: Room) -> None:
    assert checked(feed) == (["no errors", *DAYS], 0)


def test_decimal_commas_in_coordinates_are_reported(feed: Room) -> None:
    edit(feed, "stops.txt", "A,50,8,", 'A,"50,5",8,')
    edit(feed, "stops.txt", "S,50,8,1,", 'S,50," -8,25 ",1,')
    lines, status = checked(feed)
    assert (lines[0], status) == ("no errors", 0)
    assert [line for line in lines if line.startswith("stops.txt")] == [
        "stops.txt: 1 stop without coordinates, or at 0 and 0, such as A",
        "stops.txt: 2 stops with a decimal comma in a coordinate, such as 50,5",
    ]


def test_all_faults_are_told_at_once_in_the_order_of_ttm(feed: Room) -> None:
    edit(feed, "stops.txt", "S,50,8,1,", "S,50,8,1.0,\nA,50,8,0,\n,50,8,x,")
    edit(feed, "trips.txt", "R,M,U", "R,M,U\nQ,,V")
    edit(feed, "stop_times.txt", "T,08:10:00,08:10:00,B,2", "T,08:10:00,8:5:00,S,1\nV,,,A,1\nW,08:00:00,08:00:00,A,x")
    edit(feed, "stop_times.txt", "U,09:10:00", "U,08:59:00")
    edit(feed, "frequencies.txt", "600", "0")
    lines, status = checked(feed, "--faults", feed.path("faults.csv"))
    assert status == 1
    assert [line for line in lines if line.startswith("ttm: ")] == [
        "ttm: stops.txt: record 5: bad number",
        "ttm: stops.txt: record 6: duplicate id",
        "ttm: stops.txt: record 7: empty id",
        "ttm: trips.txt: record 4: unknown route",
        "ttm: trips.txt: record 4: empty id",
        "ttm: stop_times.txt: record 3: unknown stop",
        "ttm: stop_times.txt: record 3: duplicate id",
        "ttm: stop_times.txt: record 3: bad time",
        "ttm: stop_times.txt: record 5: unknown trip",
        "ttm: stop_times.txt: record 5: bad number",
        "ttm: stop_times.txt: record 7: times go back",
        "ttm: stop_times.txt: record 4: no time",
        "ttm: frequencies.txt: record 2: bad number",
    ]
    message = "it is empty or a number: digits alone, 0 to 4294967295; 2 times: records 5, 7"
    assert lines[1] == f'  column location_type is "1.0"; {message}'
    single = (feed.folder / "faults.csv").read_text().splitlines()
    assert single[0] == "file,record,column,value,fault,allowed"
    assert single[3:5] == [
        "stops.txt,7,stop_id,,empty id,it may not be empty",
        'stops.txt,7,location_type,x,bad number,"it is empty or a number: digits alone, 0 to 4294967295"',
    ]


def test_missing_files_and_columns_are_told_and_what_refers_to_them_is_not(feed: Room) -> None:
    (feed.folder / "trips.txt").unlink()
    edit(feed, "stops.txt", "stop_id", "Stop_ID")
    lines, status = checked(feed)
    assert (lines[0], lines[2], status) == (
        "ttm: stops.txt: record 1: missing column",
        "ttm: trips.txt: missing file",
        1,
    )
    assert lines[4:] == ["stops.txt: the column 'Stop_ID' isn't read: is stop_id meant?"]


def test_what_is_likely_not_meant(feed: Room) -> None:
    edit(feed, "stops.txt", "A,50,8,", "A,0,0,")
    edit(feed, "stops.txt", "8.01", "9.01")
    edit(feed, "stop_times.txt", "U,09:00:00,09:00:00,A", "U,09:09:00,09:09:00,B")
    edit(feed, "stop_times.txt", "T,08:10:00,08:10:00,B,2\n", "")
    edit(feed, "calendar.txt", "20260531", "20260504")
    feed.write("transfers.txt", "from_stop_id,to_stop_id,transfer_type,min_transfer_time", [["A", "B", 3, ""]])
    assert checked(feed) == (
        [
            "no errors",
            "stops.txt: 1 stop without coordinates, or at 0 and 0, such as A",
            "runs from 2026-05-04 to 2026-05-04; the most, 7, on 2026-05-04",
            "runs on Mondays 7 (medians)",
            "stop_times.txt: 1 trip with a single stop",
            "stop_times.txt: 1 call reached at over 300 km/h; the fastest, record 4, at 4,331",
            "transfers.txt: 1 of 1 row isn't used (with a type above 2, for a route or trip, or without a time)",
        ],
        0,
    )


def test_calls_at_stations_are_counted(feed: Room) -> None:
    edit(feed, "stop_times.txt", "09:10:00,C", "09:10:00,S")
    lines, status = checked(feed)
    assert status == 1
    assert "stop_times.txt: 1 call at a station or another location that is not a stop" in lines


def test_no_feed_is_told_in_a_line(room: Room) -> None:
    room.refused(f"{room.folder}: no GTFS in it", "prepare", "--check", str(room.folder))
    room.refused(f"{room.path('x.zip')}: no such file or folder", "prepare", "--check", room.path("x.zip"))
    (room.folder / "x.zip").write_bytes(b"x")
    message = f"{room.path('x.zip')}: can't be unzipped: File is not a zip file"
    room.refused(message, "prepare", "--check", room.path("x.zip"))


@pytest.mark.parametrize("first", range(0, 200, 50))
def test_the_first_fault_is_what_the_program_tells(room: Room, program: str, first: int) -> None:
    for seed in range(first, first + 50):
        assert first_fault_differs(program, seed, room.folder) == ""


def first_line_of_both(room: Room, program: str, arguments: str = WORDS) -> str:
    """The first line of a check, which is what the program prints."""
    lines, status = checked(room)
    errors = subprocess.run([program, "--feed", str(room.folder), *arguments.split()], capture_output=True, text=True)
    assert (lines[0] + "\n", status) == (errors.stderr, 1)
    return lines[0]


def test_a_folder_in_place_of_a_file_comes_before_all_other_faults(feed: Room, program: str) -> None:
    edit(feed, "stops.txt", "A,50,8,0", "A,50,8,x")
    for name in ("frequencies.txt", "calendar.txt"):
        (feed.folder / name).unlink(missing_ok=True)
        (feed.folder / name).mkdir()
        assert first_line_of_both(feed, program) == f"ttm: {feed.path(name)}: read fault"


def test_the_row_with_which_there_are_too_many_footpaths(feed: Room, program: str) -> None:
    stations = [["S", 1, ""], ["T", 1, ""], ["N", 2, ""]]
    stops = [
        [f"{station}{number}", "", station] for station, count in (("S", 2000), ("T", 45)) for number in range(count)
    ]
    feed.write("stops.txt", "stop_id,location_type,parent_station", [*stations, ["A", "", "N"], ["B", 0, "A"], *stops])
    calls = [["T", "08:00:00", "08:00:00", "A", 1], ["T", "08:10:00", "08:10:00", "B", 2]]
    feed.write("stop_times.txt", STOP_TIMES, calls)
    rows = [["S", "S", 2, 60], ["T", "T", 2, 60], ["S", "N", 2, 60], ["S", "T", 3, 60], ["A", "A", 2, 60]]
    rows += [["A", "B", 2, number] for number in range(19)]  # 2000 * 1999 + 45 * 44 + 19 are 3,999,999
    header = "from_stop_id,to_stop_id,transfer_type,min_transfer_time"
    feed.write("transfers.txt", header, [*rows, ["S7", "S7", 2, 60], ["B", "A", 2, 1]])
    assert checked(feed)[0][0] == "no errors"
    feed.write("transfers.txt", header, [*rows, ["T1", "T", 2, 60], ["B", "A", 2, 1]])
    assert first_line_of_both(feed, program) == "ttm: transfers.txt: record 26: too many"
    message = "2 times: records 26, 27"
    assert (
        checked(feed)[0][1] == f"  at most 4,000,000 footpaths, one for each pair of stops of its two ends; {message}"
    )


def test_a_long_file_is_read_alike_by_pandas(feed: Room, monkeypatch: pytest.MonkeyPatch) -> None:
    pytest.importorskip("pandas")
    edit(feed, "stop_times.txt", "T,08:10:00,08:10:00,B,2", "T,08:10:00,08:10:00\n\nT,x,,B,3")
    path = Path(feed.path("stop_times.txt"))
    before = read_feed(feed.folder, feed.folder).tables["stop_times.txt"]
    monkeypatch.setattr("ttm_tools.gtfs.reading.SMALL", 0)
    for blank in ("", " \n"):
        path.write_text(path.read_text() + blank)
        table = read_feed(feed.folder, feed.folder).tables["stop_times.txt"]
        assert len(table) == len(before) + bool(blank)
        rows = [[table.text(name, row) for name in table.columns] for row in range(len(before))]
        assert rows == [[before.text(name, row) for name in before.columns] for row in range(len(before))]


def test_medians_of_an_even_number_of_days_have_their_half(feed: Room) -> None:
    feed.write("calendar.txt", CALENDAR[0], [])
    dates = [["M", 20260504, 1], ["M", 20260505, 1], ["N", 20260512, 1], ["N", 20260505, 1]]
    feed.write("calendar_dates.txt", "service_id,date,exception_type", dates)
    edit(feed, "trips.txt", "R,M,U", "R,N,U")
    # the trip T runs once, the trip U six times; from Monday, 4 May, to Tuesday, 12 May
    medians = "Mondays 0.5, Tuesdays 6.5, Wednesdays 0, Thursdays 0, Fridays 0, Saturdays 0, Sundays 0"
    assert checked(feed)[0][2] == f"runs on {medians} (medians)"


def test_a_call_across_the_date_line_is_not_fast(feed: Room) -> None:
    stops = [["A", 0.1, 179.999], ["B", 0.1, -179.999], ["C", 0.1, 179.99]]
    feed.write("stops.txt", "stop_id,stop_lat,stop_lon", stops)
    assert checked(feed) == (["no errors", *DAYS], 0)
    edit(feed, "stops.txt", "-179.999", "-79.999")
    said = "stop_times.txt: 1 call reached at over 300 km/h; the fastest, record 3, at 66,7"
    assert any(line.startswith(said) for line in checked(feed)[0])
