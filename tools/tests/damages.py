"""Feeds that are drawn by a seed, small and right, and what publishers do to them."""

import contextlib
import csv
import io
import random
import subprocess
from pathlib import Path
from typing import Callable, Sequence

from random_feeds import Drawn
from ttm_tools import cli
from ttm_tools.gtfs import feeds, likely
from ttm_tools.gtfs.check import check
from ttm_tools.gtfs.fault_report import fault_lines, fault_rows
from ttm_tools.gtfs.fields import FILES

Records = list[list[str]]
WORDS = "--date 20260506 --from 07:50 --to 08:10 --trips 3 --walk 600 --share 50 --within 1800 --workers 1 --tries 1"
NUMBERS = ("1.0", "0.0", "2.00", "+1", "-1", "x", "", "1e3", "4294967296", "00000000001", "1,5", " 1", "7")
TIMES = (
    "8:5:00",
    "08:05",
    "8:05:00 AM",
    "25:61:00",
    "168:00:00",
    "x",
    "",
    "08:05:00.0",
    " 09:00:00",
    "7:00:0",
    "-1:00:00",
)
DATES = ("2026-05-04", "20260230", "4.5.2026", "", "x", "20240229", "19000229")
IDS = ("", " ", "nowhere", "é", "caf\udce9")
NUMBER_COLUMNS = "location_type stop_sequence pickup_type drop_off_type exception_type headway_secs".split()
NUMBER_COLUMNS += ["transfer_type", "monday", "sunday"]


class Damaged:
    """A drawn feed with places, of which some fields and records are damaged."""

    def __init__(self, seed: int, count: int | None = None) -> None:
        drawn = Drawn(seed)
        self.random = random.Random(seed)
        self.files = {name: records for name, records in drawn.files.items() if name in FILES}
        self.stations = drawn.stations
        self.words = drawn.words
        self.place_stops()
        self.done: list[str] = []
        for _ in range(self.random.randint(1, 4) if count is None else count):
            damage = self.random.choice(DAMAGES)
            if damage(self):
                self.done.append(damage.__name__)

    def place_stops(self) -> None:
        header, *stops = self.files["stops.txt"]
        header += ["stop_lat", "stop_lon", "stop_name"]
        for number, stop in enumerate(stops):
            stop += [
                f"{50 + number * self.random.random() / 100:.5f}",
                f"{8 + self.random.random() / 100:.5f}",
                "Platz",
            ]

    def put_into(self, folder: Path) -> None:
        folder.mkdir(exist_ok=True)
        for name, records in self.files.items():
            with open(folder / name, "w", newline="", encoding="utf-8", errors="surrogateescape") as file:
                csv.writer(file, lineterminator=self.random.choice(["\n", "\r\n"])).writerows(records)

    def some_record(self, name: str) -> list[str] | None:
        """A record of a file, or none where it has none."""
        records = self.files.get(name, [])[1:]
        return self.random.choice(records) if records else None

    def put(self, name: str, columns: Sequence[str], texts: Sequence[str]) -> bool:
        """Writes a text into one of some columns of a record."""
        record = self.some_record(name)
        places = [self.files[name][0].index(column) for column in columns if record and column in self.files[name][0]]
        if record is None or not places:
            return False
        place = self.random.choice(places)
        if place < len(record):
            record[place] = self.random.choice(texts)
        return True

    def some_file(self) -> str:
        return self.random.choice([*self.files, "stop_times.txt", "trips.txt", "frequencies.txt"])


def a_number(feed: Damaged) -> bool:
    return feed.put(feed.some_file(), NUMBER_COLUMNS, NUMBERS)


def a_walk(feed: Damaged) -> bool:
    return feed.put("transfers.txt", ["min_transfer_time", "transfer_type", "from_stop_id", "to_stop_id"], NUMBERS)


def a_time(feed: Damaged) -> bool:
    columns = ["arrival_time", "departure_time", "start_time", "end_time"]
    return feed.put(feed.some_file(), columns, TIMES)


def a_date(feed: Damaged) -> bool:
    return feed.put(
        feed.random.choice(["calendar.txt", "calendar_dates.txt"]), ["date", "start_date", "end_date"], DATES
    )


def an_identifier(feed: Damaged) -> bool:
    name = feed.some_file()
    columns = [file for file in feed.files.get(name, [[]])[0] if file.endswith("_id")]
    return feed.put(name, columns, IDS)


def spaces(feed: Damaged) -> bool:
    name = feed.some_file()
    record = feed.some_record(name)
    places = [place for place, file in enumerate(feed.files.get(name, [[]])[0]) if file.endswith("_id")]
    if not record or not places or places[0] >= len(record):
        return False
    record[places[0]] = feed.random.choice([" {}", "{} ", " {} ", "{}\t", "\u00a0{}"]).format(record[places[0]])
    return True


def a_copy(feed: Damaged) -> bool:
    name = feed.some_file()
    record = feed.some_record(name)
    if record is None:
        return False
    feed.files[name].insert(feed.random.randint(1, len(feed.files[name])), list(record))
    return True


def another_of_the_same_name(feed: Damaged) -> bool:
    name = feed.some_file()
    record, other = feed.some_record(name), feed.some_record(name)
    if not record or not other:
        return False
    feed.files[name].append([record[0], *other[1:]])
    return True


def a_lost_record(feed: Damaged) -> bool:
    name = feed.random.choice(["stops.txt", "routes.txt", "trips.txt"])
    if len(feed.files.get(name, [])) < 2:
        return False
    del feed.files[name][feed.random.randint(1, len(feed.files[name]) - 1)]
    return True


def a_time_that_goes_back(feed: Damaged) -> bool:
    return feed.put("stop_times.txt", ["arrival_time", "departure_time"], ["00:00:10", "05:00:00", "40:00:00"])


def no_time(feed: Damaged) -> bool:
    record = feed.some_record("stop_times.txt")
    if not record or len(record) < 3:
        return False
    record[1] = record[2] = ""
    return True


def a_call_at_a_station(feed: Damaged) -> bool:
    return bool(feed.stations) and feed.put("stop_times.txt", ["stop_id"], feed.stations)


def a_short_record(feed: Damaged) -> bool:
    record = feed.some_record(feed.some_file())
    if not record:
        return False
    del record[feed.random.randint(1, len(record)) :]
    return True


def a_long_record(feed: Damaged) -> bool:
    record = feed.some_record(feed.some_file())
    if record is not None:
        record += ["", "more"]
    return record is not None


def a_headway(feed: Damaged) -> bool:
    return feed.put("frequencies.txt", ["headway_secs"], ["0", "90.5", "-60", "600.0"])


def empty_headways(feed: Damaged) -> bool:
    return feed.put("frequencies.txt", ["start_time", "end_time"], ["08:00:00", "07:00:00"])


def a_text_that_is_not_utf_8(feed: Damaged) -> bool:
    return feed.put("stops.txt", ["stop_name"], ["Caf\udce9", "M\udcfchle"])


def a_kind_of_place(feed: Damaged) -> bool:
    return feed.put("stops.txt", ["location_type"], ["1", "2", "3", "4", "5"])


def a_blank_line(feed: Damaged) -> bool:
    name = feed.some_file()
    if name not in feed.files:
        return False
    feed.files[name].insert(feed.random.randint(1, len(feed.files[name])), feed.random.choice([[], [" "], ["", ""]]))
    return True


def headers_with_spaces(feed: Damaged) -> bool:
    header = feed.files[feed.some_file()][0]
    header[0] = " " + header[0]
    return True


DAMAGES: list[Callable[[Damaged], bool]] = [
    a_number,
    a_walk,
    a_time,
    a_date,
    an_identifier,
    spaces,
    a_copy,
    another_of_the_same_name,
    a_lost_record,
    a_time_that_goes_back,
    no_time,
    a_call_at_a_station,
    a_short_record,
    a_long_record,
    a_headway,
    empty_headways,
    a_text_that_is_not_utf_8,
    a_kind_of_place,
    a_blank_line,
    headers_with_spaces,
]


def no_file(feed: Damaged) -> bool:
    del feed.files[feed.random.choice(list(feed.files))]
    return True


def no_column(feed: Damaged) -> bool:
    header = feed.files[feed.random.choice(list(feed.files))][0]
    place = feed.random.randrange(len(header))
    header[place] = feed.random.choice(["", "other", header[place].upper(), header[place] + "\t"])
    return True


def no_bytes(feed: Damaged) -> bool:
    feed.files[feed.random.choice(list(feed.files))] = []
    return True


LASTING: list[Callable[[Damaged], bool]] = [no_file, no_column, no_bytes]  # which no rule mends


def matrix_of(program: str, folder: Path, arguments: Sequence[str] = WORDS.split()) -> tuple[int, bytes, bytes]:
    """The program's answer to a feed: its status, its matrix, and its error output."""
    ran = subprocess.run([program, "--feed", str(folder), *arguments], capture_output=True)
    return ran.returncode, ran.stdout, ran.stderr


def prepared(folder: Path, *arguments: str) -> Path:
    """The feed of a folder made ready in another one."""
    out = folder.with_name(folder.name + "-out")
    with contextlib.redirect_stderr(io.StringIO()) as errors:
        status = cli.main(["prepare", "--allow-loss", "--out", str(out), *arguments, str(folder)])
    if status:
        raise AssertionError(f"{folder}: {errors.getvalue()}")
    return out


def right_feed_differs(program: str, seed: int, room: Path) -> str:
    """Prepares a correct feed, and returns how its matrix changes; an empty text if it stays the same."""
    feed = Damaged(seed, 0)
    feed.put_into(room / str(seed))
    before = matrix_of(program, room / str(seed))
    after = matrix_of(program, prepared(room / str(seed)))
    return "" if before == after and before[0] == 0 else f"seed {seed}: {before} and {after}"


def damage_stays(program: str, seed: int, room: Path) -> str:
    """What is wrong where a damaged feed is mended: the program must take it; nothing where it does."""
    feed = Damaged(seed)
    feed.put_into(room / str(seed))
    status, _, printed = matrix_of(program, prepared(room / str(seed), "--repair"))
    return "" if (status, printed) == (0, b"") else f"seed {seed}: {', '.join(feed.done)}: {printed.decode()}"


def first_fault_differs(program: str, seed: int, room: Path) -> str:
    """Checks a damaged feed, and returns how the first fault differs from the program's line; an empty text if it
    doesn't.
    """
    feed, folder = Damaged(seed), room / str(seed)
    if seed % 5 == 0:
        feed.random.choice(LASTING)(feed)
    feed.put_into(folder)
    if seed % 7 == 0 and (folder / "stops.txt").exists():  # with a byte-order mark
        (folder / "stops.txt").write_bytes(b"\xef\xbb\xbf" + (folder / "stops.txt").read_bytes())
    read = feeds.read_feed(folder, room)
    faults = check(read)
    assert all(likely.sentences(read)) and len(list(fault_rows(faults))) >= len(faults)
    mine = "".join(line + "\n" for line in list(fault_lines(faults))[:1])
    printed = matrix_of(program, folder)[2].decode()
    return "" if mine == printed else f"seed {seed}: {', '.join(feed.done)}: {mine!r} and {printed!r}"
