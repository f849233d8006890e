"""Drawn feeds with drawn errors whose repair is known: `prepare --repair` gives the clean feed again, but for what its
page says is lost, and lists each repair by its record and rule.
"""

import csv
import random
from collections import Counter
from dataclasses import dataclass
from pathlib import Path

import pytest

from drawn_feeds import TABLES, Row, clock, rows_of, seconds_of, write_drawn_feed
from helpers import Room

Note = tuple[str, int, str]  # file, record and rule of a repair


@dataclass
class Line:
    """A record as it is damaged, what becomes of it (`None` if it goes), and the rules that say so."""

    damaged: Row
    repaired: Row | None
    rules: tuple[str, ...] = ()


Feed = dict[str, list[Line]]


def read_feed(folder: Path) -> Feed:
    return {name: [Line(row, dict(row)) for row in rows_of(folder, name)] for name in TABLES}


class Damage:
    """Damages a feed, each time in a way whose repair is known."""

    def __init__(self, feed: Feed, draw: random.Random) -> None:
        self.feed, self.draw, self.number = feed, draw, 0

    def record(self, table: str, *rules: str, at_end: bool = False, **fields: str) -> None:
        """Adds a copy of a record with other fields, which the repair removes."""
        lines = self.feed[table]
        copied = self.draw.choice([line.repaired for line in lines if line.repaired is not None]) | fields
        lines.insert(len(lines) if at_end else self.draw.randrange(len(lines)), Line(copied, None, rules))

    def field(self, table: str, column: str, text: str, rule: str, repaired: str) -> None:
        """Writes a field of some record in another way, which the repair writes as it should be."""
        lines = [line for line in self.feed[table] if line.repaired is not None and not line.rules]
        line = self.draw.choice([line for line in lines if line.damaged[column]])
        now = repaired or line.damaged[column]
        line.damaged[column] = text.format(line.damaged[column])
        line.repaired, line.rules = (line.repaired or {}) | {column: now}, (rule,)

    def unknown(self) -> None:
        """Records that name what is nowhere."""
        self.record("stop_times", "unknown", trip_id="X1")
        self.record("stop_times", "unknown", stop_id="X2", stop_sequence="90")
        self.record("frequencies", "unknown", trip_id="X3")
        self.record("transfers", "unknown", to_stop_id="X4")

    def lost_trip(self) -> None:
        """A trip of an unknown route, with its calls and headways."""
        self.number += 1
        name = f"Y{self.number}"
        self.record("trips", "unknown", trip_id=name, route_id="X5")
        for number in range(3):
            self.record("stop_times", "trip", trip_id=name, stop_sequence=str(number))
        self.record("frequencies", "trip", trip_id=name)

    def repeated(self) -> None:
        """Records that occur again: whole, or with another name."""
        for table in ("stops", "routes", "trips"):
            self.record(table, "same", at_end=True)
        self.record("stops", "duplicate", at_end=True, stop_name="another")
        self.record("stop_times", "duplicate", at_end=True, stop_id="P0", arrival_time="", departure_time="")

    def values(self) -> None:
        """Fields that are no number, time or date."""
        self.record("stop_times", "value", stop_sequence="first")
        self.record("calendar_dates", "value", date="20261340")
        self.record("frequencies", "value", headway_secs="often")
        self.record("trips", "identifier", trip_id="")

    def forms(self) -> None:
        """Fields that are written in another way."""
        self.field("stop_times", "stop_sequence", "+{}", "number", "")
        self.field("calendar_dates", "exception_type", "{}.0", "number", "")
        self.field("frequencies", "headway_secs", "{}.00", "number", "")
        self.field("transfers", "min_transfer_time", "61.2", "number", "62")
        self.field("calendar", "start_date", "2026-05-03", "date", "20260503")
        self.field("calendar_dates", "date", "2026/5/4", "date", "20260504")
        for line in self.feed["stop_times"]:
            if line.repaired is not None and not line.rules and self.draw.random() < 0.1:
                line.damaged["departure_time"] += ".0"
                line.rules = ("time",)

    def goes_back(self) -> None:
        """A trip without another damage whose second call is an hour before its first one."""
        by_trip = dict[str, list[Line]]()
        for line in (*self.feed["trips"], *self.feed["frequencies"], *self.feed["stop_times"]):
            by_trip.setdefault(line.damaged["trip_id"], []).append(line)
        names = {line.damaged["trip_id"] for line in self.feed["frequencies"]}
        whole = [name for name, lines in by_trip.items() if name not in names and not any(it.rules for it in lines)]
        own = by_trip[self.draw.choice(whole)]  # its record of trips.txt, and its calls
        own[2].damaged |= {name: clock(seconds_of(own[1].damaged["arrival_time"]) - 3600) for name in OF_TIME}
        own[2].rules = ("back",)
        for line in own:
            line.repaired = None

    def past_midnight(self) -> None:
        """A trip whose times after midnight begin at 0 again."""
        trips = self.feed["trips"]
        trips.append(Line(trips[0].damaged | {"trip_id": "night"}, trips[0].damaged | {"trip_id": "night"}))
        begin = self.draw.randrange(23 * 3600, 86_400)
        for number in range(4):
            begin += self.draw.randrange(400, 1500)
            right = {"trip_id": "night", "stop_id": f"P{number}", "stop_sequence": str(number)}
            right |= {name: clock(begin) for name in OF_TIME}
            damaged = right | {name: clock(begin % 86_400) for name in OF_TIME}
            rules = ("midnight", "midnight") if damaged != right else ()
            self.feed["stop_times"].append(Line(damaged, right, rules))

    def overlapping(self) -> None:
        """Headways of one trip, the second of which begins before the first ends; and the third in another one."""
        kept = [line for line in self.feed["trips"] if line.repaired is not None and line.damaged["trip_id"] != "T0"]
        if not kept:
            return
        trip = self.draw.choice(kept).damaged["trip_id"]
        spans = [("06:00:00", "07:00:00"), ("06:20:00", "08:00:00"), ("06:30:00", "07:30:00")]
        self.feed["frequencies"] = [line for line in self.feed["frequencies"] if line.damaged["trip_id"] != trip]
        for number, (start, end) in enumerate(spans):
            row = {"trip_id": trip, "start_time": start, "end_time": end, "headway_secs": "600"}
            wanted = [row, row | {"start_time": "07:00:00"}, None][number]
            self.feed["frequencies"].append(Line(row, wanted, () if number == 0 else ("headway",)))


OF_TIME = ("arrival_time", "departure_time")


def write_feed(folder: Path, feed: Feed, original: Path) -> list[Note]:
    """Writes a damaged feed, and gives what its repair should list."""
    folder.mkdir()
    notes = list[Note]()
    for name, lines in feed.items():
        header = next(csv.reader((original / f"{name}.txt").read_text().splitlines()))
        with open(folder / f"{name}.txt", "w", newline="") as file:
            writer = csv.DictWriter(file, header, lineterminator="\n")
            writer.writeheader()
            writer.writerows(line.damaged for line in lines)
        notes += [(f"{name}.txt", number, rule) for number, line in enumerate(lines, 2) for rule in line.rules]
    return notes


@pytest.mark.parametrize("seed", range(16))
def test_a_drawn_feed_with_known_errors_is_repaired_to_what_it_was(room: Room, seed: int) -> None:
    draw = random.Random(seed)
    original = write_drawn_feed(room, draw, "clean")
    feed = read_feed(original)
    damage = Damage(feed, draw)
    kinds = [damage.unknown, damage.lost_trip, damage.lost_trip, damage.repeated, damage.values, damage.forms]
    for kind in draw.sample(kinds, 4):
        kind()
    last = draw.choice([damage.past_midnight, damage.goes_back, damage.overlapping])
    last()
    notes = write_feed(room.folder / "damaged", feed, original)
    out = room.folder / "out"
    words = ["prepare", "--repair", "--allow-loss", "--out", str(out), str(room.folder / "damaged")]
    _, errors, status = room.ran(*words)
    assert status == 0, errors
    for name, lines in feed.items():
        wanted = [line.repaired for line in lines if line.repaired is not None]
        assert rows_of(out, name) == wanted, (name, last)
    found = [(row["file"], int(row["record"]), row["rule"]) for row in rows_of(out, "prepared", "csv")]
    assert Counter(found) == Counter(notes), last
