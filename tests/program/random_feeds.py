"""Small feeds that are drawn by a seed, with an analyst's own files, and what is asked of them.

The feeds have what GTFS allows and hand-made examples forget: overnight trips, loops, times left out, headways that
overlap, exceptions, stations, change times, forbidden boarding, identifiers with commas and quotes; and footpaths,
origins, opportunities, destinations and scenarios of the analyst's own. One to three shares and one to three limits of
access are asked for.
"""

from __future__ import annotations

import csv
import datetime
import random
from collections.abc import Sequence
from pathlib import Path
from typing import TypeVar

import plain
from shared import clock

DATE = datetime.date(2026, 5, 6)
WEEKDAYS = plain.WEEKDAYS

Records = list[list[str]]
Choice = TypeVar("Choice")


class Drawn:
    """A feed, and the analyst's own files, as lists of records."""

    def __init__(self, seed: int) -> None:
        self.random = random.Random(seed)
        self.files: dict[str, Records] = {}
        self.stops = [f"S{n}" for n in range(self.random.randint(1, 7))]
        if self.random.random() < 0.2:
            self.stops[0] = 'a "b", c'
        self.stations = [f"G{n}" for n in range(self.random.randint(0, 2))]
        self.routes = [f"R{n}" for n in range(self.random.randint(1, 3))]
        self.services = [f"D{n}" for n in range(self.random.randint(1, 3))]
        self.trips = [f"T{n}" for n in range(self.random.randint(0, 16))]
        self.draw_places()
        self.draw_days()
        self.draw_trips()
        self.draw_headways()
        self.draw_walks()
        self.draw_own_files()

    def chance(self, share: float) -> bool:
        return self.random.random() < share

    def any_of(self, *choices: Choice) -> Choice:
        return self.random.choice(choices)

    def some_of(self, numbers: Sequence[int]) -> str:
        """One to three of the numbers, ascending, as a list of the command line."""
        return ",".join(map(str, sorted(self.random.sample(numbers, self.random.randint(1, 3)))))

    def place(self) -> str:
        return self.random.choice(self.stops + self.stations)

    def write(self, name: str, header: list[str], records: Records) -> None:
        self.files[name] = [header] + records

    def draw_places(self) -> None:
        stops = [
            [stop, "0" if self.chance(0.5) else "", self.random.choice(self.stations + [""])] for stop in self.stops
        ]
        stations = [[station, "1", ""] for station in self.stations]
        self.write("stops.txt", ["stop_id", "location_type", "parent_station"], stations + stops)
        self.write("routes.txt", ["route_id"], [[route] for route in self.routes])

    def day(self) -> str:
        return (DATE + datetime.timedelta(days=self.random.randint(-3, 3))).strftime("%Y%m%d")

    def draw_days(self) -> None:
        calendar = [
            [service] + [self.any_of("0", "1", "1", "1", "1") for _ in WEEKDAYS] + sorted([self.day(), self.day()])
            for service in self.services
            if self.chance(0.8)
        ]
        exceptions = [
            [self.random.choice(self.services), self.day(), self.any_of("1", "2")]
            for _ in range(self.random.randint(0, 4))
        ]
        self.write("calendar.txt", ["service_id"] + WEEKDAYS + ["start_date", "end_date"], calendar)
        self.write("calendar_dates.txt", ["service_id", "date", "exception_type"], exceptions)

    def draw_trips(self) -> None:
        self.write(
            "trips.txt",
            ["route_id", "service_id", "trip_id"],
            [[self.random.choice(self.routes), self.random.choice(self.services), trip] for trip in self.trips],
        )
        records = [record for trip in self.trips for record in self.calls(trip)]
        self.random.shuffle(records)
        self.write(
            "stop_times.txt",
            ["trip_id", "arrival_time", "departure_time", "stop_id", "stop_sequence", "pickup_type", "drop_off_type"],
            records,
        )

    def calls(self, trip: str) -> Records:
        """The records of a trip; some have no time, some only one, and a few trips a record without a stop."""
        # some are late at night: narrow labels end some eighteen hours after a departure
        time = self.any_of(7, 8, 8, 8, 8, 8, 8, 9, 18, 23, 25, 26, 31) * 3600 + self.random.randint(0, 59) * 60
        count = self.random.randint(0, 6)
        records = []
        for n in range(count):
            time += self.any_of(0, 0, 60, 90, 300, 601)
            arrive, time = time, time + self.any_of(0, 0, 0, 30, 120)
            kept = self.any_of("both", "both", "both", "arrival", "departure", "none") if 0 < n < count - 1 else "both"
            stop = "" if self.chance(0.01) else self.random.choice(self.stops)
            records.append(
                [
                    trip,
                    clock(arrive) if kept in ("both", "arrival") else "",
                    clock(time) if kept in ("both", "departure") else "",
                    stop,
                    str(7 * n),
                    self.any_of("", "0", "0", "0", "1", "2"),
                    self.any_of("", "0", "0", "0", "1", "3"),
                ]
            )
        return records

    def draw_headways(self) -> None:
        records = []
        for trip in self.trips:
            for _ in range(self.random.choice([0, 0, 0, 1, 2])):
                start = self.random.randint(6 * 60, 9 * 60) * 60
                records.append(
                    [
                        trip,
                        clock(start),
                        clock(start + self.any_of(0, 1, 600, 1800, 3600)),
                        str(self.any_of(60, 300, 433, 900)),
                    ]
                )
        self.write("frequencies.txt", ["trip_id", "start_time", "end_time", "headway_secs"], records)

    def draw_walks(self) -> None:
        columns = ["from_stop_id", "to_stop_id", "transfer_type", "min_transfer_time", "from_route_id"]
        changing = [place for place in self.stops + self.stations if self.chance(0.4)]
        records = [[place, place, "2", self.any_of("60", "300", "900"), ""] for place in changing]
        for _ in range(self.random.randint(0, 5)):
            start = self.place()
            end = start if self.chance(0.3) else self.place()
            records.append(
                [
                    start,
                    end,
                    self.any_of("", "0", "1", "2", "2", "2", "3"),
                    self.any_of("", "0", "60", "180", "300", "700"),
                    self.any_of("", "", "", "", self.routes[0]),
                ]
            )
        self.write("transfers.txt", columns, records)

    def draw_own_files(self) -> None:
        places = [
            [self.place(), self.place(), str(self.any_of(0, 20, 100, 400))] for _ in range(self.random.randint(0, 8))
        ]
        self.write("footpaths.csv", ["from_stop_id", "to_stop_id", "seconds"], places)
        stops = self.random.sample(self.stops, self.random.randint(1, len(self.stops)))
        self.write("origins.csv", ["stop_id"], [[stop] for stop in stops])
        self.write(
            "opportunities.csv",
            ["stop_id", "opportunities"],
            [[stop, str(self.random.randint(0, 9))] for stop in stops],
        )
        columns = self.random.sample(self.stops, self.random.randint(0, len(self.stops)))
        self.write("destinations.csv", ["stop_id"], [[stop] for stop in columns])
        for name in ("cut", "late"):
            self.write(
                name + ".csv", ["action", "id", "seconds"], [self.edit() for _ in range(self.random.randint(0, 3))]
            )

    def edit(self) -> list[str]:
        if self.trips and self.chance(0.7):
            return [
                self.any_of("shift_trip", "shift_trip", "remove_trip"),
                self.random.choice(self.trips),
                str(self.any_of(-300, 30, 60, 600)),
            ]
        return ["remove_route", self.random.choice(self.routes), ""]

    def words(self, folder: Path, minutes: int | None = None) -> list[str]:
        """The options of a run over the files in a folder; with a window of this length, or a drawn one."""
        # windows of one batch of 16 or 32 departures, of one more departure, and of several batches
        first = self.any_of(0, 7 * 60, 7 * 60 + 50, 8 * 60, 8 * 60, 23 * 60)
        last = min(first + self.any_of(0, 0, 0, 1, 15, 16, 31, 32, 64), 24 * 60 - 1)
        if minutes is not None:
            first = min(first, 24 * 60 - minutes)
            last = first + minutes - 1
        options: dict[str, object] = {
            "feed": folder,
            "date": DATE.strftime("%Y%m%d"),
            "from": clock(60 * first)[:5],
            "to": clock(60 * last)[:5],
            "trips": self.random.randint(1, 5),
            "walk": self.any_of(0, 60, 200, 900),
            "share": self.some_of([1, 25, 50, 67, 100]),
            "within": self.some_of(range(0, 3601, 60)),
            "workers": self.random.randint(1, 3),
            "tries": 2,
        }
        options.update({name: self.random.randint(0, 2) for name in ("back", "ahead") if self.chance(0.5)})
        own = ("footpaths", "origins", "opportunities", "destinations")
        options.update({name: folder / (name + ".csv") for name in own if self.chance(0.6)})
        scenarios = [folder / (name + ".csv") for name in ("cut", "late") if self.chance(0.4)]
        return [str(word) for name, value in options.items() for word in ("--" + name, value)] + [
            str(scenario) for scenario in scenarios
        ]

    def put_into(self, folder: Path) -> None:
        for name, records in self.files.items():
            with open(folder / name, "w", newline="", encoding="utf-8") as file:
                csv.writer(file, lineterminator="\n").writerows(records)
