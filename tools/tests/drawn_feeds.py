"""Feeds with drawn stations, stops, services, trips, headways and transfers; and what is in a feed, whatever its
identifiers are.
"""

import csv
import datetime
import random
from collections import Counter
from pathlib import Path
from typing import Any

from helpers import STOP_TIMES, Room, Table

Row = dict[str, str]
DAYS = ("monday", "tuesday", "wednesday", "thursday", "friday", "saturday", "sunday")
FIRST = datetime.date(2026, 5, 1)
STOPS, STATIONS, ENTRANCES, TRIPS, SERVICES = 12, 3, 4, 10, 3
TABLES = ("stops", "routes", "agency", "calendar", "calendar_dates", "trips", "stop_times", "frequencies", "transfers")


def clock(seconds: int) -> str:
    return f"{seconds // 3600:02}:{seconds // 60 % 60:02}:{seconds % 60:02}"


def date_of(number: int) -> str:
    return f"{FIRST + datetime.timedelta(number):%Y%m%d}"


def write_drawn_feed(room: Room, draw: random.Random, name: str, at_date_line: bool = False) -> Path:
    """A feed without errors, whose names say which feed they are of."""
    (room.folder / name).mkdir()

    def place() -> list[object]:
        east = draw.randrange(-400, 400)
        longitude = (180_000 - abs(east)) * (1 if east > 0 else -1) if at_date_line else 8_000 + east
        return [f"50.{draw.randrange(999):03}", f"{longitude / 1000:.3f}"]

    kinds = [("S", "1", STATIONS), ("", "", STOPS), ("E", "2", ENTRANCES)]
    stops: Table = []
    for prefix, kind, count in kinds:
        for number in range(count):
            parent = "" if kind == "1" else f"S{draw.randrange(STATIONS)}" if kind == "2" or draw.random() < 0.4 else ""
            spot: list[object] = ["", ""] if parent and not kind and draw.random() < 0.3 else place()
            identifier = f"{prefix}{number}" if prefix else f"P{number}"
            stops.append([identifier, f"{name} {identifier}", *spot, kind, parent])
    write = room.write
    write(f"{name}/stops.txt", "stop_id,stop_name,stop_lat,stop_lon,location_type,parent_station", stops)
    agencies = draw.randrange(1, 3)
    rows: Table = [[f"A{n}" if agencies > 1 else "", f"{name} agency {n}", "Europe/Paris"] for n in range(agencies)]
    write(f"{name}/agency.txt", "agency_id,agency_name,agency_timezone", rows)
    routes: Table = [[f"R{n}", f"A{n % 2}" if agencies > 1 else "", f"{name} line {n}"] for n in range(3)]
    write(f"{name}/routes.txt", "route_id,agency_id,route_short_name", routes)
    calendar: Table = []
    for number in range(SERVICES):
        begin = draw.randrange(15)
        flags = [int(draw.random() < 0.5) for _ in DAYS]
        calendar.append([f"M{number}", *flags, date_of(begin), date_of(begin + draw.randrange(20))])
    write(f"{name}/calendar.txt", f"service_id,{','.join(DAYS)},start_date,end_date", calendar)
    days = [(f"M{draw.randrange(SERVICES)}", date_of(draw.randrange(35)), draw.randrange(1, 3)) for _ in range(9)]
    write(f"{name}/calendar_dates.txt", "service_id,date,exception_type", [list(key) for key in dict.fromkeys(days)])
    write_trips(room, draw, name)
    return room.folder / name


def write_trips(room: Room, draw: random.Random, name: str) -> None:
    """Trips of three to six calls, two of them by headways, and transfers between locations."""
    trips: Table = [[f"R{draw.randrange(3)}", f"M{draw.randrange(SERVICES)}", f"T{n}"] for n in range(TRIPS)]
    room.write(f"{name}/trips.txt", "route_id,service_id,trip_id", trips)
    calls: Table = []
    for trip in range(TRIPS):
        second = draw.randrange(5 * 3600, 20 * 3600)
        for order in range(draw.randrange(3, 7)):
            arrival, second = second, second + draw.randrange(60)
            calls.append([f"T{trip}", clock(arrival), clock(second), f"P{draw.randrange(STOPS)}", order])
            second += draw.randrange(60, 900)
    room.write(f"{name}/stop_times.txt", STOP_TIMES, calls)
    begin = draw.randrange(6, 9)
    headways: Table = [[f"T{n}", clock(begin * 3600), clock((begin + n + 1) * 3600), 60 * (n + 7)] for n in range(2)]
    room.write(f"{name}/frequencies.txt", "trip_id,start_time,end_time,headway_secs", headways)
    ends = {tuple(draw.sample(range(STOPS), 2)) for _ in range(12)}
    walks: Table = [[f"P{one}", f"P{other}", 2, draw.randrange(300)] for one, other in sorted(ends)]
    room.write(f"{name}/transfers.txt", "from_stop_id,to_stop_id,transfer_type,min_transfer_time", walks)


def rows_of(folder: Path, name: str, kind: str = "txt") -> list[Row]:
    path = folder / f"{name}.{kind}"
    if not path.is_file():
        return []
    with open(path, newline="") as file:
        return list(csv.DictReader(file))


def runs_on(folder: Path, service: str, day: datetime.date) -> bool:
    """Whether a service runs on a day: an exception decides, also if there are both, else the weekday in the dates."""
    text = f"{day:%Y%m%d}"
    dates = rows_of(folder, "calendar_dates")
    kinds = {row["exception_type"] for row in dates if (row["service_id"], row["date"]) == (service, text)}
    if kinds:
        return "1" in kinds
    return any(
        row["service_id"] == service
        and row[DAYS[day.weekday()]] == "1"
        and row["start_date"] <= text <= row["end_date"]
        for row in rows_of(folder, "calendar")
    )


def seconds_of(text: str) -> int:
    hours, minutes, seconds = map(int, text.split(":"))
    return 3600 * hours + 60 * minutes + seconds


def contents(folder: Path) -> dict[str, Counter[Any]]:
    """What is in a feed, by names instead of identifiers, and by days instead of services."""
    stops = {row["stop_id"]: row for row in rows_of(folder, "stops")}
    agencies = {row["agency_id"]: row["agency_name"] for row in rows_of(folder, "agency")}
    routes = {row["route_id"]: row for row in rows_of(folder, "routes")}
    days = [FIRST + datetime.timedelta(number) for number in range(40)]
    services = {row["service_id"] for row in rows_of(folder, "trips")}
    dates = {service: tuple(day for day in days if runs_on(folder, service, day)) for service in services}

    def name_of(stop: str) -> str:
        return stops[stop]["stop_name"] if stop else ""

    def line_of(route: str) -> tuple[str, str]:
        return routes[route]["route_short_name"], agencies[routes[route]["agency_id"]]

    calls, headways = dict[str, list[Any]](), dict[str, list[Any]]()
    for row in rows_of(folder, "stop_times"):
        calls.setdefault(row["trip_id"], []).append(
            (int(row["stop_sequence"]), row["arrival_time"], row["departure_time"], name_of(row["stop_id"]))
        )
    for row in rows_of(folder, "frequencies"):
        headways.setdefault(row["trip_id"], []).append((row["start_time"], row["end_time"], row["headway_secs"]))
    kinds = ("stop_lat", "stop_lon", "location_type")
    return {
        "stops": Counter(
            (row["stop_name"], *(row[kind] for kind in kinds), name_of(row["parent_station"])) for row in stops.values()
        ),
        "routes": Counter(map(line_of, routes)),
        "agencies": Counter(agencies.values()),
        "trips": Counter(
            (
                line_of(row["route_id"]),
                dates[row["service_id"]],
                tuple(calls.get(row["trip_id"], [])),
                tuple(headways.get(row["trip_id"], [])),
            )
            for row in rows_of(folder, "trips")
        ),
        "transfers": Counter(
            (name_of(row["from_stop_id"]), name_of(row["to_stop_id"]), row["transfer_type"], row["min_transfer_time"])
            for row in rows_of(folder, "transfers")
        ),
    }
