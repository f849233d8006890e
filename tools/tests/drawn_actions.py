"""Feeds and actions of plans that are drawn, written as files."""

import datetime
import json
import random
from pathlib import Path
from typing import Any

import plain_plans
from drawn_feeds import clock
from helpers import STOP_TIMES, Room, Table
from plain_trips import Trips

FIRST, DAYS = datetime.date(2026, 5, 4), 16
STOPS, TRIPS = 8, 14
NEW = {"N0": (50.013, 8.021), "N1": (50.022, 8.004)}  # stops of the plan
ROUTES = ("R0", "R1", "R2")
PLACES = [*(f"P{number}" for number in range(STOPS)), *NEW]


def day(number: int) -> str:
    return f"{FIRST + datetime.timedelta(number):%Y%m%d}"


def write_feed(room: Room, draw: random.Random) -> Path:
    """Trips of three routes on some of four patterns, two of them loops, two trips by headways, on three services."""
    folder = room.folder / "feed"
    folder.mkdir()
    stops: Table = [
        [f"P{n}", f"{50 + draw.randrange(30) / 999}", f"{8 + draw.randrange(30) / 999}"] for n in range(STOPS)
    ]
    room.write("feed/stops.txt", "stop_id,stop_lat,stop_lon", stops)
    room.write("feed/routes.txt", "route_id,route_type", [[name, 3] for name in ROUTES])
    week = ",".join(plain_plans.WEEK)
    calendar: Table = [["M0", 1, 1, 1, 1, 1, 0, 0, day(0), day(DAYS - 1)], ["M1", *[1] * 7, day(3), day(8)]]
    calendar.append(["M2", *[0] * 5, 1, 1, day(0), day(DAYS - 1)])
    room.write("feed/calendar.txt", f"service_id,{week},start_date,end_date", calendar)
    dates = sorted({(f"M{draw.randrange(3)}", day(draw.randrange(DAYS))) for _ in range(5)})
    exceptions: Table = [[*own, draw.randrange(1, 3)] for own in dates]
    room.write("feed/calendar_dates.txt", "service_id,date,exception_type", exceptions)
    patterns = [draw.sample(range(STOPS), draw.randrange(3, 6)) for _ in range(2)]
    patterns += [[*way[:2], way[0], way[2]] for way in patterns]
    trips: Table = []
    calls: Table = []
    for number in range(TRIPS):
        kind, name, back = draw.randrange(4), f"T{number}", draw.randrange(2)
        trips.append([f"R{kind % 3}", draw.choice(["M0", "M0", "M1", "M2"]), name, back])
        second = 7 * 3600 + 60 * draw.randrange(180)
        for order, stop in enumerate(patterns[kind][:: -1 if back else 1]):
            leaves = second + draw.choice([0, 0, 20, 45]) * (0 < order < len(patterns[kind]) - 1)
            calls.append([name, clock(second), clock(leaves), f"P{stop}", order])
            second = leaves + draw.randrange(50, 700)
    room.write("feed/trips.txt", "route_id,service_id,trip_id,direction_id", trips)
    room.write("feed/stop_times.txt", STOP_TIMES, calls)
    headways: Table = [["T0", "07:30:00", "08:31:00", 600], ["T0", "09:00:00", "09:20:00", 300]]
    headways.append(["T1", "07:05:00", "09:00:00", 900])
    room.write("feed/frequencies.txt", "trip_id,start_time,end_time,headway_secs", headways)
    return folder


def draw_choice(draw: random.Random, trips: Trips) -> dict[str, Any]:
    """A route, and at times one of its directions, patterns or services."""
    about: dict[str, Any] = {"route": draw.choice([*ROUTES, "L0"])}
    labels = [trip.label for trip in trips if trip.label and trip.route == about["route"]]
    services = [trip.service for trip in trips if trip.route == about["route"]]
    if draw.random() < 0.2:
        about["direction"] = draw.randrange(2)
    if draw.random() < 0.15 and labels:
        about["pattern"] = draw.choice(labels)
    if draw.random() < 0.15 and all(services) and services:
        about["service"] = draw.choice(services)
    return about


def draw_way(draw: random.Random, count: int) -> dict[str, Any]:
    """The run times of vehicles along a way of `count` pieces."""
    seconds: dict[str, Any] = {"seconds": [draw.randrange(400) for _ in range(count)]}
    return {"dwell": draw.choice([0, 15, 40])} | draw.choice([{"speed": draw.choice([14.5, 30])}, seconds])


def draw_line(draw: random.Random) -> dict[str, Any]:
    """A new line."""
    first, count = 7 * 60 + draw.randrange(90), draw.randrange(2, 5)
    periods = [{"first": clock(60 * first)[:5], "last": clock(60 * first + draw.randrange(3000)), "every": 900}]
    periods.append({"first": "08:00", "last": "09:00", "every": draw.choice([1200, 1750])})
    days: list[dict[str, Any]] = [{"days": "daily"}, {"days": "weekend"}, {"days": ["monday", "sunday"]}]
    line: dict[str, Any] = {"route": "L0", "stops": [draw.choice(PLACES) for _ in range(count)]}
    line |= draw_way(draw, count - 1) | draw.choice([*days, {"service": "M1"}])
    both: dict[str, Any] = {"both": False} if draw.random() < 0.5 else {}
    return line | both | {"departures": periods[: draw.randrange(1, 3)]}


def draw_action(draw: random.Random, trips: Trips) -> dict[str, Any]:
    """An action that may do nothing."""
    do = draw.choice([*plain_plans.CARRY_OUT, "headway", "speed", "extend", "extend", "extend", "cut"])
    about = draw_choice(draw, trips)
    if do in ("remove_route", "shift_route"):
        about = {"route": draw.choice([draw.choice(ROUTES), draw.sample(ROUTES, 2)])}
    if do in ("remove_trip", "shift_trip"):
        about = {"trip": f"T{draw.randrange(TRIPS)}"}
    if do == "remove_stop":
        about = (about if draw.random() < 0.5 else {}) | {"stop": draw.choice(PLACES)}
    if do.startswith("shift"):
        about["seconds"] = draw.choice([-600, -61, 30, 5000])
    if do == "headway":
        begin = 7 * 60 + draw.randrange(0, 100, 5)
        about |= {"from": clock(60 * begin)[:5], "to": clock(60 * (begin + draw.randrange(10, 120)))[:5]}
        about |= draw.choice([{"every": draw.choice([400, 1000])}, {"times": draw.choice([2, 3])}])
    if do == "speed":
        called = [stop for trip in trips if trip.route == about["route"] for stop in trip.pattern] or PLACES
        about |= {name: draw.choice(called) for name in ("from_stop", "to_stop") if draw.random() < 0.5}
        about |= draw.choice([{"factor": draw.choice([0.5, 0.855, 1.3333])}, {"dwell": draw.choice([-20, 25])}])
    if do in ("extend", "cut"):
        end = draw.choice([0, -1])
        patterns = [trip.pattern for trip in trips if trip.route == about["route"]] or [tuple(PLACES)]
        stops = tuple(pattern[end] for pattern in patterns) if do == "extend" else draw.choice(patterns)
        about["before" if end == 0 else "after"] = draw.choice(stops)
    if do == "extend":
        about |= {"stops": [draw.choice(PLACES) for _ in range(draw.randrange(1, 3))]}
        about |= draw_way(draw, len(about["stops"]))
    return {"do": do, **(draw_line(draw) if do == "add_line" else about)}


def as_toml(value: Any) -> str:
    if isinstance(value, dict):
        return "{ " + ", ".join(f"{key} = {as_toml(own)}" for key, own in value.items()) + " }"
    return "[" + ", ".join(map(as_toml, value)) + "]" if isinstance(value, list) else json.dumps(value)
