#!/usr/bin/env python3
"""Deterministic generator of GTFS feeds for the benchmark of `ttm`: a town, a city, a metropolis, or a region.

    feedgen.py SIZE FOLDER [SEED] [--changes SECONDS]        SIZE is town, city, metro or region

Writes the unpacked feed (stops, routes, calendar, calendar_dates, trips, stop_times, transfers)
plus footpaths.csv, origins.csv (and one as origins1000.csv with more), opportunities.csv, cut.csv, late.csv and
SIZE.txt with the counts. Standard library only; the same SIZE and SEED give the same bytes.

Geometry: street nodes on a jittered grid, closer in the centre; each node has one bus stop per direction of travel
(N for north/east, S for south/west). Rail lines run through the centre, a station every 3 nodes or so, as a station
record (location_type 1) with two platforms. Bus lines: radial (outer node to the centre and often through it), grid
(straight with few bends), local (a winding walk round a hub). Each line runs in both directions, with headways by
class and time of day, running times that grow by a quarter in the peaks, and a few short workings.
A region has two towns, a hundred villages between and around them, buses and one rail line every 20 to 60 minutes, and
lines that run on school days alone.
Walking: direct footpaths between stops within 500 m as the crow flies, 0.96 s a metre (so 480 s), closed by the
program with its limit. With --changes each change between two vehicles at a stop takes these seconds, by transfers.txt;
all other files are the same.

Whatever draws takes the one `random.Random` of the feed: another order of the draws makes another feed.
"""

import math
import os
import random
import sys
from datetime import datetime, timedelta
from typing import Iterator, Sequence

from made.lines import Line, Size, draw_lines
from made.region import draw_region
from made.streets import Cell, Stop, Stops, Streets, draw_streets, station_at, stops_of
from made.trips import courses_of, routes_of, write_stop_times
from shared import parser_of, write_lines

SIZES = {
    "town": Size(nodes=235, bus_lines=36, length=18, rail_lines=1, origins=100),
    "city": Size(nodes=2400, bus_lines=300, length=28, rail_lines=4, origins=500),
    "metro": Size(nodes=9700, bus_lines=960, length=46, rail_lines=14, origins=1000),
}
REGION, REGION_ORIGINS = "region", 300
SCHOOL_YEAR = "20260107,20261218"
HOLIDAYS = (("20260330", "20260410"), ("20260501", "20260501"), ("20260720", "20260831"))
FARTHEST = 500  # metres of a direct footpath


# Walks.


def footpaths(stops: Sequence[Stop]) -> Iterator[str]:
    """The records of footpaths.csv, by their first stop, then by their second."""
    tiles: dict[Cell, list[int]] = {}
    for number, stop in enumerate(stops):
        tiles.setdefault((int(stop.east // FARTHEST), int(stop.north // FARTHEST)), []).append(number)
    for number, stop in enumerate(stops):
        x, y = int(stop.east // FARTHEST), int(stop.north // FARTHEST)
        around = ((u, v) for u in (x - 1, x, x + 1) for v in (y - 1, y, y + 1))
        for other in sorted(place for tile in around for place in tiles.get(tile, ()) if place != number):
            metres = math.hypot(stops[other].east - stop.east, stops[other].north - stop.north)
            if metres <= FARTHEST:
                yield f"{stop.name},{stops[other].name},{int(metres * 0.96) + 5}"


# Files.


def write_places(folder: str, stops: Stops, change: int) -> None:
    """Writes stops.txt, where stations come first, and transfers.txt, with a change time of each stop that isn't 0."""
    stations = [station_at(node) for node in sorted(stops.stations)]
    rows = [f'{name},"Station, {name}",,,1,' for name in stations]
    for stop in stops.stops:
        latitude, longitude = 51.5 + stop.north / 111320, -0.1 + stop.east / 69300
        rows.append(f"{stop.name},{stop.label},{latitude:.6f},{longitude:.6f},0,{stop.station}")
    write_lines(folder, "stops.txt", "stop_id,stop_name,stop_lat,stop_lon,location_type,parent_station", rows)
    changes = [f"{name},{name},2,90" for name in stations]
    changes += [f"{stop.name},{stop.name},2,{change}" for stop in stops.stops if change]
    write_lines(folder, "transfers.txt", "from_stop_id,to_stop_id,transfer_type,min_transfer_time", changes)


def weekdays_between(first: str, last: str) -> Iterator[str]:
    """The Mondays to Fridays from one date to another."""
    day, end = (datetime.strptime(text, "%Y%m%d") for text in (first, last))
    days = (day + timedelta(number) for number in range((end - day).days + 1))
    return (day.strftime("%Y%m%d") for day in days if day.weekday() < 5)


def write_routes_and_days(folder: str, lines: Sequence[Line]) -> None:
    """Writes routes.txt, and the calendar: trips of each day, of weekdays but for Christmas, and of school days."""
    types = ((route, 1 if line.is_rail else 3) for line, route in zip(lines, routes_of(lines)))
    routes = (f"{route},{route[1:]},{kind}" for route, kind in types)
    write_lines(folder, "routes.txt", "route_id,route_short_name,route_type", routes)
    days = "monday,tuesday,wednesday,thursday,friday,saturday,sunday"
    services = ["ALL,1,1,1,1,1,1,1,20260101,20261231", "WD,1,1,1,1,1,0,0,20260101,20261231"]
    exceptions = ["WD,20261225,2"]
    if any(line.is_for_school for line in lines):
        services.append(f"SCHOOL,1,1,1,1,1,0,0,{SCHOOL_YEAR}")
        exceptions += [f"SCHOOL,{day},2" for holidays in HOLIDAYS for day in weekdays_between(*holidays)]
    write_lines(folder, "calendar.txt", f"service_id,{days},start_date,end_date", services)
    write_lines(folder, "calendar_dates.txt", "service_id,date,exception_type", exceptions)


def write_own_files(folder: str, stops: Sequence[Stop], most_origins: int, rnd: random.Random) -> None:
    """Draws and writes opportunities and origins."""
    counts = [f"{stop.name},{int(rnd.expovariate(1 / 800))}" for stop in stops]
    write_lines(folder, "opportunities.csv", "stop_id,opportunities", counts)
    origins = [stops[number].name for number in rnd.sample(range(len(stops)), min(len(stops), most_origins))]
    write_lines(folder, "origins.csv", "stop_id", origins[:20])
    write_lines(folder, f"origins{most_origins}.csv", "stop_id", origins)


def write_scenarios(folder: str, routes: Sequence[str], trips: Sequence[str], rnd: random.Random) -> None:
    """Draws and writes scenarios: one without a fiftieth of the routes, one where a fiftieth of the trips is late."""
    removed = [f"remove_route,{route}," for route in rnd.sample(routes, max(1, len(routes) // 50))]
    write_lines(folder, "cut.csv", "action,id,seconds", removed)
    chosen = rnd.sample(trips, max(1, len(trips) // 50))
    shifted = [f"shift_trip,{item.split(',')[2]},{rnd.randrange(30, 600)}" for item in chosen]
    write_lines(folder, "late.csv", "action,id,seconds", shifted)


def draw_place(name: str, rnd: random.Random) -> tuple[Streets, list[Line]]:
    """Draws the streets and the lines of a feed."""
    if name == REGION:
        return draw_region(rnd)
    streets = draw_streets(SIZES[name].nodes, rnd)
    return streets, draw_lines(streets, SIZES[name], rnd)


def write_feed(name: str, seed: int, folder: str, change: int = 0) -> str:
    """Draws and writes a feed with all that belongs to it, and says its counts."""
    rnd = random.Random(f"ttm-{name}-{seed}")
    os.makedirs(folder, exist_ok=True)
    streets, lines = draw_place(name, rnd)
    stops = stops_of(streets, (node for line in lines if line.is_rail for node in line.nodes))
    with open(os.path.join(folder, "stop_times.txt"), "w", newline="") as file:
        trips, events = write_stop_times(file, courses_of(streets, stops, lines), rnd)
    write_places(folder, stops, change)
    write_routes_and_days(folder, lines)
    write_lines(folder, "trips.txt", "route_id,service_id,trip_id,direction_id", trips)
    walks = list(footpaths(stops.stops))
    write_lines(folder, "footpaths.csv", "from_stop_id,to_stop_id,seconds", walks)
    write_own_files(folder, stops.stops, REGION_ORIGINS if name == REGION else SIZES[name].origins, rnd)
    write_scenarios(folder, routes_of(lines), trips, rnd)
    counts = f"stops {len(stops.stops)}, stations {len(stops.stations)}, routes {len(lines)}, trips {len(trips)}"
    return f"size {name} seed {seed}: {counts}, stop_times {events}, direct footpaths {len(walks)}\n"


def main() -> None:
    parser = parser_of(__doc__)
    parser.add_argument("size", choices=[*SIZES, REGION], metavar="SIZE", help="town, city, metro or region")
    parser.add_argument("folder", metavar="FOLDER", help="where the feed is written; made if it isn't there")
    parser.add_argument("seed", metavar="SEED", nargs="?", type=int, default=1, help="a whole number; 1 by default")
    parser.add_argument(
        "--changes", metavar="SECONDS", type=int, default=0, help="of a change at each stop (default: 0)"
    )
    args = parser.parse_args()
    sentence = write_feed(args.size, args.seed, args.folder, args.changes)
    write_lines(args.folder, "SIZE.txt", sentence.rstrip("\n"), [])
    sys.stdout.write(sentence)


if __name__ == "__main__":
    main()
