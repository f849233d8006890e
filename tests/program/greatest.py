#!/usr/bin/env python3
"""Writes the greatest feed that is allowed: 65,535 stops, 1,000,000 trips of 8 stop times, and footpaths whose chains
of at most 600 seconds join 4,000,000 pairs of stops.

    greatest.py FOLDER [--past stops|trips|stop_times|walks]      one more of these than may be
    greatest.py FOLDER --hub STOPS
    ttm --feed FOLDER --footpaths FOLDER/footpaths.csv --origins FOLDER/origins.csv --walk 600 --date 20260504 \\
        --back 0 --ahead 0 ..

With --hub it has no trips, and one stop with a footpath of a minute to and from each of so many others, so that every
pair of stops is joined through it: 1974 stops make 3,898,650 pairs.
"""
import itertools
import os
import sys
from pathlib import Path
from typing import Iterator

sys.path.append(str(Path(__file__).resolve().parents[2] / "bench"))
from shared import DATE, clock, parser_of, write_lines  # noqa: E402

STOPS, TRIPS, CALLS, PAIRS = 65_535, 1_000_000, 8, 4_000_000
TRIPS_OF_A_LINE = 122


def group_sizes(pairs: int) -> list[int]:
    """How many stops stand in each group, so that those of a group make so many pairs in all, one way each."""
    sizes = [62] * 1008 + [61] * 48 + [110, 1]
    short = pairs - sum(size * (size - 1) for size in sizes)
    at = 0
    while short > 0:
        gain = 2 * (sizes[at] - sizes[at + 1] + 1)
        if gain <= short:
            sizes[at], sizes[at + 1], short = sizes[at] + 1, sizes[at + 1] - 1, short - gain
        at += 2
    return sizes


def footpaths(pairs: int) -> Iterator[str]:
    """A ring of one second between neighbours in each group, both ways."""
    first = 0
    for size in group_sizes(pairs):
        for k in range(size if size > 1 else 0):
            a, b = first + k, first + (k + 1) % size
            yield f"{a},{b},1"
            yield f"{b},{a},1"
        first += size


def patterns() -> list[str]:
    """The stop times of each trip of a line, some minutes apart, but for the trip's number and its stops."""
    texts = []
    for run in range(TRIPS_OF_A_LINE):
        times = [clock(4 * 3600 + run * 590 + k * 120) for k in range(CALLS)]
        texts.append("\n".join(f"{{0}},{time},{time},{{{k + 1}}},{k}" for k, time in enumerate(times)))
    return texts


def calls(trips: int) -> Iterator[str]:
    """The stop times of trips in lines of their own stops, those of a trip at once."""
    rows = patterns()
    for trip in range(trips):
        line, run = divmod(trip, TRIPS_OF_A_LINE)
        if run == 0:
            stops = [(line * 37 + k * 331) % STOPS for k in range(CALLS)]
        yield rows[run].format(trip, *stops)


def main() -> None:
    parser = parser_of(__doc__, "folder", hub=0)
    parser.add_argument("--past", choices=["stops", "trips", "stop_times", "walks"])
    args = parser.parse_args()
    folder, past = args.folder, args.past
    os.makedirs(folder, exist_ok=True)
    stops, trips = STOPS + (past == "stops"), TRIPS + (past == "trips")
    walks = footpaths(PAIRS + 2 * (past == "walks"))
    if args.hub:
        stops, trips = args.hub + 1, 0
        walks = (line for stop in range(1, stops) for line in (f"0,{stop},60", f"{stop},0,60"))
    times = "trip_id,arrival_time,departure_time,stop_id,stop_sequence"
    more = ["0,28:00:00,28:00:00,0,9"] if past == "stop_times" else []
    write_lines(folder, "stops.txt", "stop_id", map(str, range(stops)))
    write_lines(folder, "routes.txt", "route_id", ["R"])
    write_lines(folder, "calendar_dates.txt", "service_id,date,exception_type", [f"D,{DATE},1"])
    write_lines(folder, "trips.txt", "route_id,service_id,trip_id", (f"R,D,{trip}" for trip in range(trips)))
    write_lines(folder, "stop_times.txt", times, itertools.chain(calls(min(trips, TRIPS)), more))
    write_lines(folder, "footpaths.csv", "from_stop_id,to_stop_id,seconds", walks)
    write_lines(folder, "origins.csv", "stop_id", ["0"])


if __name__ == "__main__":
    main()
