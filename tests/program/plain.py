#!/usr/bin/env python3
"""A plain second program: the same matrix as `ttm`, from the definitions, without any of its code or its speed.

It takes the options of `ttm` (workers and tries are ignored) and prints the matrix, so that both can be compared byte
by byte on a feed of a town's size:

    plain.py --feed DIR --date 20260504 --from 08:00 --to 08:04 --trips 3 --walk 300 --share 50,90 --within 900,1800 \\
        --origins origins.csv --footpaths walks.csv cut.csv late.csv | cmp - matrix.csv

It checks nothing and refuses nothing: feeds are taken to be right. Standard library only.
"""
import argparse
import collections
import csv
import datetime
import heapq
import os
import sys
from typing import Iterable, NamedTuple, Sequence, TextIO, cast

NEVER = 10**9
DAY = 86400
WEEKDAYS = ["monday", "tuesday", "wednesday", "thursday", "friday", "saturday", "sunday"]

Row = dict[str, str]
Pair = tuple[int, int]  # of two times; of two stops; or of a stop and a time
Feet = list[list[Pair]]  # of each stop the others that one walks to, each with the seconds


class Event(NamedTuple):
    stop: int
    arrive: int
    depart: int
    board: bool
    alight: bool


def rows(path: str) -> list[Row]:
    if not os.path.exists(path):
        return []
    with open(path, newline="", encoding="utf-8-sig") as file:
        return list(csv.DictReader(file))


def seconds(text: str) -> int:
    hours, minutes, rest = text.strip().split(":")
    return int(hours) * 3600 + int(minutes) * 60 + int(rest)


def number(row: Row, column: str) -> int:
    return int((row.get(column) or "").strip() or 0)


def times_of(calls: Sequence[Row]) -> list[Pair]:
    """Both times of each record of a trip: one gives the other; without any it lies evenly between those around it."""
    times: list[Pair | None] = []
    for r in calls:
        arrive, depart = ((r.get(kind + "_time") or "").strip() for kind in ("arrival", "departure"))
        times.append((seconds(arrive or depart), seconds(depart or arrive)) if arrive or depart else None)
    for at in [at for at, time in enumerate(times) if time is None]:
        before = max(k for k in range(at) if calls[k]["arrival_time"].strip() or calls[k]["departure_time"].strip())
        after = min(
            k for k in range(at, len(calls)) if calls[k]["arrival_time"].strip() or calls[k]["departure_time"].strip()
        )
        leaves, reaches = cast(Pair, times[before])[1], cast(Pair, times[after])[0]
        between = leaves + (reaches - leaves) * (at - before) // (after - before)
        times[at] = (between, between)
    return cast(list[Pair], times)


class Feed:
    """What the files of a feed say."""

    def __init__(self, folder: str) -> None:
        self.folder = folder
        places = rows(self.path("stops.txt"))
        self.kind = {r["stop_id"]: number(r, "location_type") for r in places}
        self.stops = [r["stop_id"] for r in places if self.kind[r["stop_id"]] == 0]
        self.stop_no = {stop: n for n, stop in enumerate(self.stops)}
        self.children: dict[str, list[str]] = collections.defaultdict(list)
        for r in places:
            if self.kind[r["stop_id"]] == 0 and self.kind.get(r.get("parent_station") or "") == 1:
                self.children[r["parent_station"]].append(r["stop_id"])
        self.calendar = rows(self.path("calendar.txt"))
        self.exceptions = rows(self.path("calendar_dates.txt"))
        self.trips = rows(self.path("trips.txt"))
        calls: dict[str, list[Row]] = collections.defaultdict(list)
        for r in sorted(rows(self.path("stop_times.txt")), key=lambda r: int(r["stop_sequence"])):
            calls[r["trip_id"]].append(r)
        self.events: dict[str, list[Event]] = collections.defaultdict(list)
        self.events.update({trip: self.events_of(c) for trip, c in calls.items()})
        self.headways: dict[str, list[tuple[int, int, int]]] = collections.defaultdict(list)
        for r in rows(self.path("frequencies.txt")):
            headway = (seconds(r["start_time"]), seconds(r["end_time"]), int(r["headway_secs"]))
            self.headways[r["trip_id"]].append(headway)

    def path(self, name: str) -> str:
        return os.path.join(self.folder, name)

    def events_of(self, calls: Sequence[Row]) -> list[Event]:
        """The events of a trip; a trip with a record that names no stop has none."""
        if any(not r["stop_id"] for r in calls):
            return []
        return [
            Event(
                self.stop_no[r["stop_id"]],
                arrive,
                depart,
                board=number(r, "pickup_type") != 1,
                alight=number(r, "drop_off_type") != 1,
            )
            for r, (arrive, depart) in zip(calls, times_of(calls))
        ]

    def runs_on(self, service: str, date: datetime.date) -> bool:
        """Whether a service runs on a date: it is added; or a row covers the date and weekday, and it isn't removed."""
        text = date.strftime("%Y%m%d")
        said = [int(r["exception_type"]) for r in self.exceptions if (r["service_id"], r["date"]) == (service, text)]
        covered = any(
            r["service_id"] == service
            and r["start_date"] <= text <= r["end_date"]
            and int(r[WEEKDAYS[date.weekday()]]) == 1
            for r in self.calendar
        )
        return 1 in said or (covered and 2 not in said)

    def ends(self, place: str) -> list[str]:
        """The stops that an end of a walk stands for."""
        return {0: [place], 1: self.children[place]}.get(self.kind[place], [])

    def transfers(self) -> list[Row]:
        """The rows of transfers.txt that state a time for all routes and trips."""
        return [
            r
            for r in rows(self.path("transfers.txt"))
            if number(r, "transfer_type") <= 2
            and (r.get("min_transfer_time") or "").strip()
            and not any(r.get(way + kind) for way in ("from_", "to_") for kind in ("route_id", "trip_id"))
        ]

    def change_times(self) -> list[int]:
        """Of each stop the greatest time that a row of type 2 states from it, or from its station, to itself."""
        changes = [0] * len(self.stops)
        for r in self.transfers():
            if number(r, "transfer_type") == 2 and r["from_stop_id"] == r["to_stop_id"]:
                for stop in self.ends(r["from_stop_id"]):
                    changes[self.stop_no[stop]] = max(changes[self.stop_no[stop]], int(r["min_transfer_time"]))
        return changes

    def direct_footpaths(self, own: str | None) -> dict[Pair, int]:
        """The least seconds of each pair of different stops that a row gives."""
        least: dict[Pair, int] = {}
        walks = [(r["from_stop_id"], r["to_stop_id"], r["min_transfer_time"]) for r in self.transfers()]
        walks += [(r["from_stop_id"], r["to_stop_id"], r["seconds"]) for r in (rows(own) if own else [])]
        for origin, target, time in walks:
            for a in self.ends(origin):
                for b in self.ends(target):
                    if a != b:
                        pair = (self.stop_no[a], self.stop_no[b])
                        least[pair] = min(least.get(pair, NEVER), int(time))
        return least


def closed_footpaths(stops: int, direct: dict[Pair, int], limit: int) -> Feet:
    """For each stop the others within the limit, each with the least sum over chains."""
    leaving: dict[int, list[Pair]] = collections.defaultdict(list)
    for (a, b), time in direct.items():
        leaving[a].append((b, time))
    closed = []
    for source in range(stops):
        best, heap = {source: 0}, [(0, source)]
        while heap:
            time, stop = heapq.heappop(heap)
            for target, more in leaving[stop] if time == best[stop] else []:
                if time + more <= limit and time + more < best.get(target, NEVER):
                    best[target] = time + more
                    heapq.heappush(heap, (time + more, target))
        closed.append([(stop, time) for stop, time in best.items() if stop != source])
    return closed


def network(feed: Feed, options: argparse.Namespace, scenario: str | None) -> list[list[Event]]:
    """The events of each run that the scenario keeps, on the axis of times."""
    removed: set[tuple[str, str]] = set()
    shifts: dict[str, int] = collections.Counter()
    for r in rows(scenario) if scenario else []:
        if r["action"] == "shift_trip":
            shifts[r["id"]] += int(r["seconds"])
        else:
            removed.add((r["action"], r["id"]))
    runs = []
    for day in range(-options.back, options.ahead + 1):
        date = options.date + datetime.timedelta(days=day)
        running = {s: feed.runs_on(s, date) for s in {t["service_id"] for t in feed.trips}}
        for trip in feed.trips:
            name, events = trip["trip_id"], feed.events[trip["trip_id"]]
            gone = ("remove_route", trip["route_id"]) in removed or ("remove_trip", name) in removed
            if not events or gone or not running[trip["service_id"]]:
                continue
            moved = DAY * (options.back + day) + shifts[name]
            if name not in feed.headways:
                runs.append([e._replace(arrive=e.arrive + moved, depart=e.depart + moved) for e in events])
            for start, end, headway in feed.headways.get(name, []):
                for departure in range(start, end, headway):
                    by = departure - events[0].depart + moved
                    run = [e._replace(arrive=e.arrive + by, depart=e.depart + by) for e in events]
                    run[0] = run[0]._replace(arrive=run[0].depart)
                    runs.append(run)
    return runs


def walked(ride: list[int], stayed: list[int], feet: Feet) -> list[int]:
    """The times after at most one walk from where rides ended; who doesn't walk has those of `stayed`."""
    times = stayed[:]
    for stop, time in enumerate(ride):
        if time < NEVER:
            for target, more in feet[stop]:
                times[target] = min(times[target], time + more)
    return times


def durations(
    runs: list[list[Event]], feet: Feet, changes: Sequence[int], origin: int, departure: int, rides: int
) -> list[int | None]:
    """The least duration to each stop over journeys of at most so many rides."""
    ride = [NEVER] * len(feet)
    ride[origin] = departure
    for _ in range(rides):
        changed = [time + more if time < NEVER else NEVER for time, more in zip(ride, changes)]
        changed[origin] = departure
        ready, arrived = walked(ride, changed, feet), ride[:]
        for run in runs:
            aboard = False
            for event in run:
                if aboard and event.alight:
                    arrived[event.stop] = min(arrived[event.stop], event.arrive)
                aboard = aboard or (event.board and ready[event.stop] <= event.depart)
        ride = arrived
    return [time - departure if time < NEVER else None for time in walked(ride, ride, feet)]


def cell(times: Sequence[int | None], share: int) -> int | None:
    """The least duration that the share of all minutes attains."""
    reached = sorted(t for t in times if t is not None)
    rank = -(-share * len(times) // 100)
    return reached[rank - 1] if rank <= len(reached) else None


def access_of(cells: Iterable[int | None], stops: Iterable[str], counts: dict[str, int] | None, limit: int) -> int:
    """The opportunities at the stops whose cell is within the limit, one at each where there are no counts."""
    near = [s for s, c in zip(stops, cells) if c is not None and c <= limit]
    return len(near) if counts is None else sum(counts.get(s, 0) for s in near)


def options(arguments: Sequence[str]) -> argparse.Namespace:
    parser = argparse.ArgumentParser(usage=__doc__)
    names = ["feed", "date", "from", "to", "trips", "walk", "share", "within", "workers", "tries", "back", "ahead"]
    for name in names + ["origins", "opportunities", "destinations", "footpaths"]:
        parser.add_argument("--" + name, default="1" if name in ("back", "ahead") else None)
    parser.add_argument("scenario", nargs="*")
    chosen = parser.parse_args(arguments)
    for name in ["trips", "walk", "back", "ahead"]:
        setattr(chosen, name, int(getattr(chosen, name)))
    for name in ["share", "within"]:
        setattr(chosen, name, [int(text) for text in getattr(chosen, name).split(",")])
    chosen.date = datetime.datetime.strptime(chosen.date, "%Y%m%d").date()
    first, last = (int(t[:2]) * 60 + int(t[3:]) for t in (getattr(chosen, "from"), chosen.to))
    chosen.departures = [DAY * chosen.back + 60 * minute for minute in range(first, last + 1)]
    return chosen


def write_matrix(arguments: Sequence[str], file: TextIO) -> None:
    """Writes the matrix that these arguments ask for."""
    args = options(arguments)
    feed = Feed(args.feed)
    feet = closed_footpaths(len(feed.stops), feed.direct_footpaths(args.footpaths), args.walk)
    changes = feed.change_times()
    origins = [r["stop_id"] for r in rows(args.origins)] if args.origins else feed.stops
    counts = {r["stop_id"]: int(r["opportunities"]) for r in rows(args.opportunities)} if args.opportunities else None
    columns = [r["stop_id"] for r in rows(args.destinations)] if args.destinations else feed.stops
    out = csv.writer(file, lineterminator="\n")
    out.writerow(["scenario", "origin", "share"] + [f"access_{limit}" for limit in args.within] + columns)
    for scenario in [None] + args.scenario:
        name = os.path.basename(scenario).removesuffix(".csv") if scenario else "base"
        runs = network(feed, args, scenario)
        for origin in origins:
            table = [durations(runs, feet, changes, feed.stop_no[origin], d, args.trips) for d in args.departures]
            for share in args.share:
                cells = [cell([times[stop] for times in table], share) for stop in range(len(feed.stops))]
                access = [access_of(cells, feed.stops, counts, limit) for limit in args.within]
                cells_shown = [
                    "" if cells[feed.stop_no[stop]] is None else cells[feed.stop_no[stop]] for stop in columns
                ]
                out.writerow([name, origin, share] + access + cells_shown)


if __name__ == "__main__":
    write_matrix(sys.argv[1:], sys.stdout)
