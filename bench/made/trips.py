"""The trips of a made feed: each line in both directions, with running times that grow in the peaks."""

import math
import random
from dataclasses import dataclass
from typing import Iterable, Iterator, Sequence, TextIO

from made.lines import PEAKS, Line
from made.streets import SPACING, Stops, Streets
from shared import clock

FIRST = 5 * 3600 + 1800  # first departures at 05:30
END = 24 * 3600 + 1800  # last departures before 00:30
TO_SCHOOL, FROM_SCHOOL = (7 * 3600 + 600,), (13 * 3600, 15 * 3600 + 1800)  # departures of school lines
CLOCK = [clock(second) for second in range(32 * 3600)]


def slowness(time: float) -> float:
    """1 off the peaks, 1.25 in them, with slopes of an hour."""
    hour = time / 3600
    slopes = (min(hour - (first - 1), (last + 1) - hour, 1) for first, last in PEAKS)
    return 1 + 0.25 * max(0, *slopes)


@dataclass
class Course:
    """A line in one direction: the stops that it calls at, and the seconds between each two off the peaks."""

    line: Line
    route: str
    direction: int
    stops: list[str]
    legs: list[float]

    def trips(self, rnd: random.Random) -> "Iterator[Trip]":
        """Draws all trips of a day."""
        if self.line.is_for_school:
            for number, time in enumerate((TO_SCHOOL, FROM_SCHOOL)[self.direction]):
                yield self.draw_trip(number, time + rnd.randrange(1200), rnd)
            return
        time = FIRST + rnd.randrange(0, self.line.headways.day * 60)
        number = 0
        while time < END:
            yield self.draw_trip(number, time, rnd)
            time += self.line.headways.at(time) + rnd.randrange(-20, 21)
            number += 1

    def draw_trip(self, number: int, time: int, rnd: random.Random) -> "Trip":
        """One trip; a few of a long line are short workings, which call at its first or last two thirds."""
        first, last = 0, len(self.stops) - 1
        if len(self.stops) > 14 and rnd.random() < 0.04:
            if rnd.random() < 0.5:
                first = len(self.stops) // 3
            else:
                last = 2 * len(self.stops) // 3
        factor = slowness(time) * rnd.uniform(0.97, 1.03)
        name = f"{self.route}-{self.direction}-{number:03}"
        service = "SCHOOL" if self.line.is_for_school else "WD" if number % 7 == 3 else "ALL"
        return Trip(self, name, service, range(first, last + 1), time, factor)


@dataclass(frozen=True)
class Trip:
    course: Course
    name: str  # its identifier
    service: str
    calls: range  # the positions of its stops in the course
    time: int  # at which it would leave the course's first stop, in seconds
    factor: float  # of its running times

    def record(self) -> str:
        """Its record in trips.txt."""
        return f"{self.course.route},{self.service},{self.name},{self.course.direction}"

    def stop_times(self) -> Iterator[str]:
        """Its records in stop_times.txt."""
        first, last, legs = self.calls[0], self.calls[-1], self.course.legs
        dwell = 25 if self.course.line.is_rail else 0
        now = float(self.time + sum(legs[:first]))
        for at in self.calls:
            arrival = int(now)
            departure = arrival + (dwell if first < at < last else 0)
            times, stop = f"{CLOCK[arrival]},{CLOCK[departure]}", self.course.stops[at]
            yield f"{self.name},{times},{stop},{at + 1},{int(at == last)},{int(at == first)}\n"
            if at < last:
                now = departure + legs[at] * self.factor


def stop_towards(streets: Streets, stops: Stops, nodes: Sequence[int], at: int) -> str:
    """The bus stop of a node for the way that a line takes there."""
    start, end = (nodes[at], nodes[at + 1]) if at + 1 < len(nodes) else (nodes[at - 1], nodes[at])
    to_the_north = sum(streets.cells[end]) > sum(streets.cells[start])
    return stops.stops[2 * nodes[at] + (0 if to_the_north else 1)].name


def leg(streets: Streets, line: Line, start: int, end: int) -> float:
    """The seconds from a node to the next."""
    (x, y), (u, v) = streets.places[start], streets.places[end]
    metres = math.hypot(x - u, y - v)
    if line.is_rail:
        return metres * 1.1 / 14.0 + 25
    far = min(1.0, math.hypot(x, y) / (streets.radius * SPACING))
    return metres * 1.15 / (5.5 + 2.5 * far) + 14


def routes_of(lines: Sequence[Line]) -> list[str]:
    """The identifier of each line."""
    return [("R%04d" if line.is_rail else "L%04d") % number for number, line in enumerate(lines)]


def courses_of(streets: Streets, stops: Stops, lines: Sequence[Line]) -> Iterator[Course]:
    """Both directions of each line."""
    for line, route in zip(lines, routes_of(lines)):
        for direction, nodes in enumerate((line.nodes, line.nodes[::-1])):
            if line.is_rail:
                calls = [stops.stops[stops.stations[node] + direction].name for node in nodes]
            else:
                calls = [stop_towards(streets, stops, nodes, at) for at in range(len(nodes))]
            legs = [leg(streets, line, start, end) for start, end in zip(nodes, nodes[1:])]
            yield Course(line, route, direction, calls, legs)


def write_stop_times(file: TextIO, courses: Iterable[Course], rnd: random.Random) -> tuple[list[str], int]:
    """Draws all trips and writes their stop times as they come; gives their records, and the number of events."""
    file.write("trip_id,arrival_time,departure_time,stop_id,stop_sequence,pickup_type,drop_off_type\n")
    records, events = list[str](), 0
    for course in courses:
        for trip in course.trips(rnd):
            file.write("".join(trip.stop_times()))
            records.append(trip.record())
            events += len(trip.calls)
    return records, events
