"""The measures of docs/reference/measures.md in plain Python, over the rows of a matrix's CSV file, origin by origin
and person by person. They share no code with the tools.
"""

import csv
import math
from dataclasses import dataclass
from fractions import Fraction
from typing import Callable, Iterator, Mapping, Sequence

Counts = Mapping[str, float]
NaN = float("nan")


@dataclass(frozen=True)
class PlainMatrix:
    """The cells of a matrix: seconds by scenario and percentile, origin and destination, None where not reached."""

    stops: list[str]
    cells: dict[tuple[str, int], dict[str, dict[str, int | None]]]

    def access(self, counts: Counts, scenario: str, share: int, seconds: int) -> dict[str, float]:
        """The sum of what is counted within a limit, by origin."""
        return {
            origin: float(counted_within(row, counts, seconds)) for origin, row in self.cells[scenario, share].items()
        }

    def nearest(self, counts: Counts, scenario: str, share: int, number: float) -> dict[str, int | None]:
        """The least seconds within which an origin reaches a number of what is counted, None if it never does."""
        found = dict[str, int | None]()
        for origin, row in self.cells[scenario, share].items():
            limits = sorted({time for time in row.values() if time is not None})
            sums = {limit: counted_within(row, counts, limit) for limit in limits}
            found[origin] = next((limit for limit in limits if sums[limit] >= number), None)
        return found


def within(time: int | None, limit: float) -> bool:
    return time is not None and time <= limit


def counted_within(row: Mapping[str, int | None], counts: Counts, limit: float) -> Fraction:
    """The exact sum of what is counted at the destinations of a row within a limit."""
    return sum((Fraction(str(counts[stop])) for stop, time in row.items() if within(time, limit)), Fraction(0))


def read_matrix(path: str) -> PlainMatrix:
    """Reads a matrix with percentiles."""
    with open(path, newline="") as file:
        header, *rows = list(csv.reader(file))
    first = max(place for place, name in enumerate(header) if name.startswith("access_")) + 1
    matrix = PlainMatrix(header[first:], {})
    for scenario, origin, share, *more in rows:
        times = [int(text) if text else None for text in more[first - 3 :]]
        matrix.cells.setdefault((scenario, int(share)), {})[origin] = dict(zip(matrix.stops, times))
    return matrix


def persons(people: Mapping[str, int]) -> list[str]:
    """The origin of each person, twenty times, so that tenths and two fifths are whole numbers of them."""
    return [origin for origin, count in people.items() for _ in range(20 * count)]


def mean_of(values: Sequence[float]) -> float:
    return math.fsum(values) / len(values) if values else NaN


def mean_of_part(people: Mapping[str, int], rank: Counts, value: Counts, begin: float, end: float) -> float:
    """The mean value of those who stand between two parts of all by rank; people of one rank count as their mean."""
    ordered = sorted(persons(people), key=lambda origin: rank[origin])
    by_rank = dict[float, list[float]]()
    for origin in ordered:
        by_rank.setdefault(rank[origin], []).append(value[origin])
    means = {number: mean_of(values) for number, values in by_rank.items()}
    chosen = ordered[round(begin * len(ordered)) : round(end * len(ordered))]
    return mean_of([means[rank[origin]] for origin in chosen])


def least_for(people: Mapping[str, int], value: Callable[[str], float], part: float) -> float:
    """The least value that this part of the people don't exceed."""
    ordered = sorted(map(value, persons(people)))
    return ordered[math.ceil(part * len(ordered) - 1e-9) - 1]


def loss_percent(people: Mapping[str, int], loses: Callable[[str], bool]) -> float:
    return 100 * sum(count for origin, count in people.items() if loses(origin)) / sum(people.values())


def equity(base: Counts, access: Counts, people: Mapping[str, int]) -> dict[str, float]:
    """The columns of `ttm-tools equity`."""
    total, mean = sum(people.values()), mean_of([access[origin] for origin in persons(people)])
    apart = math.fsum(
        people[one] * people[other] * abs(access[one] - access[other]) for one in people for other in people
    )
    poorest = mean_of_part(people, access, access, 0, 0.4)
    richest = mean_of_part(people, access, access, 0.9, 1)
    change = {origin: access[origin] - base[origin] for origin in people}

    def loses(origin: str) -> bool:
        return change[origin] < 0 and -change[origin] >= 0.1 * base[origin] - 1e-9

    return {
        "people": total,
        "mean": mean,
        "median": least_for(people, lambda origin: access[origin], 0.5),
        "losers_percent": loss_percent(people, loses),
        "gini": apart / (2 * total**2 * mean) if mean else NaN,
        "palma": richest / poorest if poorest else NaN,
        "least_tenth": mean_of_part(people, access, access, 0, 0.1),
        "least_tenth_change": mean_of_part(people, base, change, 0, 0.1),
    }


def nearness(base: Counts, seconds: Counts, people: Mapping[str, int]) -> dict[str, float]:
    """The columns of `ttm-tools equity` of a table of the nearest, whose times are NaN where it isn't reached."""
    times, before = ({at: math.inf if math.isnan(s) else s for at, s in of.items()} for of in (seconds, base))
    there = [times[origin] for origin in persons(people) if times[origin] < math.inf]

    def minutes(part: float) -> float:
        found = least_for(people, times.__getitem__, part)
        return found / 60 if found < math.inf else NaN

    def loses(origin: str) -> bool:
        longer = times[origin] - before[origin] if before[origin] < math.inf else -1
        return longer > 0 and longer >= 0.1 * before[origin] - 1e-9

    return {
        "people": sum(people.values()),
        "reached_percent": loss_percent(people, lambda origin: times[origin] < math.inf),
        "mean_minutes": mean_of(there) / 60,
        "median_minutes": minutes(0.5),
        "nine_tenths_minutes": minutes(0.9),
        "losers_percent": loss_percent(people, loses),
    }


@dataclass(frozen=True)
class PairChange:
    origin: str
    destination: str
    what: str
    before: int | None
    after: int | None


def pair_changes(matrix: PlainMatrix, base: str, scenario: str, share: int, apart: int) -> Iterator[PairChange]:
    """The pairs that only one scenario reaches, and those whose travel times are more than `apart` seconds apart."""
    for origin, row in matrix.cells[base, share].items():
        for stop, before in row.items():
            after = matrix.cells[scenario, share][origin][stop]
            if before is not None and after is not None:
                if abs(after - before) > apart:
                    yield PairChange(origin, stop, "slower" if after > before else "faster", before, after)
            elif before != after:
                yield PairChange(origin, stop, "cut off" if after is None else "new", before, after)


def circles_area(circles: Sequence[tuple[float, float, float]], step: float) -> float:
    """The area of a union of circles (north, east, radius), by counting the midpoints of squares of this width."""
    if not circles:
        return 0.0
    low = [min(circle[axis] - circle[2] for circle in circles) for axis in (0, 1)]
    high = [max(circle[axis] + circle[2] for circle in circles) for axis in (0, 1)]
    rows, columns = (math.ceil((end - begin) / step) for begin, end in zip(low, high))
    inside = 0
    for row in range(rows):
        north = low[0] + (row + 0.5) * step
        spans = [
            (east - half, east + half)
            for middle, east, radius in circles
            if (half := math.sqrt(max(0.0, radius**2 - (north - middle) ** 2))) > 0
        ]
        inside += sum(
            any(begin <= low[1] + (column + 0.5) * step <= end for begin, end in spans) for column in range(columns)
        )
    return inside * step**2
