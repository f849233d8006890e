"""The rows of a matrix, joined to the origins by position."""

from __future__ import annotations

from typing import Any, Iterator, Sequence

from .engine import Matrix
from .places import Places
from .run import scenario_of
from .values import Times

Row = Sequence[Sequence["int | None"]]  # for each percentile the seconds to each destination that has a point


class Rows:
    """The rows of a matrix, origin by origin, with those that have no point.

    Parameters
    ----------
    matrix
        The matrix of the origins that have a point, in their order.
    """

    def __init__(self, matrix: Matrix, times: Times, origins: Places, to: Places, scenario: str = "") -> None:
        self.matrix, self.times, self.origins, self.destinations = matrix, times, origins, to
        self.scenario = scenario or scenario_of(times)
        self.middle = times.percentiles.index(times.middle)
        if matrix.files and matrix.destinations(self.scenario) != to.names:
            raise AssertionError("the columns of the matrix are not the destinations")
        self.column = {position: place for place, position in enumerate(to.points)}

    def by_origin(self) -> Iterator[tuple[int, Row | None]]:
        """Yield each origin's position with its row, or None if it has no point."""
        rows = self.matrix.rows(self.scenario, self.times.most_seconds)
        with_point = set(self.origins.points)
        for position in range(len(self.origins.features)):
            if position not in with_point:
                yield position, None
                continue
            row = []
            for share in self.times.percentiles:
                name, percentile, seconds = next(rows)
                expected = (f"{self.origins.prefix}{position + 1}", share, len(self.column))
                if (name, percentile, len(seconds)) != expected:
                    raise AssertionError(f"the matrix has {name}, {percentile}, {len(seconds)} in place of {expected}")
                row.append(seconds)
            yield position, row

    def nearest(self, row: Row | None) -> list[Any]:
        """Return the nearest destination, the seconds to it for each percentile, and how many are reached."""
        empty = [None] * (len(self.times.percentiles) + 1)
        if row is None:
            return [*empty, None]
        reached = [(seconds, place) for place, seconds in enumerate(row[self.middle]) if seconds is not None]
        if not reached:
            return [*empty, 0]
        _, place = min(reached)
        identifier = self.destinations.identifiers[self.destinations.points[place]]
        return [identifier, *(seconds[place] for seconds in row), len(reached)]

    def each(self, row: Row | None) -> list[Any]:
        """Return the seconds to each destination, for each percentile."""
        return [seconds for place in range(len(self.destinations.features)) for seconds in self.pair(row, place)]

    def pair(self, row: Row | None, position: int) -> list[Any]:
        """Return the seconds to one destination, for each percentile."""
        place = self.column.get(position)
        if row is None or place is None:
            return [None] * len(self.times.percentiles)
        return [seconds[place] for seconds in row]
