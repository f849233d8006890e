"""Legs of journeys: the calls of a ride, the vehicles of a journey, and a leg as it is shown."""

import datetime
from dataclasses import dataclass
from typing import Iterable

import numpy as np

from ..core.arrays import Floats
from ..gtfs.timetable import Events
from .search import Leg


@dataclass(frozen=True)
class DrawnLeg:
    """A leg of a journey as it is shown.

    Attributes
    ----------
    trip
        The position of the trip in the timetable; None for a walk.
    from_stop, to_stop
        The stops at its ends; None where an end is an origin or a destination.
    wait
        Seconds between the arrival before it and its departure.
    line
        Longitudes and latitudes along the leg.
    """

    trip: int | None
    from_stop: str | None
    to_stop: str | None
    departure: datetime.datetime
    arrival: datetime.datetime
    wait: int
    metres: float
    line: Floats

    @property
    def seconds(self) -> int:
        return int((self.arrival - self.departure).total_seconds())


def calls_of_ride(events: Events, trip: int, shift: int, leg: Leg) -> slice:
    """Returns the events of a trip from where a leg boards it to where it alights, both included.

    Parameters
    ----------
    shift
        Seconds that are added to the trip's times.
    """
    own = np.arange(events.begins[trip], events.begins[trip + 1])
    begin = own[(events.stop[own] == leg.start) & (events.depart[own] + shift == leg.begin)][0]
    ends = own[(events.stop[own] == leg.end) & (events.arrive[own] + shift == leg.finish) & (own > begin)]
    return slice(int(begin), int(ends[0]) + 1)


def ridden(legs: Iterable[Leg]) -> tuple[tuple[int | None, int, int], ...]:
    """Returns the vehicle and the ends of each leg: journeys with the same ones are shown once."""
    return tuple((leg.run, leg.start, leg.end) for leg in legs)
