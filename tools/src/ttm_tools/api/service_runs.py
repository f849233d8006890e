"""What the measures of service take: the runs of a scenario on a day, and how long each trip is."""

import datetime

import numpy as np

from ..core.arrays import Floats
from ..gtfs.projection import metres_between
from ..gtfs.timetable import Edits, Timetable, runs_of
from ..measures.service import ServiceCalls, ServiceRuns


def running_on(timetable: Timetable, date: datetime.date, edits: Edits, lengths: Floats) -> ServiceRuns:
    """The runs of the service day itself; lengths are the kilometres of each trip."""
    runs, events = runs_of(timetable, date, (0, 0), edits), timetable.events
    begins = events.begins[runs.trip]
    counts = events.begins[runs.trip + 1] - begins
    run = np.repeat(np.arange(len(counts)), counts)
    position = np.arange(len(run)) - np.repeat(np.cumsum(counts) - counts, counts)
    event = begins[run] + position
    kept = position < counts[run] - 1
    depart = events.depart[event] + runs.shift[run]
    calls = ServiceCalls(
        run[kept],
        events.stop[event[kept]],
        depart[kept],
        position[kept],
        events.stop[np.minimum(event[kept] + 1, len(events.stop) - 1)],
    )
    start, end = events.depart[begins] + runs.shift, events.arrive[begins + counts - 1] + runs.shift
    return ServiceRuns(runs.trip, start, end, lengths[runs.trip], calls)


def straight_lengths(timetable: Timetable, longitudes: Floats, latitudes: Floats) -> Floats:
    """Return the kilometres of each trip, straight from stop to stop on the ellipsoid. A stop without a place is passed
    over.
    """
    events, count = timetable.events, len(longitudes)
    placed = ~np.isnan(longitudes[events.stop])
    trip = np.repeat(np.arange(len(timetable.trips)), np.diff(events.begins))[placed]
    stop = events.stop[placed].astype(np.int64)
    follows = np.flatnonzero(np.diff(trip) == 0)
    pairs, which = np.unique(stop[follows] * count + stop[follows + 1], return_inverse=True)
    one, other = pairs // count, pairs % count
    metres = metres_between(longitudes[one], latitudes[one], longitudes[other], latitudes[other])
    kilometres = np.zeros(len(timetable.trips))
    np.add.at(kilometres, trip[follows + 1], metres[which] / 1000)
    return kilometres
