"""Keys of a plan's actions, checked: identifiers, times, the way of a line."""

import datetime as dt
from collections.abc import Sequence
from decimal import Decimal

import geopandas

from ..core.errors import ArgumentError
from ..core.limits import LAST_TIME
from ..core.question import Duration, TimeOfDay, not_allowed, seconds_given
from ..core.times import as_clock, clock_seconds
from .frames import Places, from_frame

WEEKDAYS = ("monday", "tuesday", "wednesday", "thursday", "friday", "saturday", "sunday")
NAMED_DAYS = ("daily", "weekdays", "weekend")
NEW_STOPS = "new_stops"  # the key of an action with the stops that it adds


def names(argument: str, given: Sequence[str]) -> list[str]:
    """Return identifiers as a list; there must be one at least."""
    if isinstance(given, str):
        given = [given]
    found = [str(name) for name in given]
    if not found or not all(found):
        raise not_allowed(argument, given, "one or more identifiers")
    return found


def whole_seconds(argument: str, given: Duration) -> int:
    seconds = seconds_given(argument, given)
    if seconds % 1:
        raise not_allowed(argument, given, "whole seconds")
    return int(seconds)


def clock(argument: str, given: TimeOfDay) -> str:
    """Return a time of the service day as HH:MM:SS, up to 167:59:59."""
    if isinstance(given, dt.time):
        given = given.strftime("%H:%M:%S")
    seconds = clock_seconds(given) if isinstance(given, str) else None
    if seconds is None or seconds > LAST_TIME:
        raise not_allowed(argument, given, f"HH:MM or HH:MM:SS, from 00:00 to {as_clock(LAST_TIME)}")
    return as_clock(seconds)


def decimal(number: float) -> Decimal:
    return Decimal(str(number))


def one_end(after: str | None, before: str | None) -> dict[str, str]:
    if (after is None) == (before is None):
        raise ArgumentError("give one of after and before: the stop at which trips end, or at which they begin")
    return {"after": after} if after is not None else {"before": str(before)}


def days_of(days: str) -> dict[str, object]:
    """Return the keys of a plan for the days of a line."""
    listed = days.split()
    if days in NAMED_DAYS:
        return {"days": days}
    return {"days": listed} if listed and all(day in WEEKDAYS for day in listed) else {"service": days}


def way_of(
    stops: Places, kmh: float | None, run_times: Sequence[Duration] | None, dwell: Duration
) -> dict[str, object]:
    """Return the keys of a plan for the stops of a line, and how long a vehicle takes between them."""
    if (kmh is None) == (run_times is None):
        raise ArgumentError("give one of kmh and run_times: a speed along straight lines, or times from stop to stop")
    way: dict[str, object] = {}
    if isinstance(stops, geopandas.GeoSeries):
        stops = geopandas.GeoDataFrame(geometry=stops)
    if isinstance(stops, geopandas.GeoDataFrame):
        found = from_frame("stops", stops)
        labels = found.frame["name"] if "name" in found.frame.columns else found.frame["id"]
        way["stops"] = named = [str(name) for name in found.identifiers]
        where = zip(named, labels, found.latitudes.tolist(), found.longitudes.tolist())
        way[NEW_STOPS] = tuple(
            {"id": name, "name": str(label), "lat": decimal(round(lat, 6)), "lon": decimal(round(lon, 6))}
            for name, label, lat, lon in where
        )
    else:
        way["stops"] = names("stops", stops)
    if kmh is not None:
        way["speed"] = decimal(kmh)
    else:
        way["seconds"] = [whole_seconds("run_times", one) for one in run_times or ()]
    return {**way, "dwell": whole_seconds("dwell", dwell)}
