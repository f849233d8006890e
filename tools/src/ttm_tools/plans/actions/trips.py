"""What happens to trips: they are taken out or shifted, call at fewer stops, go on to further ones, or end earlier."""

from dataclasses import replace

import numpy as np

from ...core.arrays import Mask, Whole
from ...core.limits import LAST_TIME
from ...core.text import display_text, first_few, quantity
from ...core.toml_file import Entry
from ...core.toml_values import near, nearest_name, whole
from ...gtfs.modes import MODES, mode_of
from ..base import NO_ROW
from ..choice import chosen, routes_of, stop_named, stop_shown, stops_named
from ..new_records import ROUTE_TYPE
from ..state import State, Trip, in_range
from .lines import run_times


def remove(state: State, entry: Entry) -> list[str]:
    """Takes out trips, or all trips of routes."""
    for trip in trips_about(state, entry):
        state.drop(trip)
    return []


def shift(state: State, entry: Entry) -> list[str]:
    """Moves all times of trips, or of routes."""
    trips, seconds = trips_about(state, entry), entry.read("seconds", whole(-LAST_TIME, LAST_TIME))
    if seconds == 0:
        raise entry.fault("changes nothing", "seconds", "0")
    for trip in trips:
        in_range(entry, trip.moved(seconds))
        state.move(trip, seconds)
    return []


def remove_modes(state: State, entry: Entry) -> list[str]:
    """Takes out all trips of the routes of some modes, and names these routes."""
    modes = entry.texts("mode")
    for mode in modes:
        entry.known("mode", mode, MODES, f"is not one of {', '.join(MODES)}")
    routes = [route for route in [*state.base.by_route, *state.lines] if mode_in(state, route) in modes]
    trips = [trip for route in routes for trip in state.of_route(route)]
    if not trips:
        raise entry.fault("has no trips in this scenario, so nothing changes", "mode", ", ".join(modes))
    for trip in trips:
        state.drop(trip)
    gone = dict.fromkeys(trip.route for trip in trips)
    return [f"{quantity(len(gone), 'route')} removed: {first_few([*map(display_text, gone)])}"]


def mode_in(state: State, route: str) -> str:
    """The mode of a route of the feed, or of a new line."""
    if route in state.lines:
        return mode_of(state.lines[route].read("type", ROUTE_TYPE, MODES["bus"]))
    return mode_of(state.base.route_types.get(route, -1))


def trips_about(state: State, entry: Entry) -> list[Trip]:
    return trips_of_routes(state, entry) if entry.text("do").endswith("route") else trips_named(state, entry)


def trips_of_routes(state: State, entry: Entry) -> list[Trip]:
    """All trips of the routes that are named, each of which has some."""
    trips_found = []
    for route in routes_of(state, entry):
        trips = state.of_route(route)
        if entry.has("direction"):
            direction = str(entry.read("direction", whole(0, 1)))
            trips = [trip for trip in trips if trip.direction.strip() == direction]
        if not trips:
            raise entry.fault("has no trips in this scenario, so nothing changes", "route", route)
        trips_found += trips
    return trips_found


def trips_named(state: State, entry: Entry) -> list[Trip]:
    trips = []
    for name in dict.fromkeys(entry.texts("trip")):
        if name in state.own:
            trips.append(state.own[name])
            continue
        place = state.base.numbers.get(name, -1)
        if place < 0:
            fault = entry.fault(f"is not a trip of the feed{near(name, state.base.trips)}", "trip", name)
            raise fault.noting(nearest=nearest_name(name, state.base.trips))
        if not state.kept[place]:
            message = "is already removed" if state.base.lengths[place] else "never runs: it has no calls at stops"
            raise entry.fault(f"{message}, so nothing changes", "trip", name)
        trips.append(state.trip(place))
    return trips


def remove_stop(state: State, entry: Entry) -> list[str]:
    """Takes calls at stops out of trips; one that is left with a single call is taken out."""
    stops, lost = stops_named(state, entry, "stop"), 0
    trips = chosen(state, entry) if entry.has("route") else trips_calling(state, stops)
    trips = [trip for trip in trips if np.isin(trip.stop, stops).any()]
    if not trips:
        named = ", ".join(stop_shown(state, stop) for stop in stops)
        raise entry.fault("is not a stop at which these trips call, so nothing changes", "stop", named)
    for trip in trips:
        rest = kept_calls(trip, ~np.isin(trip.stop, stops))
        if rest is None:
            lost += 1
            state.drop(trip)
        else:
            state.change(trip, in_range(entry, rest))
    return sentences_on_lost(lost)


def sentences_on_lost(lost: int) -> list[str]:
    return [f"{quantity(lost, 'trip')} removed because only one call was left"] if lost else []


def trips_calling(state: State, stops: list[int]) -> list[Trip]:
    """All trips that call at some of the stops."""
    base = state.base
    calls = np.flatnonzero(np.isin(base.stop, stops))
    places = np.unique(np.searchsorted(base.begins, calls, side="right") - 1)
    own = [trip for trip in state.own.values() if np.isin(trip.stop, stops).any()]
    return [*map(state.trip, places[state.kept[places]].tolist()), *own]


def kept_calls(trip: Trip, kept: Mask) -> Trip | None:
    """A trip with some of its calls, at the times that they had; none where one call alone is left."""
    if kept.sum() < 2:
        return None
    columns = {name: getattr(trip, name)[kept] for name in ("stop", "arrive", "depart", "row")}
    rest = replace(trip, **columns)
    return rest.leaving(int(rest.depart[0] - trip.depart[0]))


def extend(state: State, entry: Entry) -> list[str]:
    """Trips that end at a stop go on to further ones, or those that begin there begin earlier."""
    key = entry.one_of("after", "before")
    place = 0 if key == "before" else -1
    stop, trips = stop_named(state, entry, key, entry.text(key)), chosen(state, entry)
    found = [trip for trip in trips if trip.stop[place] == stop]
    if not found:
        ends = sorted({stop_shown(state, int(trip.stop[place])) for trip in trips})
        message = f"is not a stop at which trips of the route {'begin' if place == 0 else 'end'}"
        fault = entry.fault(f"{message}{near(entry.text(key), ends)}", key, entry.text(key))
        raise fault.noting(nearest=nearest_name(entry.text(key), ends))
    further = np.array(stops_named(state, entry, "stops"), dtype=np.int64)
    way = np.append(further, stop) if place == 0 else np.append(stop, further)
    run, dwell = run_times(state, entry, way)
    for trip in found:
        longer = begun_earlier(trip, further, run, dwell) if place == 0 else gone_on(trip, further, run, dwell)
        state.change(trip, in_range(entry, longer))
    return []


def gone_on(trip: Trip, further: Whole, run: Whole, dwell: int) -> Trip:
    """A trip that goes on behind its last stop, which it leaves after the dwell time at the earliest."""
    left = max(int(trip.depart[-1]), int(trip.arrive[-1]) + dwell)
    arrive = left + np.cumsum(run) + dwell * np.arange(len(run))
    depart = arrive + dwell
    depart[-1] = arrive[-1]
    none = np.full(len(further) + 1, NO_ROW)  # boarding is allowed where the trip ended
    return replace(
        trip,
        stop=np.concatenate([trip.stop, further]),
        arrive=np.concatenate([trip.arrive, arrive]),
        depart=np.concatenate([trip.depart[:-1], [left], depart]),
        row=np.concatenate([trip.row[:-1], none]),
        redrawn=True,
    )


def begun_earlier(trip: Trip, further: Whole, run: Whole, dwell: int) -> Trip:
    """A trip that calls at some stops before its first one, which it leaves when it did."""
    reached = int(trip.depart[0]) - dwell
    depart = reached - np.cumsum(run[::-1])[::-1] - dwell * np.arange(len(run))[::-1]
    arrive = depart - dwell
    arrive[0] = depart[0]
    longer = replace(
        trip,
        stop=np.concatenate([further, trip.stop]),
        arrive=np.concatenate([arrive, [reached], trip.arrive[1:]]),
        depart=np.concatenate([depart, trip.depart]),
        row=np.concatenate([np.full(len(further) + 1, NO_ROW), trip.row[1:]]),
        redrawn=True,
    )
    return longer.leaving(int(depart[0] - trip.depart[0]))


def cut(state: State, entry: Entry) -> list[str]:
    """Trips end at their first call at a stop, or begin at their last call there."""
    key, lost, done = entry.one_of("after", "before"), 0, 0
    stop = stop_named(state, entry, key, entry.text(key))
    for trip in chosen(state, entry):
        kept = kept_by(trip, stop, key == "after")
        if kept.all():
            continue
        rest, done = kept_calls(trip, kept), done + 1
        if rest is None:
            lost += 1
            state.drop(trip)
        else:
            state.change(trip, replace(rest, redrawn=True))
    if not done:
        raise entry.fault("leaves all trips of the route as they are", key, entry.text(key))
    return sentences_on_lost(lost)


def kept_by(trip: Trip, stop: int, ends: bool) -> Mask:
    """Which calls a trip keeps that ends, or begins, at a stop; all where it doesn't call there."""
    found, numbers = np.flatnonzero(trip.stop == stop), np.arange(len(trip.stop))
    if not len(found):
        return np.ones(len(numbers), dtype=np.bool_)
    return np.asarray(numbers <= found[0] if ends else numbers >= found[-1], dtype=np.bool_)
