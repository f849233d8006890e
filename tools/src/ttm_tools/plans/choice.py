"""Which trips an action is about, and which of them run the same way."""

from typing import Sequence

from ..core.text import display_text
from ..core.toml_file import Entry
from ..core.toml_values import near, nearest_name, whole
from .state import State, Trip


def routes_of(state: State, entry: Entry) -> list[str]:
    names = entry.texts("route")
    for name in names:
        if name not in state.base.by_route and name not in state.lines:
            by_name, known = state.base.short_names.get(name), [*state.base.by_route, *state.lines]
            nearest = f"; the nearest is {by_name!r}, which has this name" if by_name else near(name, known)
            fault = entry.fault(f"is not a route of the feed or of the scenario{nearest}", "route", name)
            raise fault.noting(nearest=by_name or nearest_name(name, known))
    return list(dict.fromkeys(names))


def chosen(state: State, entry: Entry) -> list[Trip]:
    """The trips of the routes that an action names, of one direction, pattern or service where it says so."""
    trips = [trip for route in routes_of(state, entry) for trip in state.of_route(route)]
    if not trips:
        raise entry.fault("has no trips in this scenario", "route", ", ".join(entry.texts("route")))
    if entry.has("direction"):
        direction = str(entry.read("direction", whole(0, 1)))
        trips = [trip for trip in trips if trip.direction.strip() == direction]
    if entry.has("pattern"):
        trips = same_pattern(entry, trips)
    if entry.has("service"):
        service = entry.text("service")
        entry.known("service", service, {trip.service for trip in trips}, "is not a service of these trips")
        trips = [trip for trip in trips if trip.service == service]
    if not trips:
        raise entry.fault("no trip of the route has this direction_id, pattern and service", "direction")
    return trips


def same_pattern(entry: Entry, trips: Sequence[Trip]) -> list[Trip]:
    """The trips that call at the stops of the one that is named."""
    name = entry.text("pattern")
    found = [trip for trip in trips if trip.label == name]
    if not found:
        labels = [trip.label for trip in trips]
        message, allowed = f"is not one of these trips{near(name, labels)}", "a trip that calls at the pattern's stops"
        raise entry.fault(message, "pattern", name, allowed).noting(nearest=nearest_name(name, labels))
    return [trip for trip in trips if pattern_of(trip) == pattern_of(found[0])]


def pattern_of(trip: Trip) -> tuple[int, ...]:
    return tuple(trip.stop.tolist())


def directions_of(trips: Sequence[Trip]) -> list[list[Trip]]:
    """The trips of a route by direction_id where all state it, else those together with two stops in one order."""
    if all(trip.direction.strip() in ("0", "1") for trip in trips):
        directions = sorted({trip.direction.strip() for trip in trips})
        return [[trip for trip in trips if trip.direction.strip() == direction] for direction in directions]
    by_pattern: dict[tuple[int, ...], list[Trip]] = {}
    for trip in trips:
        by_pattern.setdefault(pattern_of(trip), []).append(trip)
    leads: list[tuple[tuple[int, ...], list[Trip]]] = []
    for pattern, some in sorted(by_pattern.items(), key=lambda item: (-len(item[1]), -len(item[0]))):
        mine = next((group for lead, group in leads if runs_along(pattern, lead)), None)
        if mine is None:
            leads.append((pattern, list(some)))
        else:
            mine.extend(some)
    return [group for _, group in leads]


def runs_along(pattern: Sequence[int], lead: Sequence[int]) -> bool:
    """Whether two patterns have two stops in the same order, or one of them is a part of the other."""
    places = {stop: place for place, stop in reversed(list(enumerate(lead)))}
    common = [places[stop] for stop in pattern if stop in places]
    return any(a < b for a, b in zip(common, common[1:])) or (len(pattern) < 2 and bool(common))


def stop_named(state: State, entry: Entry, key: str, name: str) -> int:
    """A stop of the feed or of the plan."""
    places = state.base.places
    if name not in places.places:
        by_name = [stop for stop, shown_name in zip(places.identifiers, places.names) if shown_name == name]
        nearest = f"; the nearest is {by_name[0]!r}, which has this name" if by_name else near(name, places.places)
        fault = entry.fault(f"is not a stop of the feed or of the plan{nearest}", key, name)
        raise fault.noting(nearest=by_name[0] if by_name else nearest_name(name, places.places))
    return places.places[name]


def stops_named(state: State, entry: Entry, key: str) -> list[int]:
    return [stop_named(state, entry, key, name) for name in entry.texts(key)]


def stop_shown(state: State, stop: int) -> str:
    return display_text(state.base.places.identifiers[stop])
