"""A feed cut down to a region, to some routes or agencies, or to some service days.

Stops outside are left out, and trips keep the calls that stay, two at least. Journeys by way of places outside are
lost; all others are as they were: open times are written as `ttm` fills them, and headways hold for the first call that
stays.
"""

import datetime
import itertools
from dataclasses import dataclass
from typing import Any, Iterator, Sequence

import numpy as np

from ..core.arrays import Floats, Mask, Whole
from ..core.errors import InputError, needs
from ..core.reading import as_one_line, read_json
from ..core.tables import rows
from ..core.text import display_text
from ..core.times import as_clock
from ..core.toml_values import nearest_name
from ..gtfs.calls import Calls, calls_of
from ..gtfs.columns import distinct, is_group_start, one_of, positions_of, values_of
from ..gtfs.feeds import Feed, names_in, parents_of
from ..gtfs.fields import FILES, number, time
from ..gtfs.likely import places_of
from ..gtfs.service_days import on_days
from ..gtfs.tables import Table
from .references import leave_out_references, there

Box = tuple[float, float, float, float]  # west, south, east, north in degrees
SHAPES = ("Polygon", "MultiPolygon")


@dataclass(frozen=True)
class Clip:
    """What is kept of a feed; all of it where nothing is said."""

    box: Box | None = None
    area: str | None = None  # path of a GeoJSON file
    routes: Sequence[str] = ()
    agencies: Sequence[str] = ()
    days: Sequence[datetime.date] = ()

    @property
    def is_region(self) -> bool:
        return self.box is not None or self.area is not None

    @property
    def is_any(self) -> bool:
        return self.is_region or bool(self.routes or self.agencies or self.days)


def clip(feed: Feed, options: Clip) -> list[str]:
    """Leaves out what isn't chosen, and what refers to it, a sentence a line. The feed has no faults but limits."""
    before, counts = there(feed), {name: len(table) for name, table in feed.tables.items()}
    trips = feed.tables["trips.txt"]
    trips.keep(of_routes(feed, options) & on_days(feed, options.days))
    if options.is_region:
        kept = of_region(feed.tables["stops.txt"], options)
        if not kept.any():
            raise InputError(options.area or "--box", "no stop of the feed lies in it")
        keep_calls(feed, kept)
        feed.tables["stops.txt"].keep(kept)
    keep_trips(feed)
    if options.routes or options.agencies:
        keep_called(feed)
    if options.is_region or options.routes or options.agencies:
        routes = feed.tables["routes.txt"]
        routes.keep(one_of(routes["route_id"], names_in(feed, "trips.txt", "route_id") or []))
    walks, named = feed.get("transfers.txt"), {*(names_in(feed, "stops.txt", "stop_id") or []), ""}
    walks.keep(one_of(walks["from_stop_id"], named) & one_of(walks["to_stop_id"], named))
    lost = {name: counts[name] - len(feed.get(name)) for name in FILES if name in counts}
    stated = [f"{name} {count:,} of {counts[name]:,}" for name, count in lost.items() if count]
    line = f"left out: {', '.join(stated)}" if stated else "nothing is left out"
    return [line, *leave_out_references(feed, before)]


def of_routes(feed: Feed, options: Clip) -> Mask:
    routes, trips = feed.tables["routes.txt"], feed.tables["trips.txt"]
    agencies = agencies_of(feed) if options.agencies else [""] * len(routes)
    kept = routes.texts("route_id")
    for name, wanted, known in (("route", options.routes, kept), ("agency", options.agencies, agencies)):
        lost = [name for name in wanted if name not in set(known)]
        if lost:
            place = {"column": f"{name}_id", "value": lost[0], "nearest": nearest_name(lost[0], known)}
            raise InputError("routes.txt", f"no {name} {display_text(lost[0])}").noting(**place)
    among, of = set(options.routes or kept), set(options.agencies or agencies)
    chosen = [route for route, agency in zip(kept, agencies) if route in among and agency in of]
    return one_of(trips["route_id"], chosen)


def agencies_of(feed: Feed) -> list[str]:
    """The agency of each route; where it names none, the only one of the feed."""
    path = feed.others.get("agency.txt")
    known = [agency for _, (agency,) in rows(path, [], ["agency_id"])] if path else []
    only = known[0] if len(known) == 1 else ""
    return [text or only for text in feed.tables["routes.txt"].texts("agency_id")]


def near(stops: Table, options: Clip) -> set[str] | None:
    """The locations of a region, faults or not; none if no region is given, or nothing can be said of it."""
    if not options.is_region or "stop_id" not in stops:
        return None
    return set(distinct(stops["stop_id"], of_region(stops, options)))


def of_region(stops: Table, options: Clip) -> Mask:
    """Which locations stay: stops inside, by their stations where they have no place; stations; parts of both."""
    kinds, parents = np.maximum(values_of(stops["location_type"], number), 0), parents_of(stops)
    latitudes, longitudes = places_of(stops)
    lost = np.isnan(latitudes) & (parents >= 0)
    latitudes, longitudes = (np.where(lost, degrees[parents], degrees) for degrees in (latitudes, longitudes))
    inside = np.zeros(len(stops), dtype=np.bool_)
    inside[within(latitudes, longitudes, options)] = True
    called = inside & (kinds == 0)
    kept = called | (kinds == 1) & (inside | named_by(called, parents))
    return with_parts(kept, kinds, parents)


def named_by(children: Mask, parents: Whole) -> Mask:
    """Which locations some others name as their parents."""
    named = np.zeros(len(parents) + 1, dtype=np.bool_)
    named[parents[children]] = True
    return named[:-1]


def with_parts(kept: Mask, kinds: Whole, parents: Whole) -> Mask:
    """Some locations with what belongs to them: an entrance of a station, a boarding area of a platform."""
    for _ in range(2):
        kept = np.asarray(kept | (kinds > 1) & (parents >= 0) & kept[parents], dtype=np.bool_)
    return kept


def within(latitudes: Floats, longitudes: Floats, options: Clip) -> Whole:
    """Which places are in the box and the area, edges included."""
    found = np.flatnonzero(~np.isnan(latitudes))
    if options.box is not None:
        west, south, east, north = options.box
        x, y = longitudes[found], latitudes[found]
        across = (x >= west) & (x <= east) if west <= east else (x >= west) | (x <= east)
        found = found[across & (y >= south) & (y <= north)]
    if options.area is not None:
        found = found[in_area(longitudes[found], latitudes[found], options.area)]
    return found


def in_area(x: Floats, y: Floats, path: str) -> Mask:
    """Which places are in the polygons of a GeoJSON file."""
    needs("shapely")
    from shapely.geometry import Point, shape
    from shapely.prepared import prep

    inside = np.zeros(len(x), dtype=np.bool_)
    for geometry in polygons_of(path):
        try:
            polygon = shape(geometry)
            west, south, east, north = polygon.bounds
        except Exception as fault:  # whatever shapely says of an invalid polygon
            raise InputError(path, f"an invalid polygon: {fault}") from None
        if not (-180 <= west and east <= 180 and -90 <= south and north <= 90):
            raise InputError(path, "coordinates that are not degrees", allowed="longitude and latitude, WGS 84")
        near = np.flatnonzero((x >= west) & (x <= east) & (y >= south) & (y <= north))
        ready = prep(polygon)
        inside[near] |= np.array([ready.intersects(Point(x[place], y[place])) for place in near], dtype=np.bool_)
    return inside


def polygons_of(path: str) -> list[dict[str, Any]]:
    read = read_json(path, "GeoJSON")
    with as_one_line(path, "is not GeoJSON"):
        polygons = list(geometries(read))
    if not polygons:
        raise InputError(path, "no polygon in it", allowed="a GeoJSON Polygon or MultiPolygon, or features of these")
    return polygons


def geometries(read: Any) -> Iterator[dict[str, Any]]:
    """The polygons of a GeoJSON object."""
    if not isinstance(read, dict):
        return
    if read.get("type") in SHAPES:
        yield read
    lists = [listed for listed in (read.get("features"), read.get("geometries")) if isinstance(listed, list)]
    for part in [read.get("geometry"), *itertools.chain(*lists)]:
        yield from geometries(part)


def keep_calls(feed: Feed, kept: Mask) -> None:
    """Leaves out the calls at stops that go, the trips of fewer than two calls, and those that are set aside."""
    stops, table, trips = (feed.tables[name] for name in ("stops.txt", "stop_times.txt", "trips.txt"))
    names = distinct(stops["stop_id"], kept)
    order = trips.texts("trip_id")
    calls = calls_of(table, order)
    stays = one_of(table["stop_id"], names)[calls.rows]
    counts = np.bincount(calls.trip[stays], minlength=len(order))
    stays &= counts[calls.trip] >= 2
    write_open_times(feed, calls, stays)
    shift_headways(feed, calls, stays, order)
    staying = np.zeros(len(table), dtype=np.bool_)
    staying[calls.rows[stays]] = True
    table.keep(staying)
    trips.keep(counts >= 2)


def write_open_times(feed: Feed, calls: Calls, stays: Mask) -> None:
    """Writes the open times of trips that lose a call as they are with all their calls."""
    losing = np.zeros(int(calls.trip.max(initial=-1)) + 1, dtype=np.bool_)
    losing[calls.trip[~stays]] = True
    open_ones = np.flatnonzero(stays & ~calls.timed & losing[calls.trip])
    arrival, departure = calls.filled()
    table = feed.tables["stop_times.txt"]
    for name, values in (("arrival_time", arrival), ("departure_time", departure)):
        table.put(name, calls.rows[open_ones], [as_clock(int(value)) for value in values[open_ones]])


def shift_headways(feed: Feed, calls: Calls, stays: Mask, order: Sequence[str]) -> None:
    """Moves the rows of frequencies.txt of a trip by what lies between its first call and the first that stays."""
    table = feed.get("frequencies.txt")
    if not len(table):
        return
    departure, firsts, staying = calls.filled()[1], np.flatnonzero(calls.is_first), np.flatnonzero(stays)
    own = staying[is_group_start(calls.trip[staying])]
    starts = firsts[np.searchsorted(calls.trip[firsts], calls.trip[own])]
    moved = np.zeros(len(order) + 1, dtype=np.int64)
    moved[calls.trip[own]] = departure[own] - departure[starts]
    by_row = moved[positions_of(table["trip_id"], order)]
    changed = np.flatnonzero(by_row)
    for name in ("start_time", "end_time"):
        times = values_of(table[name], time)[changed] + by_row[changed]
        late = changed[times >= 168 * 3600]
        if len(late):
            record = int(table.records[late[0]])
            raise InputError("frequencies.txt", "is past 167:59:59 once calls go", record=record, column=name)
        table.put(name, changed, [as_clock(int(time)) for time in times])


def keep_trips(feed: Feed) -> None:
    """Leaves out what belongs to trips that aren't there any more: stop times, headways, and their services."""
    of_trips, of_services = ("stop_times.txt", "frequencies.txt"), ("calendar.txt", "calendar_dates.txt")
    for column, files in (("trip_id", of_trips), ("service_id", of_services)):
        names = set(feed.tables["trips.txt"].texts(column))
        for table in map(feed.get, files):
            table.keep(one_of(table[column], names))


def keep_called(feed: Feed) -> None:
    """Leaves out the stops at which no trip calls, and stations without such a stop."""
    stops = feed.tables["stops.txt"]
    called, parents = one_of(stops["stop_id"], names_in(feed, "stop_times.txt", "stop_id") or []), parents_of(stops)
    stops.keep(with_parts(called | named_by(called, parents), values_of(stops["location_type"], number), parents))
