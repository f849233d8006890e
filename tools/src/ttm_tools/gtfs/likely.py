"""What isn't a fault but likely not meant: days, columns, places, speeds, transfers. Each is a sentence of its own."""

import difflib
import re
from pathlib import Path
from typing import Iterator

import numpy as np

from ..core.arrays import Floats
from ..core.notices import Notice
from ..core.text import display_text, grouped, quantity
from .calls import Calls, calls_of
from .columns import distinct, one_of, positions_of
from .feeds import Feed, is_stop, stops_of, used_transfers
from .fields import FILES
from .projection import metres_between, middle_of
from .service_days import days_of, runs_by_day
from .stops import EARTH, place_of
from .tables import Table

COMMA = re.compile(r"[+-]?[0-9]+,[0-9]+")
FASTEST = 300  # km/h
FAR, TIMES_FAR = 100.0, 10  # km from the middle of all stops; times the median of these distances
NO_RUNS = "no trip runs on any day"
WEEK = ("Mondays", "Tuesdays", "Wednesdays", "Thursdays", "Fridays", "Saturdays", "Sundays")
PLACES = ("stop_lat", "stop_lon", "stop_name")


def sentences(feed: Feed, with_days: bool = True) -> Iterator[str]:
    """What is reported of a feed in addition to its errors; its days if it has none."""
    yield from unclosed(feed)
    yield from misspelt(feed)
    if feed.has_columns("stops.txt"):
        for some in (unplaced, with_commas, far_off, formulas):
            yield from some(feed.tables["stops.txt"])
    if feed.has_columns("trips.txt"):
        yield from of_days(feed) if with_days else ()
        if feed.has_columns("stop_times.txt"):
            yield from of_trips(feed)
    table = feed.get("transfers.txt")
    unused = int((~used_transfers(table)).sum())
    if unused:
        why = "with a type above 2, for a route or trip, or without a time"
        of = f"{unused:,} of {quantity(len(table), 'row')} {'is' if unused == 1 else 'are'}n't used"
        yield Notice(f"transfers.txt: {of} ({why})", "feed", unused)


def unclosed(feed: Feed) -> Iterator[str]:
    """Files whose last record has a quote that is never closed, so that all lines behind it are one field."""
    for name, table in feed.tables.items():
        if table.source is None or not len(table) or not has_odd_quotes(table.source):
            continue
        texts = [(column, table.text(column, len(table) - 1)) for column in table.columns]
        lines = max(text.count("\n") for _, text in texts)
        if lines:
            which = f"record {table.records[-1]}: a quote is never closed"
            text = f"{name}: {which}, so the {quantity(lines, 'line')} behind it are part of one field"
            yield Notice(text, "feed", lines)


def has_odd_quotes(path: Path) -> bool:
    """Whether a file has an odd number of quotes."""
    count = 0
    with open(path, "rb") as file:
        while block := file.read(1 << 20):
            count += block.count(b'"')
    return count % 2 == 1


def misspelt(feed: Feed) -> Iterator[str]:
    """Columns whose names are nearly those that are read, where the right ones aren't there."""
    for name, table in feed.tables.items():
        right = (*FILES[name].needed, *FILES[name].taken, *(PLACES if name == "stops.txt" else ()))
        lacking = {plain(column): column for column in right if column not in table}
        for column in (column for column in table.columns if column not in right):
            for near in difflib.get_close_matches(plain(column), lacking, 1, 0.85):
                yield Notice(f"{name}: the column {column!r} isn't read: is {lacking[near]} meant?", "feed", 1)


def renamed_columns(table: Table) -> dict[str, str]:
    """Each column with the name of one that is read and lacking, if only capitals, spaces or signs differ."""
    layout = FILES[table.name]
    right = (*layout.needed, *layout.taken, *(PLACES if table.name == "stops.txt" else ()))
    lacking = {plain(column): column for column in right if column not in table}
    return {name: lacking.pop(plain(name), name) if name not in right else name for name in table.columns}


def plain(name: str) -> str:
    return "".join(letter for letter in name.lower() if letter.isalnum())


def places_of(table: Table) -> tuple[Floats, Floats]:
    """Latitudes and longitudes of all locations, NaN without a place."""
    places = np.array(list(map(place_of, table.texts("stop_lat"), table.texts("stop_lon"))), np.float64).reshape(-1, 2)
    return places[:, 0], places[:, 1]


def unplaced(table: Table) -> Iterator[str]:
    lost = np.flatnonzero(np.isnan(places_of(table)[0]) & is_stop(table))
    if len(lost):
        first = display_text(table.text("stop_id", int(lost[0])))
        text = f"stops.txt: {quantity(len(lost), 'stop')} without coordinates, or at 0 and 0, such as {first}"
        yield Notice(text, "place", len(lost))


def with_commas(table: Table) -> Iterator[str]:
    """Places with a comma where a point is meant."""
    columns = table["stop_lat"], table["stop_lon"]
    wrong = [text for column in columns for text in column.categories if COMMA.fullmatch(text.strip())]
    if wrong:
        count = int((one_of(columns[0], wrong) | one_of(columns[1], wrong)).sum())
        stops, example = quantity(count, "stop"), display_text(wrong[0])
        yield Notice(f"stops.txt: {stops} with a decimal comma in a coordinate, such as {example}", "feed", count)


def far_off(table: Table) -> Iterator[str]:
    """Stops much farther from the middle of all stops than most, such as one in another country."""
    latitudes, longitudes = places_of(table)
    placed = np.flatnonzero(~np.isnan(latitudes))
    if not len(placed):
        return
    ends = longitudes[placed], latitudes[placed]
    north, east = middle_of(latitudes, longitudes)
    distances = metres_between(*ends, np.full(len(placed), east), np.full(len(placed), north)) / 1000
    limit = max(FAR, TIMES_FAR * float(np.median(distances)))
    far = np.flatnonzero(distances > limit)
    if len(far):
        most = far[np.argmax(distances[far])]
        which = f"the farthest, {display_text(table.text('stop_id', int(placed[most])))}, {distances[most]:,.0f} km"
        text = f"stops.txt: {quantity(len(far), 'stop')} over {limit:,.0f} km from the middle of all stops; {which}"
        yield Notice(text, "feed", len(far))


def formulas(table: Table) -> Iterator[str]:
    """Names that a spreadsheet takes for formulas, in tables that have them."""
    column = table["stop_name"]
    wrong = [text for text in column.categories if text[:1] in tuple("=+-@")]
    count = int(one_of(column, wrong).sum())
    if count:
        names, example = quantity(count, "name"), display_text(wrong[0])
        yield Notice(f"stops.txt: {names} that a spreadsheet reads as a formula, such as {example}", "feed", count)


def of_days(feed: Feed) -> Iterator[str]:
    """The days on which trips run, and how many on each weekday."""
    days = days_of(feed)
    runs = runs_by_day(feed, days)
    busy = np.flatnonzero(runs)
    if not len(busy):
        yield Notice(NO_RUNS, "no service")
        return
    first, last, most = (days.day(int(place)) for place in (busy[0], busy[-1], runs.argmax()))
    yield f"runs from {first} to {last}; the most, {runs.max():,}, on {most}"
    covered = np.arange(busy[0], busy[-1] + 1)
    weekday = (days.first + covered - 1) % 7
    counts = [runs[covered][weekday == day] for day in range(7)]
    medians = [f"{name} {grouped(float(np.median(count)))}" for name, count in zip(WEEK, counts) if len(count)]
    yield f"runs on {', '.join(medians)} (medians)"


def of_trips(feed: Feed) -> Iterator[str]:
    table, names = feed.tables["stop_times.txt"], feed.tables["trips.txt"]["trip_id"].categories.tolist()
    calls = calls_of(table, names)
    single = int((calls.is_first & calls.is_last).sum())
    if single:
        yield Notice(f"stop_times.txt: {quantity(single, 'trip')} with a single stop", "feed", single)
    if feed.has_columns("stops.txt"):
        stops = feed.tables["stops.txt"]
        called = set(distinct(stops["stop_id"], ~one_of(stops["stop_id"], stops_of(feed) or [])))
        count = int(one_of(table["stop_id"], called - {""}).sum())
        if count:
            text = f"stop_times.txt: {quantity(count, 'call')} at a station or another location that is not a stop"
            yield Notice(text, "feed", count)
        yield from too_fast(table, stops, calls)


def too_fast(table: Table, stops: Table, calls: Calls) -> Iterator[str]:
    """Calls reached at over 300 km/h; each way takes a minute at least, as times are often in whole minutes."""
    latitudes, longitudes = (np.radians(np.append(degrees, np.nan)) for degrees in places_of(stops))
    known = {stop: row for row, stop in reversed(list(enumerate(stops.texts("stop_id"))))}
    place = positions_of(table["stop_id"], known)[calls.rows]
    follows = np.flatnonzero(calls.timed & (calls.before >= 0))
    start, end = place[calls.before[follows]], place[follows]
    turn = (longitudes[end] - longitudes[start] + np.pi) % (2 * np.pi) - np.pi  # the shorter way at the date line
    east = turn * np.cos((latitudes[end] + latitudes[start]) / 2)
    metres = EARTH * np.hypot(east, latitudes[end] - latitudes[start])
    seconds = np.maximum(calls.arrival[follows] - calls.departure[calls.before[follows]], 60)
    fast = np.flatnonzero(metres / seconds * 3.6 > FASTEST)
    if len(fast):
        most = fast[np.argmax(metres[fast] / seconds[fast])]
        record, speed = table.records[calls.rows[follows[most]]], metres[most] / seconds[most] * 3.6
        which = f"the fastest, record {record}, at {speed:,.0f}"
        text = f"stop_times.txt: {quantity(len(fast), 'call')} reached at over {FASTEST} km/h; {which}"
        yield Notice(text, "feed", len(fast))
