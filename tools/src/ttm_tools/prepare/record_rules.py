"""Rules that empty a field or remove a record that is refused still; and rules for times of trips, and headways."""

from typing import Sequence

import numpy as np

from ..core.times import as_clock
from ..gtfs.calls import Calls, calls_of
from ..gtfs.check import faults_in
from ..gtfs.columns import one_of, values_of
from ..gtfs.feeds import names_in
from ..gtfs.fields import number, time
from ..gtfs.tables import Table
from .repair import Repair, Rows

OF_TRIPS = ("no time", "times go back")  # faults of whole trips
HALF_A_DAY, DAY = 43_200, 86_400
OPTIONAL = ("location_type", "pickup_type", "drop_off_type", "arrival_time", "departure_time")  # may be empty
LEFT_OUT = {
    "empty id": "identifier",
    **dict.fromkeys(("unknown stop", "unknown route"), "unknown"),
    **dict.fromkeys(("bad number", "bad time", "bad date"), "value"),
}


def mend_faults(repair: Repair, table: Table) -> None:
    """Empties the fields, or leaves out the records, that are still refused."""
    while faults := [
        fault
        for fault in faults_in(repair.feed, table.name)
        if len(fault.rows) and not fault.is_limit and fault.what not in OF_TRIPS
    ]:
        fault = faults[0]
        rows = np.asarray(fault.rows, dtype=np.intp)
        if fault.column in OPTIONAL:
            repair.put(table, fault.column, rows, [""] * len(rows), "value")
        elif fault.what == "duplicate id":
            leave_out_repeats(repair, table, rows, fault.column)
        elif fault.what == "unknown trip":
            old = np.array([table.text("trip_id", int(row)) in repair.gone for row in rows], dtype=np.bool_)
            repair.leave_out_both(table, rows, fault.column, old, ("trip", "unknown"))
        else:
            repair.leave_out(table, rows, fault.column, LEFT_OUT[fault.what])


def leave_out_repeats(repair: Repair, table: Table, rows: Rows, column: str) -> None:
    """Rules `same` and `duplicate`: of one identifier, or one sequence number of a trip, the first counts."""
    keys = ("trip_id", "stop_sequence") if column == "stop_sequence" else (column,)
    columns = [table[name].codes for name in table.columns]
    wanted = {key_of(table, keys, int(row)) for row in rows}
    maybe = np.flatnonzero(one_of(table[keys[0]], {str(key[0]) for key in wanted}))
    first = {key_of(table, keys, row): row for row in reversed(maybe.tolist())}
    firsts = [first[key_of(table, keys, int(row))] for row in rows]
    same = np.array([all(column[a] == column[b] for column in columns) for a, b in zip(rows, firsts)], dtype=np.bool_)
    repair.leave_out_both(table, rows, column, same, ("same", "duplicate"))


def key_of(table: Table, keys: Sequence[str], row: int) -> tuple[object, ...]:
    """What distinguishes a record from others: its identifier, or its trip and its number along it."""
    return tuple(number(table.text(key, row)) if key == "stop_sequence" else table.text(key, row) for key in keys)


def mend_trips(repair: Repair, table: Table) -> None:
    """Rules `midnight`, `back` and `ends`."""
    names = names_in(repair.feed, "trips.txt", "trip_id")
    if names is None or table.name != "stop_times.txt":
        return
    leave_out_ends(repair, table, calls_of(table, names), names)
    calls = calls_of(table, names)
    lost, later = dict[str, int](), dict[str, list[tuple[int, str]]]()
    for trip in np.unique(calls.trip[calls.goes_back]):
        places = slice(*np.searchsorted(calls.trip, [trip, trip + 1]))
        moved = a_day_later(table, calls, places)
        if moved is None:
            lost[names[trip]] = int(calls.rows[places][np.flatnonzero(calls.goes_back[places])[0]])
        for column, row, text in moved or ():
            later.setdefault(column, []).append((row, text))
    for column, cells in later.items():
        repair.put(table, column, np.array([row for row, _ in cells]), [text for _, text in cells], "midnight")
    if lost:
        repair.leave_out_trips("back", lost)


def leave_out_ends(repair: Repair, table: Table, calls: Calls, names: Sequence[str]) -> None:
    """Rule `ends`: leaves out calls before a trip's first time and after its last, and trips without a time."""
    before = (calls.before < 0) & ~calls.timed
    after = (calls.after >= len(calls.rows)) & ~calls.timed
    trips = np.unique(calls.trip[before & after])
    never = table.records[calls.rows[np.searchsorted(calls.trip, trips)]]
    rows = np.sort(calls.rows[(before | after) & ~np.isin(calls.trip, trips)])
    repair.leave_out(table, rows, "arrival_time", "ends")
    if len(trips):
        where = np.searchsorted(table.records, never).tolist()
        repair.leave_out_trips("ends", dict(zip((names[trip] for trip in trips), where)))


def a_day_later(table: Table, calls: Calls, places: slice) -> list[tuple[str, int, str]] | None:
    """Rule `midnight`: the fields that change where times fall by half a day; None if the trip goes back even then."""
    last, added, moved = 0, 0, list[tuple[str, int, str]]()
    for place in range(places.start, places.stop):
        for name, values in (("arrival_time", calls.arrival), ("departure_time", calls.departure)):
            if values[place] < 0:
                continue
            added += DAY if values[place] + added < last - HALF_A_DAY else 0
            value, row = int(values[place]) + added, int(calls.rows[place])
            if value < last or value >= 168 * 3600:
                return None
            last = value
            if added and time(table.text(name, row)) >= 0:
                moved.append((name, row, as_clock(value)))
    return moved


def mend_headways(repair: Repair, table: Table) -> None:
    """Rule `headway`: empty rows go; one that begins before another of its trip ends begins then, or goes."""
    if table.name != "frequencies.txt":
        return
    start, end = (values_of(table[name], time) for name in ("start_time", "end_time"))
    trip = table["trip_id"].codes.astype(np.int64)
    gone, later, last, before = list[int](), list[int](), 0, -1
    begins: list[str] = []
    for row in np.lexsort((start, trip)):
        last, before = (last if trip[row] == before else 0), int(trip[row])
        begin = max(int(start[row]), last)
        if end[row] <= begin:
            gone.append(int(row))
            continue
        if begin > start[row]:
            later.append(int(row))
            begins.append(as_clock(begin))
        last = int(end[row])
    repair.put(table, "start_time", np.array(later, dtype=np.intp), begins, "headway")
    repair.leave_out(table, np.sort(np.array(gone, dtype=np.intp)), "start_time", "headway")
