"""Studies of the small feed whose files are wrong, as data: which line refuses them, and what a report explains."""

from __future__ import annotations

from collections.abc import Mapping, Sequence

from study_cases import (
    ACTIONS,
    CHANCES,
    Case,
    DATES,
    DAYS,
    Files,
    HEADWAYS,
    LATE_DATE,
    T1,
    TIMES,
    TOO_EARLY,
    TRANSFERS,
    TRIPS,
    WALKS,
    refused,
)

# what stands after a file is wrong, too, or isn't there: the first fault is told
AFTER: Mapping[str, Files] = {
    "stops.txt": {"routes.txt": None, "calendar.txt": None, "trips.txt": None, "stop_times.txt": None},
    "routes.txt": {"calendar.txt": ""},
    "calendar.txt": {"calendar_dates.txt": ""},
    "calendar_dates.txt": {"trips.txt": ""},
    "trips.txt": {"stop_times.txt": ""},
}

Fault = tuple[str, str, str]  # a file, its text, and the record and what is wrong with it


def faults(name: str, *rows: Fault) -> list[Case]:
    """Studies that are refused for a file."""
    return [
        refused(f"{name}: {number}", {**AFTER.get(file, {}), file: text}, f"{file.removesuffix('.csv')}: {line}")
        for number, (file, text, line) in enumerate(rows, 1)
    ]


def absent(*files: str) -> Case:
    """A study of which files aren't there, and the first is told."""
    return refused(f"without {', '.join(files)}", {file: None for file in files}, f"{files[0]}: missing file")


ABSENT = [absent(name) for name in ("stops.txt", "routes.txt", "calendar.txt", "trips.txt", "stop_times.txt")]
ABSENT.append(absent("routes.txt", "trips.txt", "stop_times.txt"))

T2_AT_B = "T2,08:15:00,08:15:00,B,1\n"
T2_BACK = "T2,08:15:00,08:15:00,B,2\nT2,08:30:00,08:30:00,C,1\n"
A_STATION = "location_type,stop_id\n1,S\n,A\n0,B\n2,E\n00,C\n"
FAULTS = [
    *faults(
        "columns that are absent",
        ("stops.txt", "", "record 1: missing column"),
        ("stops.txt", "stop_name\nAlpha\n", "record 1: missing column"),
        ("trips.txt", "service_id,trip_id\nMON,T1\n", "record 1: missing column"),
        ("trips.txt", "route_id,trip_id\nR1,T1\n", "record 1: missing column"),
        ("trips.txt", "route_id,service_id\n", "record 1: missing column"),
        ("stop_times.txt", "trip_id,stop_id\n", "record 1: missing column"),
        ("stop_times.txt", "trip_id,stop_sequence\n", "record 1: missing column"),
        ("stop_times.txt", "stop_id,stop_sequence\n", "record 1: missing column"),
        ("stop_times.txt", "", "record 1: missing column"),
    ),
    *faults(
        "columns of the calendars and of routes",
        ("routes.txt", "agency_id\n1\n", "record 1: missing column"),
        (
            "calendar.txt",
            "service_id,monday,tuesday,wednesday,thursday,friday,saturday,start_date,end_date\n",
            "record 1: missing column",
        ),
        ("calendar_dates.txt", "service_id,date\n", "record 1: missing column"),
        ("frequencies.txt", "", "record 1: missing column"),
    ),
    *faults(
        "stops",
        ("stops.txt", 'stop_id\nA\n""\nC\n', "record 3: empty id"),
        ("stops.txt", "stop_id\nA\nB\nA\nC\n", "record 4: duplicate id"),
        ("stops.txt", "stop_id,location_type\nA,x\nA,\n", "record 2: bad number"),
        ("stops.txt", "stop_id,location_type\nA,\nA,x\n", "record 3: duplicate id"),
        ("stops.txt", "location_type,stop_id\nx,\n", "record 2: empty id"),
    ),
    *faults(
        "routes and calendars",
        ("routes.txt", "route_id\nR1\nR1\n", "record 3: duplicate id"),
        ("routes.txt", "route_id,route_type\nR1,3\n,3\n", "record 3: empty id"),
        (
            "calendar.txt",
            DAYS + "MON,1,0,0,0,0,0,0,20260504,20260531\nMON,1,0,0,0,0,0,0,20260504,20260531\n",
            "record 3: duplicate id",
        ),
        ("calendar.txt", DAYS + ",1,0,0,0,0,0,0,20260504,20260531\n", "record 2: empty id"),
        ("calendar.txt", DAYS + "MON,1,0,0,0,0,0,2,20260504,20260531\n", "record 2: bad number"),
        ("calendar.txt", DAYS + "MON,1,0,0,0,0,0,0,20260504,20260532\n", "record 2: bad date"),
    ),
    *faults(
        "dates",
        ("calendar_dates.txt", DATES + "MON,20260504,1\n,20260504,1\n", "record 3: empty id"),
        ("calendar_dates.txt", DATES + "MON,20260230,1\n", "record 2: bad date"),
        ("calendar_dates.txt", DATES + "MON,20260504,3\n", "record 2: bad number"),
    ),
    *faults(
        "trips",
        ("trips.txt", TRIPS + "R1,MON,T1\nR2,MON,T1\nR2,MON,T2\n", "record 3: duplicate id"),
        ("trips.txt", TRIPS + "R1,MON,T1\nR2,MON,\nR2,MON,T2\n", "record 3: empty id"),
        ("trips.txt", TRIPS + ",MON,T1\nR2,MON,T2\n", "record 2: empty id"),
        ("trips.txt", TRIPS + "R1,,T1\nR2,MON,T2\n", "record 2: empty id"),
        ("trips.txt", TRIPS + "R1,MON,T1\nR3,,T1\n", "record 3: unknown route"),
    ),
    *faults(
        "frequencies",
        ("frequencies.txt", HEADWAYS + "T1,08:00:00,09:00:00,600\n,,,\n", "record 3: empty id"),
        ("frequencies.txt", HEADWAYS + "T9,08:00:00,09:00:00,600\n", "record 2: unknown trip"),
        ("frequencies.txt", HEADWAYS + "T1,8,09:00:00,600\n", "record 2: bad time"),
        ("frequencies.txt", HEADWAYS + "T1,08:00:00,,600\n", "record 2: bad time"),
        ("frequencies.txt", HEADWAYS + "T1,08:00:00,09:00:00,0\n", "record 2: bad number"),
    ),
    *faults(
        "identifiers of stop times",
        (
            "stop_times.txt",
            TIMES + "T1,08:00:00,08:00:00,A,1\n,08:10:00,08:10:00,B,2\nT2,08:15:00,08:15:00,B,1\n",
            "record 3: empty id",
        ),
        (
            "stop_times.txt",
            TIMES + "T1,08:00:00,08:00:00,A,1\nT9,08:10:00,08:10:00,B,2\nT2,08:15:00,08:15:00,B,1\n",
            "record 3: unknown trip",
        ),
        (
            "stop_times.txt",
            TIMES + "T1,08:00:00,08:00:00,A,1\nT1,08:10:00,08:10:00,Z,2\nT2,08:15:00,08:15:00,B,1\n",
            "record 3: unknown stop",
        ),
    ),
    *faults(
        "numbers of stop times",
        ("stop_times.txt", TIMES + T1 + "T2,08:15:00,08:15:00,B,1\nT2,08:30", "record 5: bad number"),
        (
            "stop_times.txt",
            TIMES + "T1,08:00:00,08:00:00,A,1\nT1,08:10:00,08:10:00,B,-2\nT2,08:15:00,08:15:00,B,1\n",
            "record 3: bad number",
        ),
        (
            "stop_times.txt",
            TIMES + "T1,08:00:00,08:00:00,A,2\nT1,08:10:00,08:10:00,B,002\nT2,08:15:00,08:15:00,B,1\n",
            "record 3: duplicate id",
        ),
    ),
    *faults(
        "times of stop times",
        (
            "stop_times.txt",
            TIMES + "T1,08:00:00,08:00:00,A,1\nT1,8:60:00,08:10:00,B,2\nT2,08:15:00,08:15:00,B,1\n",
            "record 3: bad time",
        ),
        (
            "stop_times.txt",
            TIMES + "T1,08:00:00,08:00:00,A,1\nT1,08:10:00,168:00:00,B,2\nT2,08:15:00,08:15:00,B,1\n",
            "record 3: bad time",
        ),
        (
            "stop_times.txt",
            TIMES + "T1,,,A,1\nT1,08:10:00,08:10:00,B,2\nT2,08:15:00,08:15:00,B,1\n",
            "record 2: no time",
        ),
        (
            "stop_times.txt",
            TIMES + "T1,08:00:00,08:00:00,A,1\nT1, ,,B,2\nT2,08:15:00,08:15:00,B,1\n",
            "record 3: no time",
        ),
    ),
    *faults(
        "the first of two faults",
        ("stop_times.txt", TIMES + "T9,08:00:00,x,,\n", "record 2: unknown trip"),
        ("stop_times.txt", TIMES + "T1,x,x,Z,x\n", "record 2: unknown stop"),
        ("stop_times.txt", TIMES + "T1,08:00:00,08:00:00,A,1\nT1,x,x,B,1\n", "record 3: duplicate id"),
    ),
    *faults(
        "trips that go back in time",
        # T2 goes back in the third record, T1 in the fifth and fourth; T1 comes first in trips.txt
        (
            "stop_times.txt",
            TIMES + T2_BACK + "T1,08:10:00,08:09:00,B,2\nT1,08:00:00,08:00:00,A,1\n",
            "record 4: times go back",
        ),
        (
            "stop_times.txt",
            TIMES + T2_BACK + "T1,08:00:00,08:00:00,A,1\nT1,08:10:00,08:10:00,B,2\n",
            "record 2: times go back",
        ),
        ("stop_times.txt", TIMES + "T1,08:00:00,08:05:00,A,1\nT1,08:04:59,08:10:00,B,2\n", "record 3: times go back"),
        ("stop_times.txt", TIMES + "T1,08:00:00,07:00:00,A,1\nT1,08:10:00,x,B,2\n", "record 3: bad time"),
    ),
    refused(
        "a station is no stop",
        {"stops.txt": A_STATION, "stop_times.txt": TIMES + "T1,08:00:00,08:00:00,S,1\n"},
        "stop_times.txt: record 2: unknown stop",
    ),
    *faults(
        "stops and trips of a study",
        ("stops.txt", "stop\nA\n", "record 1: missing column"),
        ("stops.txt", "stop_id,x\nA,\n,y\n", "record 3: empty id"),
        ("stops.txt", "stop_id\nA\nA\n", "record 3: duplicate id"),
        ("trips.txt", TRIPS + "R9,MON,T1\n", "record 2: unknown route"),
    ),
    *faults(
        "stop times of a study",
        ("stop_times.txt", "trip_id,stop_id,stop_sequence\nT1,Z,1\n", "record 2: unknown stop"),
        ("stop_times.txt", "trip_id,stop_id,stop_sequence\nT9,A,1\n", "record 2: unknown trip"),
        ("stop_times.txt", TIMES + T1 + T2_AT_B + "T2,08:30", "record 5: bad number"),
        ("stop_times.txt", "trip_id,stop_id,stop_sequence\nT1,A,1\n", "record 2: no time"),
        ("stop_times.txt", "trip_id,stop_id,stop_sequence,arrival_time\nT1,A,1,8:0\n", "record 2: bad time"),
        (
            "stop_times.txt",
            "trip_id,stop_id,stop_sequence,arrival_time\nT1,A,1,8:00:00\nT1,B,2,7:00:00\n",
            "record 3: times go back",
        ),
    ),
    *faults(
        "calendars and headways of a study",
        ("frequencies.txt", HEADWAYS + "T1,08:00:00,08:20:00,0\n", "record 2: bad number"),
        ("calendar_dates.txt", DATES + "MON,20261301,1\n", "record 2: bad date"),
    ),
    refused("footpaths", {"footpaths.csv": WALKS + "A,B,60\nA,Z,60\n"}, "footpaths.csv: record 3: unknown stop"),
    refused("origins", {"origins.csv": "stop_id\nA\nA\n"}, "origins: record 3: duplicate id"),
    refused("opportunities", {"opportunities.csv": CHANCES + "A,many\n"}, "opportunities: record 2: bad number"),
    refused("an unknown destination", {"destinations.csv": "stop_id\nZ\n"}, "destinations: record 2: unknown stop"),
    refused("a destination twice", {"destinations.csv": "stop_id\nB\nB\n"}, "destinations: record 3: duplicate id"),
    refused("an empty destination", {"destinations.csv": 'stop_id\n""\n'}, "destinations: record 2: empty id"),
    refused(
        "destinations without their column", {"destinations.csv": "stop\nB\n"}, "destinations: record 1: missing column"
    ),
    refused("an empty file of destinations", {"destinations.csv": ""}, "destinations: record 1: missing column"),
    refused(
        "an unknown action",
        {"cut.csv": "action,id\nstop_trip,T1\n"},
        "scenario cut: record 2: unknown action",
    ),
    refused("a shift too far", {"late.csv": TOO_EARLY}, "scenario late: record 2: shift out of range"),
]


def explained(name: str, *rows: tuple[str, str, str, str]) -> list[Case]:
    """Studies that are refused for a file: its text, the line, and what a report explains of it."""
    return [
        Case(f"{name}: {number}", {file: text}, {}, tells=f"ttm: {line}\n", explains=f"ttm: {more}\n")
        for number, (file, text, line, more) in enumerate(rows, 1)
    ]


NINES = "123456789_" * 6
NAME_IT = "stops.txt has to name it, as a stop (location_type 0 or empty)"
EXPLAINED = [
    *explained(
        "identifiers that are empty, or given twice",
        (
            "stops.txt",
            "stop_id,stop_name\nA,Alpha\n,Beta\n",
            "stops.txt: record 3: empty id",
            'column stop_id is ""; it may not be empty',
        ),
        (
            "stops.txt",
            "stop_id,stop_name\nA,Alpha\nA,Beta\n",
            "stops.txt: record 3: duplicate id",
            'column stop_id is "A"; a record before has the same',
        ),
        (
            "routes.txt",
            "route_id\nR1\nR1\n",
            "routes.txt: record 3: duplicate id",
            'column route_id is "R1"; a record before has the same',
        ),
        (
            "trips.txt",
            TRIPS + "R1,,T1\n",
            "trips.txt: record 2: empty id",
            'column service_id is ""; it may not be empty',
        ),
        (
            "footpaths.csv",
            WALKS + "A,,5\n",
            "footpaths.csv: record 2: empty id",
            'column to_stop_id is ""; it may not be empty',
        ),
    ),
    *explained(
        "names that no file gives",
        (
            "trips.txt",
            TRIPS + "R9,MON,T1\n",
            "trips.txt: record 2: unknown route",
            'column route_id is "R9"; routes.txt has to name it',
        ),
        (
            "stop_times.txt",
            TIMES + "T9,08:00:00,08:00:00,A,1\n",
            "stop_times.txt: record 2: unknown trip",
            'column trip_id is "T9"; trips.txt has to name it',
        ),
        (
            "stop_times.txt",
            TIMES + "T1,08:00:00,08:00:00,Z,1\n",
            "stop_times.txt: record 2: unknown stop",
            f'column stop_id is "Z"; {NAME_IT}',
        ),
        (
            "transfers.txt",
            TRANSFERS + "A,Z,2,60\n",
            "transfers.txt: record 2: unknown stop",
            'column to_stop_id is "Z"; stops.txt has to name it',
        ),
        (
            "footpaths.csv",
            WALKS + "Y,Z,60\n",
            "footpaths.csv: record 2: unknown stop",
            'column from_stop_id is "Y"; stops.txt has to name it',
        ),
        (
            "origins.csv",
            "stop_id\nA\nZ\n",
            "origins: record 3: unknown stop",
            f'column stop_id is "Z"; {NAME_IT}',
        ),
    ),
    *explained(
        "numbers that are none",
        (
            "stops.txt",
            "stop_id,location_type\nA,x\n",
            "stops.txt: record 2: bad number",
            'column location_type is "x"; it is empty or a number: digits alone, 0 to 4294967295',
        ),
        (
            "calendar.txt",
            DAYS + "MON,1,0,2,0,0,0,0,20260504,20260531\n",
            "calendar.txt: record 2: bad number",
            'column wednesday is "2"; a weekday is 0 or 1',
        ),
        (
            "calendar_dates.txt",
            DATES + "MON,20260504,3\n",
            "calendar_dates.txt: record 2: bad number",
            'column exception_type is "3"; it is 1 (the date is added) or 2 (it is removed)',
        ),
        (
            "frequencies.txt",
            HEADWAYS + "T1,08:00:00,09:00:00,0\n",
            "frequencies.txt: record 2: bad number",
            'column headway_secs is "0"; a headway is whole seconds, 1 to 4294967295',
        ),
        (
            "transfers.txt",
            TRANSFERS + "A,B,2,1.5\n",
            "transfers.txt: record 2: bad number",
            'column min_transfer_time is "1.5"; a number is digits alone, 0 to 4294967295',
        ),
        (
            "opportunities.csv",
            "stop_id,opportunities\nA,-1\n",
            "opportunities: record 2: bad number",
            'column opportunities is "-1"; a number is digits alone, 0 to 4294967295',
        ),
    ),
    *explained(
        "stop times",
        (
            "stop_times.txt",
            TIMES + "T1,08:60:00,08:00:00,A,1\n",
            "stop_times.txt: record 2: bad time",
            'column arrival_time is "08:60:00"; a time is H:MM:SS, 0:00:00 to 167:59:59',
        ),
        (
            "stop_times.txt",
            TIMES + "T1,08:00:00,8:00,A,1\n",
            "stop_times.txt: record 2: bad time",
            'column departure_time is "8:00"; a time is H:MM:SS, 0:00:00 to 167:59:59',
        ),
        (
            "stop_times.txt",
            TIMES + "T1,08:00:00,08:00:00,A,one\n",
            "stop_times.txt: record 2: bad number",
            'column stop_sequence is "one"; a number is digits alone, 0 to 4294967295',
        ),
        (
            "stop_times.txt",
            TIMES + "T1,08:00:00,08:00:00,A,1\nT1,08:10:00,08:10:00,B,1\n",
            "stop_times.txt: record 3: duplicate id",
            'column stop_sequence is "1"; another record of the trip has the same',
        ),
        (
            "stop_times.txt",
            TIMES + "T1,08:00:00,08:00:00,A,1\nT1,,,B,2\n",
            "stop_times.txt: record 3: no time",
            'column trip_id is "T1"; the first and the last stop time of a trip have an arrival_time or a '
            "departure_time",
        ),
        (
            "stop_times.txt",
            TIMES + "T1,08:00:00,08:00:00,A,1\nT1,07:10:00,07:11:00,B,2\n",
            "stop_times.txt: record 3: times go back",
            'column arrival_time is "07:10:00" and column departure_time is "07:11:00"; along a trip no time is '
            "before the one ahead of it",
        ),
    ),
    *explained(
        "dates and headers",
        (
            "calendar.txt",
            DAYS + "MON,1,0,0,0,0,0,0,20260504,20260231\n",
            "calendar.txt: record 2: bad date",
            'column end_date is "20260231"; a date is YYYYMMDD',
        ),
        (
            "trips.txt",
            "route_id,trip_id\nR1,T1\n",
            "trips.txt: record 1: missing column",
            "the header lacks column service_id; it has route_id, trip_id",
        ),
        (
            "calendar_dates.txt",
            DATES + "MON,4 May 2026 ä and so on and on and on and on and on and on and on,1\n",
            "calendar_dates.txt: record 2: bad date",
            'column date is "4 May 2026 ?? and so on and on and on and on and on and on a.."; a date is YYYYMMDD',
        ),
    ),
    *explained(
        "sixty bytes of a value are told, and the rest is cut",
        (
            "calendar_dates.txt",
            DATES + f"MON,{NINES},1\n",
            "calendar_dates.txt: record 2: bad date",
            f'column date is "{NINES}"; a date is YYYYMMDD',
        ),
        (
            "calendar_dates.txt",
            DATES + f"MON,{NINES}1,1\n",
            "calendar_dates.txt: record 2: bad date",
            f'column date is "{NINES}.."; a date is YYYYMMDD',
        ),
    ),
    *explained(
        "edits",
        (
            "cut.csv",
            ACTIONS + "drop_trip,T1,\n",
            "scenario cut: record 2: unknown action",
            'column action is "drop_trip"; an action is remove_route, remove_trip or shift_trip',
        ),
        (
            "cut.csv",
            ACTIONS + "remove_trip,T9,\n",
            "scenario cut: record 2: unknown trip",
            'column id is "T9"; trips.txt has to name it',
        ),
        (
            "cut.csv",
            ACTIONS + "shift_trip,T1,604800\n",
            "scenario cut: record 2: bad number",
            'column seconds is "604800"; a shift is whole seconds, -604799 to 604799',
        ),
        (
            "cut.csv",
            ACTIONS + "shift_trip,T1,-86400\n",
            "scenario cut: record 2: shift out of range",
            'column id is "T1"; all shifts of a trip together keep its times from 0 to 1999999 seconds',
        ),
        (
            "cut.csv",
            "action,seconds\nremove_trip,\n",
            "scenario cut: record 1: missing column",
            "the header lacks column id; it has action, seconds",
        ),
    ),
    *explained(
        "an open time is not what was refused",
        (
            "stop_times.txt",
            TIMES + "T1,,8:00,A,1\n",
            "stop_times.txt: record 2: bad time",
            'column departure_time is "8:00"; a time is H:MM:SS, 0:00:00 to 167:59:59',
        ),
    ),
    Case(
        "unknown destinations",
        {"origins.csv": "stop_id\nA\n", "destinations.csv": "name,stop_id\nx,C\ny,Z\n"},
        {},
        tells="ttm: destinations: record 3: unknown stop\n",
        explains=f'ttm: column stop_id is "Z"; {NAME_IT}\n',
    ),
    Case(
        "destinations whose column has another name",
        {"destinations.csv": "stop\nC\n"},
        {},
        tells="ttm: destinations: record 1: missing column\n",
        explains="ttm: the header lacks column stop_id; it has stop\n",
    ),
    Case(
        "days past the calendar",
        {},
        {"date": LATE_DATE},
        tells="ttm: date out of range\n",
        explains="ttm: the days of a study are in the years -9999 to 9999; "
        "with --back 0 --ahead 0 the date alone counts\n",
    ),
]


READERS = [
    *faults(
        "calendars: columns and identifiers",
        ("calendar.txt", "service_id,monday\nA,1\n", "record 1: missing column"),
        ("calendar.txt", DAYS + ",1,0,0,0,0,0,2,x,y\n", "record 2: empty id"),
        ("calendar.txt", DAYS + "A,1,0,0,0,0,0,1,20260504,20260531\nA,2\n", "record 3: duplicate id"),
    ),
    *faults(
        "calendars: flags and dates",
        ("calendar.txt", DAYS + "A,1,0,0,0,0,0,2,20260504,20260531\n", "record 2: bad number"),
        ("calendar.txt", DAYS + "A,,0,0,0,0,0,1,20260504,20260531\n", "record 2: bad number"),
        ("calendar.txt", DAYS + "A,1,0,0,0,0,0,1,20260230,20260531\n", "record 2: bad date"),
        ("calendar.txt", DAYS + "A,1,0,0,0,0,0,1,20260504,\n", "record 2: bad date"),
    ),
    *faults(
        "dates that are refused",
        ("calendar_dates.txt", DATES + ",x,3\n", "record 2: empty id"),
        ("calendar_dates.txt", DATES + "A,20260431,3\n", "record 2: bad date"),
        ("calendar_dates.txt", DATES + "A,20260430,1\nA,20260430,3\n", "record 3: bad number"),
        ("calendar_dates.txt", "service_id,date\nA,20260430\n", "record 1: missing column"),
    ),
    *faults(
        "trips that are refused",
        ("trips.txt", TRIPS + "R1,MON,T1\nR3,,\n", "record 3: unknown route"),
        ("trips.txt", TRIPS + "R1,MON,T1\nR1,MON,T1\n", "record 3: duplicate id"),
        ("trips.txt", TRIPS + "R1,,T1\n", "record 2: empty id"),
        ("trips.txt", TRIPS + "R1,MON,\n", "record 2: empty id"),
        ("trips.txt", "route_id,trip_id\nR1,T1\n", "record 1: missing column"),
    ),
    *faults(
        "headways: columns and trips",
        ("frequencies.txt", "trip_id,start_time,end_time\nT1,08:00:00,08:20:00\n", "record 1: missing column"),
        ("frequencies.txt", HEADWAYS + "T9,,,\n", "record 2: unknown trip"),
        ("frequencies.txt", HEADWAYS + "T1,08:00:00,08:20:00,1\n,,,\n", "record 3: empty id"),
    ),
    *faults(
        "headways: times and headways",
        ("frequencies.txt", HEADWAYS + "T1,,08:20:00,1\n", "record 2: bad time"),
        ("frequencies.txt", HEADWAYS + "T1,08:00:00,168:00:00,1\n", "record 2: bad time"),
        ("frequencies.txt", HEADWAYS + "T1,08:00:00,08:20:00,0\n", "record 2: bad number"),
    ),
    *faults(
        "stops that are refused",
        ("stops.txt", "", "record 1: missing column"),
        ("stops.txt", "stop,location_type\nA,\n", "record 1: missing column"),
        ("stops.txt", "stop_id,location_type\nA,\n,x\n", "record 3: empty id"),
        ("stops.txt", "stop_id,location_type\nA,\nA,x\n", "record 3: duplicate id"),
        ("stops.txt", "stop_id,location_type\nA,1 0\n", "record 2: bad number"),
    ),
    *faults(
        "routes that are refused",
        ("routes.txt", "route_id\nR1\nR1\n", "record 3: duplicate id"),
        ("routes.txt", "route_id,route_type\nR1,3\n,3\n", "record 3: empty id"),
        ("routes.txt", "route\nR1\n", "record 1: missing column"),
        ("routes.txt", "", "record 1: missing column"),
    ),
    *faults(
        "transfers that are refused",
        ("transfers.txt", TRANSFERS + "A,B,2,60\n,,two,\n", "record 3: bad number"),
        ("transfers.txt", TRANSFERS + "Z,Y,2,x\n", "record 2: unknown stop"),
        ("transfers.txt", TRANSFERS + "A,Y,,x\n", "record 2: unknown stop"),
        ("transfers.txt", TRANSFERS + "A,B,,60\nA,A,,x\n", "record 3: bad number"),
    ),
    *faults(
        "origins that are refused",
        ("origins.csv", 'stop_id\nA\n""\n', "record 3: empty id"),
        ("origins.csv", "stop_id\nA\nZ\n", "record 3: unknown stop"),
        ("origins.csv", "stop_id\nA\nB\nA\n", "record 4: duplicate id"),
        ("origins.csv", "stop\nA\n", "record 1: missing column"),
        ("origins.csv", "", "record 1: missing column"),
    ),
    *faults(
        "opportunities that are refused",
        ("opportunities.csv", "stop_id,opportunities\n,1\n", "record 2: empty id"),
        ("opportunities.csv", "stop_id,opportunities\nA,1\nZ,x\n", "record 3: unknown stop"),
        ("opportunities.csv", "stop_id,opportunities\nA,1\nA,x\n", "record 3: duplicate id"),
        ("opportunities.csv", "stop_id,opportunities\nA,1\nB,-1\n", "record 3: bad number"),
        ("opportunities.csv", "stop_id,opportunities\nA,4294967296\n", "record 2: bad number"),
        ("opportunities.csv", "stop_id\nA\n", "record 1: missing column"),
    ),
    *faults(
        "ends need times",
        (
            "stop_times.txt",
            "trip_id,stop_id,stop_sequence,arrival_time\nT1,C,3,09:00:00\nT1,B,2,09:00:00\nT1,A,1,\n",
            "record 4: no time",
        ),
        (
            "stop_times.txt",
            "trip_id,stop_id,stop_sequence,arrival_time\nT1,C,3,\nT1,B,2,09:00:00\nT1,A,1,09:00:00\n",
            "record 2: no time",
        ),
        ("stop_times.txt", "trip_id,stop_id,stop_sequence,arrival_time\nT1,B,2,\nT1,A,1,\n", "record 3: no time"),
        ("stop_times.txt", "trip_id,stop_id,stop_sequence\nT1,B,2\nT1,A,1\n", "record 3: no time"),
    ),
    *faults(
        "times that go back",
        (
            "stop_times.txt",
            "trip_id,stop_id,stop_sequence,arrival_time\nT1,A,1,09:00:00\nT1,B,2,08:59:00\nT1,C,3,09:10:00\n",
            "record 3: times go back",
        ),
        (
            "stop_times.txt",
            "trip_id,stop_id,stop_sequence,arrival_time\nT1,A,1,09:00:00\nT1,B,2,\nT1,C,3,08:59:59\n",
            "record 4: times go back",
        ),
        (
            "stop_times.txt",
            "trip_id,stop_id,stop_sequence,arrival_time,departure_time\nT1,A,1,09:00:01,09:00:00\n",
            "record 2: times go back",
        ),
        (
            "stop_times.txt",
            "trip_id,stop_id,stop_sequence,arrival_time\nT2,A,1,\nT1,A,1,09:00:00\nT1,B,2,08:59:00\n",
            "record 4: times go back",
        ),
    ),
    *faults(
        "stop times: columns",
        ("stop_times.txt", "trip_id,stop_id\nT1,A\n", "record 1: missing column"),
        ("stop_times.txt", "", "record 1: missing column"),
    ),
    *faults(
        "stop times: identifiers",
        ("stop_times.txt", "trip_id,stop_id,stop_sequence\n,A,1\n", "record 2: empty id"),
        ("stop_times.txt", "trip_id,stop_id,stop_sequence\nT3,A,1\n", "record 2: unknown trip"),
        ("stop_times.txt", "trip_id,stop_id,stop_sequence\nT1,D,1\n", "record 2: unknown stop"),
    ),
    *faults(
        "stop times: sequences",
        ("stop_times.txt", "trip_id,stop_id,stop_sequence\nT1,A,\n", "record 2: bad number"),
        ("stop_times.txt", "trip_id,stop_id,stop_sequence\nT1,A,  \n", "record 2: bad number"),
        (
            "stop_times.txt",
            "trip_id,stop_id,stop_sequence,arrival_time\nT1,A,1,09:00:00\nT2,A,1,09:00:00\nT1,B, 01 ,09:00:00\n",
            "record 4: duplicate id",
        ),
    ),
    *faults(
        "stop times: fields",
        ("stop_times.txt", "trip_id,stop_id,stop_sequence,arrival_time\nT1,A,1,09:00\n", "record 2: bad time"),
        ("stop_times.txt", "trip_id,stop_id,stop_sequence,departure_time\nT1,A,1,168:00:00\n", "record 2: bad time"),
        ("stop_times.txt", "trip_id,stop_id,stop_sequence,pickup_type\nT1,A,1,no\n", "record 2: bad number"),
        ("stop_times.txt", "trip_id,stop_id,stop_sequence,drop_off_type\nT1,A,1,-1\n", "record 2: bad number"),
    ),
    *faults(
        "stop times: the first of two faults, before times",
        ("stop_times.txt", "trip_id,stop_id,stop_sequence\nT3,D,x\n", "record 2: unknown trip"),
        ("stop_times.txt", "trip_id,stop_id,stop_sequence\nT1,D,x\n", "record 2: unknown stop"),
        ("stop_times.txt", "trip_id,stop_id,stop_sequence,arrival_time\nT1,A,x,x\n", "record 2: bad number"),
        (
            "stop_times.txt",
            "trip_id,stop_id,stop_sequence,arrival_time\nT1,A,1,09:00:00\nT1,A,1,x\n",
            "record 3: duplicate id",
        ),
    ),
    *faults(
        "stop times: the first of two faults of times",
        (
            "stop_times.txt",
            "trip_id,stop_id,stop_sequence,departure_time,pickup_type\nT1,A,1,x,x\n",
            "record 2: bad time",
        ),
        ("stop_times.txt", "trip_id,stop_id,stop_sequence,arrival_time\nT1,A,1,\nT1,B,2,x\n", "record 3: bad time"),
    ),
]

CASES: Sequence[Case] = [*ABSENT, *FAULTS, *READERS, *EXPLAINED]
