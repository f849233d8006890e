"""Studies of the small feed as data: which files are other than its own, what is asked otherwise, and what is printed
or told.

T1 leaves A at 08:00 and arrives at B at 08:10, T2 leaves B at 08:15 and arrives at C at 08:30, on Mondays; a study is
of Monday, 4 May 2026, at 08:00 from A, by at most two rides and without walks. The texts follow from that by hand.
"""

from __future__ import annotations

from collections.abc import Mapping, Sequence
from dataclasses import dataclass, field

import small

Files = Mapping[str, str | None]  # their texts by their names; none where there is no such file
Asked = Mapping[str, str | int]  # texts of options by their names


@dataclass(frozen=True)
class Case:
    """A study, and the matrix that is printed or the line that refuses it; where a report explains the line, that too.

    Files that end in `.txt` are the feed's. What is named as an option is that option's file, and what else ends in
    `.csv` is a scenario.
    """

    name: str
    files: Files = field(default_factory=dict)
    asked: Asked = field(default_factory=dict)
    prints: str = ""
    tells: str = ""
    explains: str = ""


STOPS = "stop_id,stop_name\n"
TRIPS = "route_id,service_id,trip_id\n"
TIMES = "trip_id,arrival_time,departure_time,stop_id,stop_sequence\n"
DAYS = "service_id,monday,tuesday,wednesday,thursday,friday,saturday,sunday,start_date,end_date\n"
DATES = "service_id,date,exception_type\n"
HEADWAYS = "trip_id,start_time,end_time,headway_secs\n"
TRANSFERS = "from_stop_id,to_stop_id,transfer_type,min_transfer_time\n"
WALKS = "from_stop_id,to_stop_id,seconds\n"
CHANCES = "stop_id,opportunities\n"
ACTIONS = "action,id,seconds\n"

T1 = "T1,08:00:00,08:00:00,A,1\nT1,08:10:00,08:10:00,B,2\n"
T2 = "T2,08:15:00,08:15:00,B,1\nT2,08:30:00,08:30:00,C,2\n"
BOTH = "R1,MON,T1\nR2,MON,T2\n"
MONDAYS = "MON,1,0,0,0,0,0,0,20260504,20260531\n"
STATION = "stop_id,location_type,parent_station\nA,0,\nB,0,S\nC,0,\nS,1,\nB2,0,S\n"
FROM_B2 = TIMES + T1 + T2.replace("B,1", "B2,1")
CUT = ACTIONS + "remove_route,R2,\n"
LATE = ACTIONS + "shift_trip,T1,300\n"
LATER = ACTIONS + "shift_trip,T2,1\n"
TOO_EARLY = ACTIONS + "shift_trip,T1,-30000\n"

HEAD = "scenario,origin,share,access_1800,A,B,C\n"
ALL = HEAD + "base,A,50,3,0,600,1800\n"
NO_C = HEAD + "base,A,50,2,0,600,\n"
NOTHING = HEAD + "base,A,50,1,0,,\n"


# each file with a byte-order mark, and lines that end in CR LF
WINDOWS = {
    name: "\ufeff" + text.replace("\n", "\r\n") for name, text in {**small.FEED, "origins.csv": "stop_id\nA\n"}.items()
}


def fourth(row: str) -> str:
    """The matrix of a row where the feed has a fourth stop, D."""
    return f"scenario,origin,share,access_1800,A,B,C,D\n{row}\n"


def to_b2(row: str) -> str:
    """The same where that is B2."""
    return f"scenario,origin,share,access_1800,A,B,C,B2\n{row}\n"


def with_walks(row: str) -> str:
    """The same where stops W and X are reached on foot alone."""
    return f"scenario,origin,share,access_1800,A,B,C,W,X\n{row}\n"


def of_shares(*shares: tuple[int, str]) -> list[Case]:
    """Four departures from 07:58 on, and a share of them, each with its row."""
    return [
        Case(f"share {share} of four minutes", {}, {"from": "07:58", "to": "08:01", "share": share}, HEAD + row + "\n")
        for share, row in shares
    ]


# three stops more than A, B and C have no service, or are of a station
MIDNIGHT = {
    "calendar.txt": DAYS + MONDAYS + "SUN,0,0,0,0,0,0,1,20260503,20260531\n",
    "trips.txt": TRIPS + BOTH + "R1,SUN,T0\n",
    "stop_times.txt": TIMES + T1 + T2 + "T0,24:05:00,24:05:00,A,1\nT0,24:20:00,24:20:00,B,2\n",
}
CHAIN = {"footpaths.csv": WALKS + "A,B,60\nB,C,60\n"}
FREQUENT = {"frequencies.txt": HEADWAYS + "T1,08:00:00,08:20:00,600\n"}
W_AND_X = {
    "stops.txt": "stop_id\nA\nB\nC\nW\nX\n",
    "footpaths.csv": WALKS + "W,A,120\nC,X,90\n",
    "origins.csv": "stop_id\nW\n",
}
AT_STATION = {
    "stops.txt": STATION,
    "stop_times.txt": FROM_B2,
    "transfers.txt": TRANSFERS + "S,S,2,60\n",
}
LONG_AT_STATION = {**AT_STATION, "transfers.txt": TRANSFERS + "S,S,2,300\n"}
COMMAS = {
    "stops.txt": STOPS + '"A,1",Alpha\nB,Beta\nC,Gamma\n',
    "stop_times.txt": TIMES + T1.replace("A,1\n", '"A,1",1\n') + T2,
    "origins.csv": 'stop_id\n"A,1"\n',
}
TEN_AT_B = {"opportunities.csv": CHANCES + "B,10\nC,5\n"}
OVERTAKING = {
    "trips.txt": TRIPS + BOTH + "R1,MON,T3\n",
    "stop_times.txt": TIMES + T1 + T2 + "T3,08:02:00,08:02:00,A,1\nT3,08:06:00,08:06:00,B,2\n",
}
HEADERS = {
    "stops.txt": "stop_id\n",
    "trips.txt": TRIPS,
    "stop_times.txt": "trip_id,stop_id,stop_sequence\n",
    "origins.csv": None,
}
FOUR_STOPS = {"stops.txt": STOPS + "A,Alpha\nB,Beta\nC,Gamma\nD,Delta\n"}


def change_at_b(rows: str) -> Files:
    """Rows of `transfers.txt` from B to itself."""
    return {"transfers.txt": TRANSFERS + rows}


def to(stops: str) -> Files:
    """These destinations, where B counts for ten and C for five."""
    return {**TEN_AT_B, "destinations.csv": f"stop_id\n{stops}"}


ROWS = [
    Case("two rides reach C", prints=ALL),
    Case("one ride reaches B", {}, {"trips": 1}, NO_C),
    Case(
        "a change takes no time",
        {"stop_times.txt": TIMES + T1 + T2.replace("08:15", "08:10")},
        {},
        ALL,
    ),
    Case(
        "nobody boards where pickup is forbidden",
        {
            "stop_times.txt": TIMES[:-1] + ",pickup_type\n"
            "T1,08:00:00,08:00:00,A,1,\nT1,08:10:00,08:10:00,B,2,\n"
            "T2,08:15:00,08:15:00,B,1,1\nT2,08:30:00,08:30:00,C,2,\n"
        },
        {},
        NO_C,
    ),
    Case(
        "a trip of the day before runs after midnight",
        MIDNIGHT,
        {"from": "00:00", "to": "00:00"},
        HEAD + "base,A,50,2,0,1200,30600\n",
    ),
    Case(
        "the day before doesn't count",
        MIDNIGHT,
        {"from": "00:00", "to": "00:00", "back": 0},
        HEAD + "base,A,50,1,0,29400,30600\n",
    ),
    Case("an exception takes out", {"calendar_dates.txt": DATES + "MON,20260504,2\n"}, {}, NOTHING),
    Case(
        "an exception puts in",
        {"calendar.txt": None, "calendar_dates.txt": DATES + "MON,20260504,1\n"},
        {},
        ALL,
    ),
    Case(
        "a chain of walks past the limit",
        CHAIN,
        {"from": "09:00", "to": "09:00", "walk": 100},
        HEAD + "base,A,50,2,0,60,\n",
    ),
    Case(
        "a chain of walks at the limit",
        CHAIN,
        {"from": "09:00", "to": "09:00", "walk": 120},
        HEAD + "base,A,50,3,0,60,120\n",
    ),
    Case(
        "two walks never follow one another",
        {"footpaths.csv": WALKS + "A,B,100\nB,C,100\n"},
        {"from": "09:00", "to": "09:00", "walk": 150},
        HEAD + "base,A,50,2,0,100,\n",
    ),
    *(
        Case(
            f"a stop without service has an empty cell, share {share}",
            FOUR_STOPS,
            {"share": share},
            fourth(f"base,A,{share},3,0,600,1800,"),
        )
        for share in (1, 50, 100)
    ),
    *of_shares(
        (1, "base,A,1,3,0,600,1800"),
        (25, "base,A,25,3,0,600,1800"),
        (50, "base,A,50,2,0,660,1860"),
        (75, "base,A,75,2,0,720,1920"),
        (100, "base,A,100,1,0,,"),
    ),
    Case(
        "all of seventeen minutes",
        {},
        {"from": "07:44", "to": "08:00", "share": 100},
        HEAD + "base,A,100,2,0,1560,2760\n",
    ),
    Case(
        "a hundredth of seventeen minutes",
        {},
        {"from": "07:44", "to": "08:00", "share": 1},
        HEAD + "base,A,1,3,0,600,1800\n",
    ),
    Case("half of thirty-three minutes", {}, {"from": "07:28", "to": "08:00"}, HEAD + "base,A,50,2,0,1560,2760\n"),
    Case("a headway's first departure", FREQUENT, {}, ALL),
    Case("its second", FREQUENT, {"from": "08:05", "to": "08:05"}, HEAD + "base,A,50,2,0,900,\n"),
    Case("it departs before its end", FREQUENT, {"from": "08:11", "to": "08:11"}, NOTHING),
    Case("a feed of headers gives a header", HEADERS, {}, "scenario,origin,share,access_1800\n"),
    Case("a trip may overtake another", OVERTAKING, {}, HEAD + "base,A,50,3,0,360,1800\n"),
    Case(
        "walks come first and last",
        W_AND_X,
        {"from": "07:58", "to": "07:58", "walk": 300},
        with_walks("base,W,50,3,120,720,1920,0,2010"),
    ),
    Case(
        "a walk comes too late",
        W_AND_X,
        {"from": "07:59", "to": "07:59", "walk": 300},
        with_walks("base,W,50,2,120,,,0,"),
    ),
    Case(
        "a change within a station is a walk",
        AT_STATION,
        {"walk": 60},
        to_b2("base,A,50,4,0,600,1800,660"),
    ),
    Case("that is longer than a walk may be", AT_STATION, {"walk": 59}, to_b2("base,A,50,2,0,600,,")),
    Case(
        "commas are quoted",
        COMMAS,
        {},
        'scenario,origin,share,access_1800,"A,1",B,C\nbase,"A,1",50,3,0,600,1800\n',
    ),
    Case(
        "the last day of a calendar counts",
        {"calendar.txt": DAYS + "MON,1,0,0,0,0,0,0,20260504,20260504\n"},
        {},
        ALL,
    ),
    Case(
        "the day after it doesn't",
        {"calendar.txt": DAYS + "MON,1,0,0,0,0,0,0,20260427,20260503\n"},
        {},
        NOTHING,
    ),
    Case("opportunities within the limit", TEN_AT_B, {}, HEAD + "base,A,50,15,0,600,1800\n"),
    Case(
        "opportunities past the limit",
        TEN_AT_B,
        {"within": 1799},
        "scenario,origin,share,access_1799,A,B,C\nbase,A,50,10,0,600,1800\n",
    ),
    Case(
        "destinations are the columns in their order",
        to("C\nA\n"),
        {},
        "scenario,origin,share,access_1800,C,A\nbase,A,50,15,1800,0\n",
    ),
    Case("one destination", to("B\n"), {}, "scenario,origin,share,access_1800,B\nbase,A,50,15,600\n"),
    Case(
        "destinations of three shares and two limits",
        to("C\nB\nA\n"),
        {"share": "25,50,100", "within": "599,600"},
        "scenario,origin,share,access_599,access_600,C,B,A\n"
        "base,A,25,0,10,1800,600,0\nbase,A,50,0,10,1800,600,0\nbase,A,100,0,10,1800,600,0\n",
    ),
    Case(
        "a header alone asks for access alone",
        to(""),
        {},
        "scenario,origin,share,access_1800\nbase,A,50,15\n",
    ),
    Case("marks and Windows line ends change nothing", WINDOWS, {}, ALL),
    Case("a change in time", change_at_b("B,B,2,300\n"), {}, ALL),
    Case("a change that takes a second too long", change_at_b("B,B,2,301\n"), {}, NO_C),
    Case("the greatest change time counts, first", change_at_b("B,B,2,301\nB,B,2,200\n"), {}, NO_C),
    Case("the greatest change time counts, last", change_at_b("B,B,2,200\nB,B,2,301\n"), {}, NO_C),
    Case("other types state no change time", change_at_b("B,B,0,301\n"), {}, ALL),
    Case(
        "nobody changes at the start",
        {**change_at_b("B,B,2,301\n"), "origins.csv": "stop_id\nB\n"},
        {"from": "08:15", "to": "08:15"},
        HEAD + "base,B,50,2,,0,900\n",
    ),
    Case(
        "nothing is added after a walk",
        LONG_AT_STATION,
        {"walk": 300},
        to_b2("base,A,50,4,0,600,1800,900"),
    ),
]

EACH_SHARE = (
    "scenario,origin,share,access_700,access_1800,A,B,C\nbase,A,1,2,3,0,600,1800\nbase,A,25,2,3,0,600,1800\n"
    "base,A,50,2,2,0,660,1860\nbase,A,75,1,2,0,720,1920\nbase,A,100,1,1,0,,\n"
)
TOGETHER = (
    "scenario,origin,share,access_600,access_1800,A,B,C\n"
    "base,A,50,1,2,0,660,1860\nbase,A,100,1,1,0,,\nbase,C,50,1,1,,,0\nbase,C,100,1,1,,,0\n"
    "cut,A,50,1,2,0,660,\ncut,A,100,1,1,0,,\ncut,C,50,1,1,,,0\ncut,C,100,1,1,,,0\n"
)
OWN_EDITS = (
    HEAD + "base,A,50,3,0,600,1800\nbase,B,50,2,,0,1800\nbase,C,50,1,,,0\n"
    "cut,A,50,2,0,600,\ncut,B,50,1,,0,\ncut,C,50,1,,,0\n"
    "late,A,50,3,0,900,1800\nlate,B,50,2,,0,1800\nlate,C,50,1,,,0\n"
)
SEVERAL = [
    *(
        Case(
            f"a line for each share, and access for each limit, by {workers} workers",
            {},
            {"from": "07:58", "to": "08:01", "share": "1,25,50,75,100", "within": "700,1800", "workers": workers},
            EACH_SHARE,
        )
        for workers in (1, 2)
    ),
    Case(
        "lines of shares stand together",
        {"origins.csv": "stop_id\nA\nC\n", "cut.csv": CUT},
        {"from": "07:58", "to": "08:01", "share": "50,100", "within": "600,1800"},
        TOGETHER,
    ),
    *(
        Case(
            f"each scenario has its own edits, by {workers} workers",
            {"origins.csv": "stop_id\nA\nB\nC\n", "cut.csv": CUT, "late.csv": LATE},
            {"workers": workers},
            OWN_EDITS,
        )
        for workers in (1, 2, 7)
    ),
    # at B there are 300 seconds between the trips, 301, and none
    Case(
        "every scenario has the feed's change times",
        {**change_at_b("B,B,2,301\n"), "later.csv": LATER, "late.csv": LATE},
        {},
        HEAD + "base,A,50,2,0,600,\nlater,A,50,2,0,600,1801\nlate,A,50,2,0,900,\n",
    ),
]


def clock(seconds: int) -> str:
    """The time of a second of the day."""
    return f"{seconds // 3600:02}:{seconds // 60 % 60:02}:{seconds % 60:02}"


def line_time(trip: int, position: int) -> str:
    """The record of a trip's event: a trip a minute from 05:00, and two minutes from stop to stop."""
    time = clock(18_000 + 60 * trip + 120 * position)
    return f"L{trip},{time},{time},S{position:02},{position}\n"


LINE = range(20)  # positions of stops S00 to S19
LINE_TRIPS = range(400)
A_LINE = Case(
    "an hour of a line of twenty stops, with a trip a minute",
    {
        "stops.txt": "stop_id\n" + "".join(f"S{stop:02}\n" for stop in LINE),
        "trips.txt": TRIPS + "".join(f"R1,MON,L{trip}\n" for trip in LINE_TRIPS),
        "stop_times.txt": TIMES + "".join(line_time(trip, stop) for trip in LINE_TRIPS for stop in LINE),
        "origins.csv": "stop_id\nS00\n",
    },
    {"from": "06:00", "to": "06:59", "within": 1200},
    "scenario,origin,share,access_1200,"
    + ",".join(f"S{stop:02}" for stop in LINE)
    + "\nbase,S00,50,11,"
    + ",".join(str(120 * stop) for stop in LINE)
    + "\n",
)


def refused(name: str, files: Files, line: str, **value: str | int) -> Case:
    """A study that is refused by a line."""
    return Case(name, files, value, tells=f"ttm: {line}\n")


LATE_DATE = "99991231"  # the day after it is past the calendar
ORDER = [
    refused(
        "a name that is used twice, before the date",
        {"cut.csv": CUT, "late.csv": LATE, "again/cut.csv": CUT},
        "scenario name: cut",
        date=LATE_DATE,
    ),
    refused("a scenario that is called base", {"base.csv": "action,id\n"}, "scenario name: base"),
    refused("sixteen scenarios", {f"{n}/cut.csv": CUT for n in range(16)}, "too many scenarios"),
    refused("sixteen empty scenarios", {f"{name}.csv": "" for name in "abcdefghijklmnop"}, "too many scenarios"),
    refused("two empty scenarios of a name", {"cut.csv": "", "again/cut.csv": ""}, "scenario name: cut"),
    refused(
        "origins, before scenarios",
        {"origins.csv": "stop_id\nZ\n", "cut.csv": CUT, "early.csv": TOO_EARLY},
        "origins: record 2: unknown stop",
        date=LATE_DATE,
    ),
    refused(
        "scenarios, before the date",
        {"cut.csv": CUT, "early.csv": TOO_EARLY},
        "scenario early: record 2: shift out of range",
        date=LATE_DATE,
    ),
    refused("the date", {"cut.csv": CUT}, "date out of range", date=LATE_DATE),
    refused(
        "destinations, before scenarios",
        {"destinations.csv": "stop_id\nA\nZ\n", "cut.csv": "action,id\nclose,R1\n"},
        "destinations: record 3: unknown stop",
    ),
    refused(
        "opportunities, before destinations",
        {"destinations.csv": "stop_id\nZ\n", "opportunities.csv": CHANCES + "A,many\n"},
        "opportunities: record 2: bad number",
    ),
]

HUB = range(2000)  # stops around a hub, a walk of a minute from it: as many pairs as there may be, and more
TOO_MUCH = [
    refused(
        "more closed footpaths than there may be",
        {
            "stops.txt": "stop_id\nA\nB\nC\nHUB\n" + "".join(f"S{item}\n" for item in HUB),
            "stop_times.txt": "trip_id,stop_id,stop_sequence\n",
            "frequencies.txt": HEADWAYS,
            "footpaths.csv": WALKS + "".join(f"HUB,S{item},60\nS{item},HUB,60\n" for item in HUB),
        },
        "too many footpaths",
        walk=120,
    ),
    refused(
        "a network of nine million events",
        {
            "stops.txt": "stop_id\nA\n",
            "stop_times.txt": "trip_id,stop_id,stop_sequence,arrival_time\n"
            + "".join(f"T1,A,{minute},00:{minute}:00\n" for minute in range(10, 30)),
            "frequencies.txt": HEADWAYS + "T1,00:00:00,125:00:00,1\n",
        },
        "scenario base: network too large",
    ),
    refused(
        "too many runs",
        {"frequencies.txt": HEADWAYS + "T1,00:00:00,167:59:59,1\nT2,00:00:00,167:59:59,1\n"},
        "too many runs",
    ),
    refused(
        "a stop too many",
        {"stops.txt": "stop_id\n" + "".join(f"{number}\n" for number in range(65_536))},
        "stops.txt: record 65537: too many",
    ),
    refused(
        "as many stops as there may be, and a time at another",
        {"stops.txt": "stop_id\n" + "".join(f"{number}\n" for number in range(65_535))},
        "stop_times.txt: record 2: unknown stop",
    ),
]

CASES: Sequence[Case] = [*ROWS, *SEVERAL, A_LINE, *ORDER, *TOO_MUCH]
