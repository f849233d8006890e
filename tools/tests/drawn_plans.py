"""Plans drawn by a seed over drawn feeds, carried out and compared with the built program."""

import csv
import io
import json
import random
import subprocess
from decimal import Decimal
from pathlib import Path
from typing import Any, Sequence

from random_feeds import Drawn

from ttm_tools import cli
from ttm_tools.core.errors import InputError
from ttm_tools.core.times import as_clock
from ttm_tools.core.toml_file import Entry, LineNumbers
from ttm_tools.gtfs.fields import FILES
from ttm_tools.plans.apply import apply_scenario
from ttm_tools.plans.base import Base, read_base
from ttm_tools.plans.nearness import sentences_on_nearer
from ttm_tools.plans.plan_file import PlannedScenario

Values = dict[str, Any]
Rows = dict[str, list[list[str]]]
DATE = "20260506"  # of the drawn feeds
NEW = [("N0", "50.0021", "8.0012"), ("N1", "50.0052", "8.0031")]  # stops of plans, with their places


class DrawnPlan:
    """A drawn feed with places, and a drawn plan of scenarios whose actions all do something."""

    def __init__(self, seed: int, folder: Path) -> None:
        self.feed, self.random, self.folder = Drawn(seed), random.Random(seed), folder
        folder.mkdir()
        self.write_feed()
        self.stops = [dict(zip(("id", "lat", "lon"), (item[0], *map(Decimal, item[1:])))) for item in NEW]
        entries = [Entry("plan", stop, LineNumbers(1)) for stop in self.stops]
        self.base = read_base(str(folder), entries)
        self.refused = 0
        drawn = [(f"s{number}", self.draw_actions()) for number in range(self.random.randint(1, 4))]
        self.scenarios = [(name, actions) for name, actions in drawn if actions]

    def write_feed(self) -> None:
        """Writes the feed, with stops some hundred metres from one another."""
        header, *stops = self.feed.files["stops.txt"]
        header += ["stop_lat", "stop_lon"]
        for number, stop in enumerate(stops):
            place = (50 + number * self.random.random() / 400, 8 + self.random.random() / 200)
            stop += [f"{degrees:.5f}" for degrees in place]
        self.feed.files["routes.txt"][0].append("route_short_name")
        for name, records in self.feed.files.items():
            if name in FILES or name.endswith(".csv"):
                with open(self.folder / name, "w", newline="", encoding="utf-8") as file:
                    csv.writer(file, lineterminator=self.random.choice(["\n", "\r\n"])).writerows(records)

    def draw_actions(self) -> list[Values]:
        """One to four actions, each of which does something."""
        actions: list[Values] = []
        for _ in range(40):
            drawn = self.draw_action()
            if does_something(self.base, [*actions, drawn]):
                actions.append(drawn)
            else:
                self.refused += 1
            if len(actions) == 4 or actions and self.random.random() < 0.2:
                break
        return actions

    def draw_action(self) -> Values:
        draw = self.random.choice([self.removal, self.shift, self.line, self.headway, self.speed, self.end, self.end])
        return draw()

    def stop(self) -> str:
        return self.random.choice([*self.feed.stops, *self.feed.stops, "N0", "N1"])

    def trip(self) -> str:
        return self.random.choice(self.feed.trips or ["none"])

    def chosen(self) -> Values:
        """A route, and at times one pattern or service of it."""
        keys: Values = {"route": self.random.choice([*self.feed.routes, "L0", "L1"])}
        if self.random.random() < 0.1:
            keys["pattern"] = self.trip()
        if self.random.random() < 0.2:
            keys["service"] = self.random.choice(self.feed.services)
        return keys

    def removal(self) -> Values:
        return self.random.choice(
            [
                {"do": "remove_route", "route": self.random.choice(self.feed.routes)},
                {"do": "remove_trip", "trip": self.trip()},
                {"do": "remove_stop", "stop": self.stop()},
                {"do": "remove_stop", "stop": self.stop(), **self.chosen()},
            ]
        )

    def shift(self) -> Values:
        seconds = self.random.choice([-600, -61, 30, 300, 5000])
        if self.random.random() < 0.5:
            return {"do": "shift_trip", "trip": self.trip(), "seconds": seconds}
        return {"do": "shift_route", "route": self.random.choice(self.feed.routes), "seconds": seconds}

    def way(self, count: int) -> Values:
        """How long vehicles take along this number of pieces."""
        keys: Values = {"dwell": self.random.choice([0, 10, 45])}
        if self.random.random() < 0.5:
            return {**keys, "speed": self.random.choice([Decimal("12.5"), 30])}
        return {**keys, "seconds": [self.random.choice([0, 45, 120, 300]) for _ in range(count)]}

    def line(self) -> Values:
        count, first = self.random.randint(2, 4), self.random.randint(7 * 60 + 30, 8 * 60 + 20)
        last = first + self.random.randint(0, 40)
        times = {
            "first": as_clock(60 * first)[:5],
            "last": as_clock(60 * last),
            "every": self.random.choice([120, 600]),
        }
        days = self.random.choice([{"days": "daily"}, {"service": self.random.choice(self.feed.services)}])
        both: Values = {"both": False} if self.random.random() < 0.3 else {}
        stops = [self.stop() for _ in range(count)]
        named = {"do": "add_line", "route": self.random.choice(["L0", "L1"]), "stops": stops}
        return {**named, **self.way(count - 1), "departures": [times], **days, **both}

    def headway(self) -> Values:
        first = self.random.randint(7 * 60, 8 * 60 + 20)
        end = first + self.random.randint(1, 60)
        every = self.random.choice([90, 300, 1000])
        return {
            "do": "headway",
            **self.chosen(),
            "every": every,
            "from": as_clock(60 * first),
            "to": as_clock(60 * end),
        }

    def speed(self) -> Values:
        action: Values = {"do": "speed", **self.chosen()}
        action |= {name: self.stop() for name in ("from_stop", "to_stop") if self.random.random() < 0.2}
        how = self.random.choice(["factor", "factor", "dwell"])
        values: list[Any] = [Decimal("0.5"), Decimal("0.855"), Decimal("1.3333")] if how == "factor" else [-30, 20, 61]
        return {**action, how: self.random.choice(values)}

    def end(self) -> Values:
        """A route that is cut, or goes on."""
        keys: Values = {**self.chosen(), self.random.choice(["after", "before"]): self.stop()}
        if self.random.random() < 0.5:
            return {"do": "cut", **keys}
        stops = [self.stop() for _ in range(self.random.randint(1, 2))]
        return {"do": "extend", **keys, "stops": stops, **self.way(len(stops))}

    def text(self, backwards: bool = False) -> str:
        """The plan as TOML, with its scenarios in their order or the other way round."""
        lines = [line for stop in self.stops for line in ["[[stop]]", *pairs(stop)]]
        for name, actions in self.scenarios[:: -1 if backwards else 1]:
            lines += ["[[scenario]]", f'name = "{name}"']
            for action in actions:
                lines += ["[[scenario.action]]", *pairs(action)]
        return "\n".join(lines) + "\n"

    def words(self, footpaths: Path | None, first: int) -> list[str]:
        """The words of a run from the old stops, which alone count."""
        own = {name: self.folder / f"{name}.csv" for name in ("origins", "opportunities")}
        files: dict[str, object] = {**own, **({} if footpaths is None else {"footpaths": footpaths})}
        hours = {"date": DATE, "from": as_clock(60 * first)[:5], "to": as_clock(60 * first + 1200)[:5]}
        options = {**hours, "trips": 3, "walk": 300, "share": "25,100", "within": "900,3600", "workers": 1, "tries": 1}
        return [str(word) for name, value in {**options, **files}.items() for word in (f"--{name}", value)]


def does_something(base: Base, actions: Sequence[Values]) -> bool:
    """Whether actions are carried out one after another; else a fault says why not."""
    entries = [Entry("plan", action, LineNumbers(1)) for action in actions]
    try:
        apply_scenario(base, PlannedScenario("new", entries[0], entries))
    except InputError:
        return False
    return True


def pairs(values: Values) -> list[str]:
    return [f"{key} = {told(value)}" for key, value in values.items()]


def told(value: Any) -> str:
    """A value as TOML."""
    if isinstance(value, dict):
        return "{ " + ", ".join(pairs(value)) + " }"
    if isinstance(value, list):
        return "[" + ", ".join(map(told, value)) + "]"
    return str(value) if isinstance(value, Decimal) else json.dumps(value, ensure_ascii=False)


def tool(*arguments: str) -> None:
    """Runs a command of the tools, which has to succeed."""
    status = cli.main(list(arguments))
    assert status == 0, arguments


def matrix(program: str, arguments: Sequence[str]) -> tuple[list[str], Rows]:
    """The header of a matrix, and the rows of each scenario without its name."""
    ran = subprocess.run([program, *arguments], capture_output=True)
    assert (ran.returncode, ran.stderr) == (0, b""), (arguments, ran.stderr)
    header, *records = csv.reader(io.StringIO(ran.stdout.decode(), newline=""))
    cells: Rows = {}
    for record in records:
        cells.setdefault(record[0], []).append(record[1:])
    return header, cells


def lines_of(header: Sequence[str], rows: Sequence[Sequence[str]], wanted: Sequence[str]) -> list[list[str]]:
    """Some columns of rows."""
    places = [header.index(name) - 1 for name in wanted]
    return [[row[place] for place in places] for row in rows]


def run_words(program: str, plan: DrawnPlan, folder: Path, first: int) -> tuple[list[str], Rows]:
    """The matrix of all scenarios of a folder that `ttm-tools scenarios` wrote, with walks by straight lines."""
    files = [
        str(folder / "scenarios" / f"{name}.csv") for name in ["today", *(scenario[0] for scenario in plan.scenarios)]
    ]
    return matrix(program, ["--feed", str(folder), *plan.words(walks_of(folder), first), *files])


def walks_of(folder: Path) -> Path:
    tool("walks", "--limit", "300", "--out", str(folder / "made_walks.csv"), str(folder))
    return folder / "made_walks.csv"


def plan_differs(program: str, seed: int, room: Path) -> str:
    """What is wrong with the scenarios of a drawn plan; nothing where today has the rows of the untouched feed, each
    scenario those of the feed in which its actions alone were carried out, their order doesn't matter, and walks to new
    stops bring no old ones nearer.
    """
    plan = DrawnPlan(seed, room / "feed")
    if not plan.scenarios:
        return ""
    first = plan.random.choice([7 * 60 + 40, 8 * 60])
    for name, backwards in (("plan", False), ("back", True)):
        (room / f"{name}.toml").write_text(plan.text(backwards), encoding="utf-8")
        tool("scenarios", str(room / "feed"), str(room / f"{name}.toml"), "--out", str(room / name))
    header, rows = run_words(program, plan, room / "plan", first)
    back_header, back = run_words(program, plan, room / "back", first)
    old_header, old = matrix(program, ["--feed", str(room / "feed"), *plan.words(walks_of(room / "feed"), first)])
    wrong = [] if lines_of(header, rows["today"], old_header[1:]) == old["base"] else ["today"]
    wrong += [] if header[: len(old_header)] == old_header else ["columns"]
    wrong += sentences_on_nearer(str(room / "plan"), str(room / "plan" / "made_walks.csv"))
    for name, _ in plan.scenarios:
        out = room / name
        tool("scenarios", str(room / "feed"), str(room / "plan.toml"), "--only", name, "--out", str(out))
        only_header, only = matrix(program, ["--feed", str(out), *plan.words(walks_of(out), first)])
        wrong += [] if lines_of(header, rows[name], only_header[1:]) == only["base"] else [name]
        wrong += [] if lines_of(back_header, back[name], header[1:]) == rows[name] else [f"order of {name}"]
    return f"seed {seed}: {', '.join(wrong)}\n{plan.text()}" if wrong else ""
