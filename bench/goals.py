"""Goals for the figures of the benchmark, with the reason if a goal is hard to meet."""

from collections.abc import Callable, Iterator
from dataclasses import dataclass

from summaries import Results, Summary, ratio, sum_of_turns, summary_of

RANGE, TEXTBOOK, TOOLS, TWO_HOURS = "range RAPTOR", "textbook RAPTOR", "ttm-tools", "120 minutes"
CELLS, MANY_CELLS = "cells and access", "cells and access of eight percentiles"
Measured = Callable[[Results], Summary | None]

# What cells and access may take, over the search.
ONE_PERCENTILE = {"region": 0.08, "city, every third trip": 0.08, "city": 0.06, "metropolis": 0.04}
EIGHT_PERCENTILES = {"region": 0.30, "city, every third trip": 0.28, "city": 0.22, "metropolis": 0.12}


@dataclass(frozen=True)
class Goal:
    """A figure that should be at least, or at most, so much."""

    what: str
    measured: Measured
    bound: float
    at_least: bool = False
    why: str = "not examined yet"

    def is_met(self, found: Summary) -> bool:
        return found.median >= self.bound if self.at_least else found.median <= self.bound

    @property
    def text(self) -> str:
        return f"{self.what}: {'at least' if self.at_least else 'at most'} {self.bound:g}"


def figure(part: str, feed: str, measure: str, program: str = "ttm") -> Measured:
    return lambda results: results.summary(part, feed, program, measure)


def faster(part: str, feed: str, measure: str, than: str) -> Measured:
    """How many times as fast as another program."""
    return lambda results: ratio(results.turns(part, feed, than, measure), results.turns(part, feed, "ttm", measure))


def over(part: str, feed: str, above: str, below: str) -> Measured:
    """A figure over another one of the same program."""
    return lambda results: ratio(results.turns(part, feed, "ttm", above), results.turns(part, feed, "ttm", below))


def search_goals() -> Iterator[Goal]:
    few = "Few trips can be caught, so what doesn't depend on them weighs more: durations, labels of 16 to 48 minutes."
    for feed, bound in {"town": 2.4, "city": 2.4, "metropolis": 3.2}.items():
        yield Goal(f"{feed}: times as fast as range RAPTOR", faster("search", feed, TWO_HOURS, RANGE), bound, True)
    for feed in ("town, every third trip", "city, every third trip", "region"):
        yield Goal(f"{feed}: times as fast as range RAPTOR", faster("search", feed, TWO_HOURS, RANGE), 1.8, True, few)
    for feed, bound in {"city": 8.5, "metropolis": 7.0}.items():
        yield Goal(f"{feed}: times as fast as {TEXTBOOK}", faster("search", feed, TWO_HOURS, TEXTBOOK), bound, True)
    for feed in ("city", "metropolis"):
        drawn = f"{feed}, stops in a drawn order"
        yield Goal(
            f"{drawn}, over the feed's order", over_feeds(drawn, feed), 1.05, why="Labels lie elsewhere in the caches."
        )
    yield Goal("city: the search with change times, over none", over_feeds("city, change times of 90 s", "city"), 1.3)
    one = "A search computes at least 16 minutes together, and range RAPTOR one at a time."
    for feed in ("city", "region"):
        for minutes in (1, 4):
            what = f"{feed}: times as fast as range RAPTOR for {minutes} {'minute' if minutes == 1 else 'minutes'}"
            yield Goal(what, faster("windows", feed, f"{minutes} minutes", RANGE), 1.0, True, one)


def over_feeds(above: str, below: str) -> Measured:
    """The search in a feed over that in another one."""
    return lambda results: ratio(
        results.turns("search", above, "ttm", TWO_HOURS), results.turns("search", below, "ttm", TWO_HOURS)
    )


def rest_of_rows(results: Results) -> Summary | None:
    """What cells, access and text take, over the search."""
    rest = (results.turns("rows", "metropolis", "ttm", f"{what}, one day") for what in (CELLS, "text"))
    return ratio(sum_of_turns(*rest), results.turns("rows", "metropolis", "ttm", "search, one day"))


def each_worker(results: Results) -> Summary | None:
    """MB of each further thread."""
    memory = [results.turns("workers", "metropolis", "ttm", f"{count} threads, memory") for count in (1, 4)]
    return summary_of((memory[1][turn] - memory[0][turn]) / 3 for turn in memory[0] if turn in memory[1])


def job_goals() -> Iterator[Goal]:
    cells = "The search became faster than the cells did."
    yield Goal("metropolis: percentiles, access and text, over the search", rest_of_rows, 0.1, why=cells)
    for what, bounds in {CELLS: ONE_PERCENTILE, MANY_CELLS: EIGHT_PERCENTILES}.items():
        for feed, bound in bounds.items():
            measured = over("rows", feed, f"{what}, one day", "search, one day")
            yield Goal(f"{feed}: {what}, over the search", measured, bound, why=cells)
    days = over("rows", "city", "search, three days", "search, one day")
    yield Goal("city: the search with three service days, over one", days, 1.1)
    busy = "Four searches share the memory's bandwidth and the last cache."
    speedup = over("workers", "metropolis", "1 threads, rows", "4 threads, rows")
    yield Goal("metropolis: four threads, times as fast as one", speedup, 3.5, True, busy)
    yield Goal("metropolis: memory of each further thread, MB", each_worker, 60)
    yield Goal("metropolis: reading, over the csv crate's pass", reading, 2.0)
    name = "city, cells of 425 m, four windows on three dates"
    yield Goal("a study of a city, s", figure("study", name, "clock", TOOLS), 600)


def reading(results: Results) -> Summary | None:
    """The time of reading over that of the `csv` crate."""
    turns = (results.turns("reading", "metropolis", name, "reading") for name in ("ttm", "csv crate"))
    return ratio(*turns)


def memory_growth(results: Results) -> Summary | None:
    held = [results.median("conversation", "city", "ttm", f"memory after {n} questions") for n in ("100", "100,000")]
    return summary_of([held[1] / held[0]]) if held[0] and held[1] else None


def conversation_goals() -> Iterator[Goal]:
    for feed in ("city", "metropolis"):
        first = over("conversation", feed, "the first answer", "a run")
        yield Goal(f"{feed}: the first answer, over a run", first, 1.0, why="Both read and prepare the same.")
    answers = figure("conversation", "city", "answers of one departure")
    yield Goal("city: answers of one departure per second", answers, 200, True)
    later = figure("conversation", "metropolis", "a later question in Python")
    yield Goal("metropolis: a later question in Python, s", later, 0.3)
    yield Goal("city: memory after 100,000 questions, over 100", memory_growth, 1.05)
    two = "While a changed network starts, the one before it still answers, so both are in memory."
    for feed, click in {"city": 200, "metropolis": 600}.items():
        yield Goal(f"{feed}: click to picture, ms", figure("explore", feed, "click to picture", TOOLS), click)
        last = figure("explore", feed, "the last of a hundred clicks a second", TOOLS)
        yield Goal(f"{feed}: the last of a hundred clicks, ms", last, 2 * click)
        yield Goal(f"{feed}: a slider, ms", figure("explore", feed, "a slider", TOOLS), 50)
        memory = figure("explore", feed, "memory above a run", TOOLS)
        yield Goal(f"{feed}: memory of explore above a run, MB", memory, 300)
        second = figure("explore", feed, "memory above a run while a second network starts", TOOLS)
        yield Goal(f"{feed}: the same while a second network starts, MB", second, 300, why=two)
    yield Goal("city: a changed route in explore, s", figure("explore", "city", "a route every five minutes", TOOLS), 3)


def gate_goals() -> Iterator[Goal]:
    yield Goal("the gate, minutes", figure("gate", "repository", "clock", "gate"), 50)
    yield Goal("the quick gate, minutes", figure("gate", "repository", "clock", "quick gate"), 4)


def all_goals() -> Iterator[Goal]:
    for goals in (search_goals, job_goals, conversation_goals, gate_goals):
        yield from goals()
