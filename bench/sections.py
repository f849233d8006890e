"""The sections of `RESULTS.md`: a question each, and the table that answers it."""

import textwrap
from collections.abc import Callable, Iterator, Sequence

from goals import CELLS, MANY_CELLS, RANGE, TEXTBOOK, TOOLS, TWO_HOURS, faster
from summaries import Results, Summary, ratio, shown, sum_of_turns

TTM = "ttm"
UNFOLDED, FOLDED = ("## {}\n", ""), ("<details>\n<summary>{}</summary>\n", "\n</details>\n")  # begin and end
OF_FOLDED = ("workers", "reading", "conversation", "commands", "explore", "gate")


def cell(found: Summary | float | None) -> str:
    """A cell of a table; what was not measured is a dash."""
    if found is None:
        return "–"
    return str(found) if isinstance(found, Summary) else f"{found:,.0f}"


def table(head: Sequence[str], rows: Sequence[Sequence[str]], numbers: bool = False) -> str:
    """A Markdown table, whose columns but the first are aligned to the right if they are numbers."""
    rule = ["---", *("---:" if numbers else "---" for _ in head[1:])]
    lines = [f"| {' | '.join(head)} |", f"|{'|'.join(rule)}|", *(f"| {' | '.join(row)} |" for row in rows)]
    return "\n".join(lines) + "\n"


def wrapped(text: str) -> str:
    """A paragraph in lines of at most 120 characters; tables and pictures as they are."""
    return text.rstrip("\n") if text.startswith(("|", "!")) else textwrap.fill(text, 120, break_on_hyphens=False)


def span(figures: Sequence[float]) -> str:
    """Such as `1.20 to 3.40`, or one figure if they look the same."""
    least, greatest = shown(min(figures)), shown(max(figures))
    return least if least == greatest else f"{least} to {greatest}"


def number_of_turns(results: Results, part: str) -> str:
    """Such as `5 turns`."""
    turns = {(row.date, row.turn) for row in results.rows.get(part, []) if row.program == TTM}
    return f"{len(turns)} turn{'s' if len(turns) != 1 else ''}"


def cells(results: Results, part: str, feed: str, program: str, names: Sequence[str]) -> list[str]:
    """The cells of some figures of a feed."""
    return [cell(results.summary(part, feed, program, name)) for name in names]


def search(results: Results) -> Iterator[str]:
    yield "How long does a search take?"
    yield (
        "From one origin to all stops, every minute from 07:00 to 08:59, at most 4 rides, walks of at most 600 s: "
        f"milliseconds are the mean of 24 origins, in {number_of_turns(results, 'search')}."
    )
    rows = []
    for feed in results.feeds("search"):
        counts = [cell(results.median("search", feed, "feed", what)) for what in ("stops", "stop times")]
        times = [results.summary("search", feed, name, TWO_HOURS) for name in (TTM, RANGE, TEXTBOOK)]
        ratios = [faster("search", feed, TWO_HOURS, than)(results) for than in (RANGE, TEXTBOOK)]
        rows.append([feed, *counts, *map(cell, [times[0], times[1], ratios[0], times[2], ratios[1]])])
    head = ["Network", "Stops", "Stop times", "`ttm`, ms", "range RAPTOR, ms", "times as fast"]
    yield table([*head, "textbook RAPTOR, ms", "times as fast"], rows, numbers=True)
    yield "![How the time of a search grows with stops and with minutes](growth.svg)"


def windows(results: Results) -> Iterator[str]:
    yield "How does the time grow with the window?"
    rows = []
    for feed in results.feeds("windows"):
        for measure in results.measures("windows", feed, TTM):
            times = [results.summary("windows", feed, name, measure) for name in (TTM, RANGE)]
            times.append(faster("windows", feed, measure, RANGE)(results))
            rows.append([feed, f"{int(measure.split()[0]):,}", *map(cell, times)])
    yield table(["Network", "Minutes", "`ttm`, ms", "range RAPTOR, ms", "times as fast"], rows, numbers=True)


def rows_of_study(results: Results) -> Iterator[str]:
    yield "What do percentiles, access and text add?"
    rows = []
    for feed in results.feeds("rows"):
        for days in ("one day", "three days"):
            names = [f"{what}, {days}" for what in ("search", CELLS, "text")]
            searched, *rest = (results.turns("rows", feed, TTM, name) for name in names)
            if searched:
                both = ratio(sum_of_turns(*rest), searched)
                rows.append([feed, days.split()[0], *cells(results, "rows", feed, TTM, names), cell(both)])
    head = ["Network", "Service days", "Search, ms", "Cells and access, ms", "Text, ms", "Both, over the search"]
    yield table(head, rows, numbers=True)
    yield from cells_over_search(results)


def cells_over_search(results: Results) -> Iterator[str]:
    """Cells and access over the search in each network that was asked for eight percentiles, too."""
    rows = []
    for feed in results.feeds("rows"):
        names = [f"{what}, one day" for what in ("search", CELLS, MANY_CELLS)]
        searched, one, many = (results.turns("rows", feed, TTM, name) for name in names)
        if many:
            rows.append([feed, cell(ratio(one, searched)), cell(ratio(many, searched))])
    if rows:
        yield "Cells and access over the search, for one percentile and one limit, and for eight and three:"
        yield table(["Network", "One and one", "Eight and three"], rows, numbers=True)


def jobs(results: Results) -> Iterator[str]:
    yield "How long does a whole run take, and how much memory?"
    yield (
        "From the start of `ttm` to the end of its matrix: medians to all stops, and access within an hour. Range "
        "RAPTOR does the same without access and text, by one thread; the cells are equal."
    )
    rows = []
    for feed in results.feeds("jobs"):
        for name in results.measures("jobs", feed, TTM):
            if not name.endswith("memory"):
                own = cells(results, "jobs", feed, TTM, [name, f"{name}, memory"])
                rows.append([feed, *(word.split()[0] for word in name.split(", ")), *own])
                rows[-1] += cells(results, "jobs", feed, RANGE, [name])
    head = ["Network", "Origins", "Minutes", "Scenarios", "Threads", "Time, s", "Memory, MB", "Range RAPTOR, s"]
    yield table(head, rows, numbers=True)
    for feed in results.feeds("study"):
        clock, busy = cells(results, "study", feed, TOOLS, ["clock", "processor time"])
        yield f"A study by `ttm-tools study` ({feed}) takes {clock} s by the clock, {busy} s of processor time."


def workers(results: Results) -> Iterator[str]:
    yield "How much do threads gain?"
    rows = []
    for feed in results.feeds("workers"):
        for count in (1, 2, 4):
            one, some = (results.turns("workers", feed, TTM, f"{number} threads, rows") for number in (1, count))
            names = [f"{count} threads, rows", f"{count} threads, memory"]
            time, memory = cells(results, "workers", feed, TTM, names)
            rows.append([feed, str(count), time, cell(ratio(one, some)), memory])
    yield table(["Network", "Threads", "24 origins, s", "Times as fast as one", "Memory, MB"], rows, numbers=True)


def destinations(results: Results) -> Iterator[str]:
    yield "How much do few destinations save?"
    rows = []
    for feed in results.feeds("destinations"):
        for name in ("all stops", "10 stops", "access alone"):
            names = [name, f"{name}, memory", f"{name}, matrix"]
            rows.append([feed, name, *cells(results, "destinations", feed, TTM, names)])
    yield table(["Network", "40 origins to", "Time, s", "Memory, MB", "Matrix, MB"], rows, numbers=True)


def reading(results: Results) -> Iterator[str]:
    yield "How long does a feed take to read?"
    rows = []
    for feed in results.feeds("reading"):
        turns = [results.turns("reading", feed, name, "reading") for name in (TTM, "csv crate")]
        times = [results.summary("reading", feed, name, "reading") for name in (TTM, "csv crate")]
        rows.append([feed, *map(cell, [*times, ratio(*turns)])])
    head = ["Network", "`ttm`, with all checks, ms", "the `csv` crate's pass alone, ms", "over the pass"]
    yield table(head, rows, numbers=True)


def by_feed(results: Results, part: str, program: str) -> str:
    """A table with a row for each figure of a part, and a column for each feed."""
    feeds, units = results.feeds(part), {row.measure: row.unit for row in results.rows[part]}
    columns = [cells(results, part, feed, program, list(units)) for feed in feeds]
    rows = zip([f"{measure}, {unit}" for measure, unit in units.items()], *columns)
    return table(["Figure", *feeds], [list(row) for row in rows], numbers=True)


def conversation(results: Results) -> Iterator[str]:
    yield "How fast is a conversation?"
    yield "Questions to `ttm --ask`: one origin, 120 departures, all stops, if nothing else is said."
    yield by_feed(results, "conversation", TTM)


def commands(results: Results) -> Iterator[str]:
    yield "What do the commands of `ttm-tools` take?"
    yield "Processor time and peak memory, each command once; 20,000 points, streets with 600,000 nodes."
    feeds = results.feeds("commands")
    names = dict.fromkeys(row.measure for row in results.rows["commands"] if not row.measure.endswith(", memory"))
    rows = []
    for name in names:
        both = [cells(results, "commands", feed, TOOLS, [name, f"{name}, memory"]) for feed in feeds]
        rows.append([f"`{name}`", *("–" if time == "–" else f"{time} s, {memory} MB" for time, memory in both)])
    yield table(["Command", *feeds], rows)


def page(results: Results) -> Iterator[str]:
    yield "How fast are a page and `explore`?"
    yield "In headless Chromium; a click asks for 120 departures to all stops."
    yield from (by_feed(results, part, TOOLS) for part in ("page", "explore") if part in results.rows)


def gate(results: Results) -> Iterator[str]:
    yield "How long does the gate take?"
    names = ["clock", "processor time", "passed", "failed"]
    found = [[name, *cells(results, "gate", "repository", name, names)] for name in ("gate", "quick gate")]
    head = ["Gate", "Clock, minutes", "Processor time, minutes", "Passed", "Failed"]
    yield table(head, [row for row in found if row[1] != "–"], numbers=True)


def section_of(part: str, lines: Callable[[Results], Iterator[str]]) -> Callable[[Results], str]:
    """The section of a part, folded or not: its heading and what follows; nothing if it wasn't measured."""

    def section(results: Results) -> str:
        if part not in results.rows:
            return ""
        heading, *rest = lines(results)
        begin, end = FOLDED if part in OF_FOLDED else UNFOLDED
        return "\n".join([begin.format(heading), *(wrapped(text) + "\n" for text in rest)]) + end

    return section


OF_PARTS = {
    "search": search,
    "windows": windows,
    "rows": rows_of_study,
    "jobs": jobs,
    "destinations": destinations,
    "workers": workers,
    "reading": reading,
    "conversation": conversation,
    "commands": commands,
    "explore": page,
    "gate": gate,
}
SECTIONS = [section_of(part, lines) for part, lines in OF_PARTS.items()]
