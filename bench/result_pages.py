"""Writes `RESULTS.md` and README's table of speed from the figures in `results.csv`."""

import re
from collections.abc import Iterator
from pathlib import Path

from goals import RANGE, TEXTBOOK, TWO_HOURS, all_goals, faster
from growth import PICTURE, draw_growth
from record import RESULTS, ROOT, read_results
from sections import SECTIONS, cell, number_of_turns, span, table, wrapped
from summaries import Results, Summary, shown

PAGE, README = RESULTS.with_name("RESULTS.md"), ROOT / "README.md"
BEGIN, END = "<!-- speed: written by bench/run.py --tables -->", "<!-- end of speed -->"
OF_README = ("town", "city", "metropolis", "region")
HOW = """\
Figures are medians, with the least and the greatest of all turns in brackets. Every figure is a row of
[results.csv](results.csv). To measure and to write this page again, build `crates/ttm` and `crates/measure` by `rt run`
and run:

    python3 bench/run.py && python3 bench/run.py --tables

`bench/run.py --quick` takes five minutes; `--help` lists the parts. The baselines are in `bench/raptor`, and
`bench/feedgen.py` generates the networks. Where two programs compute the same, the benchmark compares the sums of all
results, and fails if they differ. A click opens what is folded.
"""
NOT_MEASURED = "The search was not measured yet: run `python3 bench/run.py` and `python3 bench/run.py --tables`."


def times_as_fast(results: Results) -> dict[str, Summary]:
    """How many times as fast as range RAPTOR a search of two hours is, in the networks that README names."""
    found = {feed: faster("search", feed, TWO_HOURS, RANGE)(results) for feed in OF_README}
    return {feed: summary for feed, summary in found.items() if summary}


def single_minute(results: Results) -> str:
    """A sentence on windows of one minute, or an empty text if none was measured."""
    found = [faster("windows", feed, "1 minutes", RANGE)(results) for feed in results.feeds("windows")]
    medians = [summary.median for summary in found if summary]
    if not medians:
        return ""
    if max(medians) < 1:
        return f" For a single minute range RAPTOR is faster: `ttm` is {span(medians)} times as fast."
    return f" For a single minute `ttm` is {span(medians)} times as fast as range RAPTOR."


def opening(results: Results) -> str:
    """What a user gets, in three sentences."""
    city, metropolis = (results.median("search", feed, "ttm", TWO_HOURS) for feed in ("city", "metropolis"))
    ratios = times_as_fast(results)
    dense = [found.median for feed, found in ratios.items() if feed != "region"]
    if not (city and metropolis and dense and "region" in ratios):
        return NOT_MEASURED
    return (
        f"`ttm` answers a two-hour question, minute by minute, from one origin in {shown(city)} ms (city) to "
        f"{shown(metropolis)} ms (metropolis): {span(dense)} times as fast as range RAPTOR in dense networks, "
        f"{shown(ratios['region'].median)} times in a region.{single_minute(results)} R5 was not run."
    )


def origin_of_figures(results: Results) -> Iterator[str]:
    """The machine, the build and the dates of the figures: a paragraph for each build."""
    builds: dict[tuple[str, ...], list[str]] = {}
    for part, rows in results.rows.items():
        machine = f"{rows[-1].cores} processors ({rows[-1].processor}), {rows[-1].memory_gb} GB of memory"
        builds.setdefault((machine, rows[-1].commit, rows[-1].toolchain), []).append(part)
    for (machine, commit, toolchain), parts in builds.items():
        rows = [row for part in parts for row in results.rows[part]]
        dates, loads = sorted({row.date[:10] for row in rows}), [row.load for row in rows]
        when = dates[0] if len(dates) == 1 else f"{dates[0]} to {dates[-1]}"
        what = "All figures" if len(builds) == 1 else f"Parts {', '.join(parts)}"
        yield (
            f"{what}: commit {commit}, toolchain `{toolchain}`, {when}, on {machine}; load {min(loads):g} to "
            f"{max(loads):g} while measuring, one thread if nothing else is said."
        )


def not_met(results: Results) -> str:
    """The goals that the medians miss."""
    found = [(goal, goal.measured(results)) for goal in all_goals()]
    measured = [(goal, summary) for goal, summary in found if summary]
    rows = [[goal.text, str(summary), goal.why] for goal, summary in measured if not goal.is_met(summary)]
    text = f"Of {len(measured)} goals that were measured, the medians miss {len(rows) or 'none'}."
    return "\n".join(["## Not met\n", f"{text}\n", *([table(["Goal", "Measured", "Why"], rows)] if rows else [])])


def page_of(results: Results) -> str:
    """The text of RESULTS.md."""
    paragraphs = [opening(results), *origin_of_figures(results)]
    sections = [text for text in (section(results) for section in SECTIONS) if text]
    return "\n".join(["# Results\n", *(wrapped(text) + "\n" for text in paragraphs), HOW, *sections, not_met(results)])


def speed_of(results: Results) -> Iterator[str]:
    """README's lines on speed: a sentence, a table, and where the rest is; none if the search wasn't measured."""
    times = {feed: results.median("search", feed, "ttm", TWO_HOURS) for feed in OF_README}
    city, metropolis, ratios = times["city"], times["metropolis"], times_as_fast(results)
    slower = [faster("search", feed, TWO_HOURS, TEXTBOOK)(results) for feed in ratios]
    if not (city and metropolis and ratios and all(slower)):
        return
    yield (
        f"One thread searches a two-hour window, minute by minute, from one origin in {shown(city)} ms in a city and "
        f"{shown(metropolis)} ms in a metropolis. The table compares it with range RAPTOR, implemented in Rust and run "
        f"on the same machine. Figures are medians of {number_of_turns(results, 'search')}; the last column has the "
        "least and the greatest ratio."
    )
    rows = []
    for feed, found in ratios.items():
        counts = [cell(results.median("search", feed, "feed", what)) for what in ("stops", "stop times")]
        rows.append([feed, *counts, shown(times[feed] or 0), shown(found.median), span([found.least, found.greatest])])
    head = ["Network", "Stops", "Stop times", "`ttm`, ms per origin", "Times as fast as range RAPTOR"]
    yield table([*head, "Least to greatest"], rows, numbers=True)
    yield (
        f"Textbook RAPTOR takes {span([found.median for found in slower if found])} times as long as `ttm`."
        f"{single_minute(results)} R5 was not measured. `python3 bench/run.py` repeats all this; "
        "[Results](bench/RESULTS.md) has the machine, more questions, and the goals that were not met."
    )


def with_speed(readme: str, results: Results) -> str:
    """README with a new part on speed between its two markers, or unchanged if the search wasn't measured."""
    text = "\n\n".join(map(wrapped, speed_of(results)))
    pattern = re.compile(f"{re.escape(BEGIN)}\n.*?{re.escape(END)}", re.DOTALL)
    if len(pattern.findall(readme)) != 1:
        raise ValueError(f"README.md needs exactly one part between '{BEGIN}' and '{END}'")
    return pattern.sub(lambda _: f"{BEGIN}\n\n{text}\n\n{END}", readme) if text else readme


def write_pages(path: Path) -> None:
    """Writes RESULTS.md, README's part and the picture; from another file of results it only prints RESULTS.md."""
    results = Results(read_results(path))
    if path.resolve() != RESULTS:
        print(page_of(results), end="")
        return
    PAGE.write_text(page_of(results), encoding="utf-8")
    README.write_text(with_speed(README.read_text(encoding="utf-8"), results), encoding="utf-8")
    draw_growth(results, PICTURE)
