"""The picture in RESULTS.md: how the time of a search grows with the stops of a network and with the minutes."""

from pathlib import Path
from typing import Any

from record import ROOT
from summaries import Results, shown

PICTURE = ROOT / "bench" / "growth.svg"
PROGRAMS = {"ttm": "#1b6ca8", "range RAPTOR": "#d1495b", "textbook RAPTOR": "#8d99ae"}
MARKS = {"": "o", "city": "o", "region": "^"}
OF_STOPS = {"town": "", "city": "", "metropolis": "", "region": "region"}  # dense networks are one line
MINUTES: list[float] = [1, 4, 16, 120, 1440]
Series = dict[tuple[str, str], list[tuple[float, float]]]  # x and milliseconds, by program and kind of network


def by_stops(results: Results) -> Series:
    """Milliseconds by stops, for two hours."""
    found: Series = {}
    for program in PROGRAMS:
        for feed, kind in OF_STOPS.items():
            stops = results.median("search", feed, "feed", "stops")
            time = results.median("search", feed, program, "120 minutes")
            if stops and time:
                found.setdefault((program, kind), []).append((stops, time))
    return found


def by_minutes(results: Results) -> Series:
    """Milliseconds by minutes, in each network whose windows were measured."""
    found: Series = {}
    for program in PROGRAMS:
        for feed in results.feeds("windows"):
            for measure in results.measures("windows", feed, program):
                time = results.median("windows", feed, program, measure) or 0
                found.setdefault((program, feed), []).append((float(measure.split()[0]), time))
    return found


def description(results: Results) -> str:
    """The drawn figures as a text, which is part of the picture's file."""
    lines = []
    for what, series in {"stops": by_stops(results), "minutes": by_minutes(results)}.items():
        for (program, kind), points in series.items():
            figures = ", ".join(f"{x:,.0f}: {shown(time)} ms" for x, time in points)
            lines.append(f"{program} by {what}{', ' if kind else ''}{kind}: {figures}")
    return "; ".join(lines)


def draw(axes: Any, series: Series, ticks: list[float], label: str) -> None:
    """Draws lines with marks on two logarithmic axes; `ticks` are the labelled places of the horizontal one."""
    for (program, kind), points in series.items():
        name = f"{program}, {kind}" if kind else program
        style = {"color": PROGRAMS[program], "marker": MARKS.get(kind, "o"), "label": name}
        axes.plot(*zip(*points), linestyle=":" if kind == "region" else "-", markersize=5, **style)
    axes.set(xscale="log", yscale="log", xlabel=label, ylabel="milliseconds from one origin")
    axes.set_xticks(ticks, [f"{tick:,.0f}" for tick in ticks])
    axes.minorticks_off()
    axes.yaxis.set_major_formatter(lambda y, _: f"{y:g}")
    axes.grid(True, color="#dddddd", linewidth=0.6)
    if series:
        axes.legend(fontsize=8, frameon=False)


def draw_growth(results: Results, path: Path) -> None:
    """Draws the picture; needs matplotlib."""
    import matplotlib

    matplotlib.use("svg")
    matplotlib.rcParams.update({"svg.hashsalt": "growth", "svg.fonttype": "none", "font.size": 9})
    from matplotlib import pyplot

    figure, (left, right) = pyplot.subplots(1, 2, figsize=(9.5, 3.8), constrained_layout=True)
    stops = [results.median("search", feed, "feed", "stops") for feed in OF_STOPS]
    draw(left, by_stops(results), [count for count in stops if count], "stops of the network, for two hours")
    draw(right, by_minutes(results), MINUTES, "minutes of the window")
    figure.savefig(path, metadata={"Date": None, "Description": description(results)})
    pyplot.close(figure)
