"""Every number that the tables, maps and report of a drawn study print, next to plain Python over its matrix' CSV file.

`plain_measures` computes by the definitions of docs/reference/measures.md; a number on a map or in the report that
nothing here accounts for fails the test.
"""

import csv
import json
import math
import re
import statistics
from pathlib import Path
from typing import Mapping, Sequence

import pytest

import drawn_study
from drawn_study import AREA_BANDS, AREA_ORIGIN, MAP_ORIGIN, SCENARIOS, SHARES, STOPS, DrawnStudy, FigureTexts
from map_classes import check_key, is_change_in, is_in_range, is_time_change_in, is_time_in, number_in
from plain_measures import PairChange, PlainMatrix, circles_area, equity, nearness, pair_changes, read_matrix
from test_study import Place, place  # noqa: F401

for _package in ("h5py", "pandas", "matplotlib", "shapely"):
    pytest.importorskip(_package)

SHARE, LIMIT = 50, 1800  # of maps and comparisons: the default, and the limit nearest to it
KINDS = ("cut off", "slower", "new", "faster")
Row = dict[str, str]


class Checked:
    """What a study wrote, and what the plain measures give."""

    def __init__(self, folder: Path, drawn: DrawnStudy, figures: Mapping[str, FigureTexts]) -> None:
        self.folder, self.drawn, self.figures = folder, drawn, figures
        self.matrix: PlainMatrix = read_matrix(str(folder / "matrix.csv"))
        self.known = dict[tuple[str, ...], dict[str, dict[str, float]]]()

    def table(self, name: str) -> list[Row]:
        with open(self.folder / name, newline="", encoding="utf-8") as file:
            return list(csv.DictReader(file))

    def jobs(self, scenario: str) -> dict[str, float]:
        """Access as maps and comparisons have it: jobs with one decimal."""
        return self.matrix.access(self.drawn.counts["jobs"], scenario, SHARE, LIMIT)

    def of_row(self, row: Row, head: str) -> dict[str, dict[str, float]]:
        """By scenario what a row's table measures at each origin: access, or seconds to the nearest."""
        kind = row["opportunity"], row["percentile"], head, row[head]
        if kind not in self.known:
            self.known[kind] = self.measured(row, head)
        return self.known[kind]

    def measured(self, row: Row, head: str) -> dict[str, dict[str, float]]:
        counts, share = self.drawn.counts[row["opportunity"]], int(row["percentile"])
        if head == "cutoff":
            limit = round(60 * float(row[head]))
            return {name: self.matrix.access(counts, name, share, limit) for name in SCENARIOS}
        found = {name: self.matrix.nearest(counts, name, share, float(row[head])) for name in SCENARIOS}
        return {name: with_nan(of) for name, of in found.items()}


def with_nan(times: Mapping[str, int | None]) -> dict[str, float]:
    return {stop: math.nan if time is None else float(time) for stop, time in times.items()}


def is_printed(text: str, wanted: float) -> bool:
    """Whether a number of a table is this one: to four decimals, or below 0.01 to four significant digits."""
    if math.isnan(wanted):
        return text == ""
    return text != "" and abs(float(text) - wanted) <= (5.001e-5 if abs(wanted) >= 0.01 else 6e-4 * abs(wanted) + 1e-12)


def check_tables_of_origins(checked: Checked) -> None:
    """Access and the time to the nearest: each row."""
    for name, head, value in (("access.csv", "cutoff", "accessibility"), ("nearest.csv", "nearest", "seconds")):
        rows = checked.table(name)
        kinds = len(drawn_study.CUTOFFS if head == "cutoff" else drawn_study.NEAREST)
        assert len(rows) == len(SCENARIOS) * len(STOPS) * 2 * len(SHARES) * kinds
        for row in rows:
            wanted = checked.of_row(row, head)[row["scenario"]][row["id"]]
            assert row[value] == "" if math.isnan(wanted) else float(row[value]) == pytest.approx(wanted, abs=6e-7), row


def check_tables_of_people(checked: Checked) -> None:
    """How access and the nearest are spread over people, and how many are within bands: each number of each row."""
    for end, head, kinds in (("", "cutoff", drawn_study.CUTOFFS), ("_nearest", "nearest", drawn_study.NEAREST)):
        spread, bands = checked.table(f"equity{end}.csv"), checked.table(f"bands{end}.csv")
        assert len(spread) == 2 * len(SHARES) * len(kinds) * 2 * len(SCENARIOS) and len(bands) == 2 * len(spread)
        for row in spread:
            by_scenario, people = checked.of_row(row, head), checked.drawn.people[row["group"]]
            measure = nearness if end else equity
            for name, wanted in measure(by_scenario["base"], by_scenario[row["scenario"]], people).items():
                assert is_printed(row[name], wanted), (name, wanted, row)
        for row in bands:
            found, people = checked.of_row(row, head)[row["scenario"]], checked.drawn.people[row["group"]]
            limit = round(60 * float(row["within_minutes"])) if end else float(row["at_least"])
            inside = sum(people[stop] for stop in STOPS if (found[stop] <= limit if end else found[stop] >= limit))
            assert is_printed(row["people"], inside) and is_printed(row["percent"], 100 * inside / sum(people.values()))


def text_of(number: float, sign: str = "") -> str:
    """A number as the report and maps print it."""
    return f"{number:{sign},.6f}".rstrip("0").rstrip(".")


def sides_sentence(before: Mapping[str, float], after: Mapping[str, float]) -> str:
    """How many origins lose and gain access, as maps and the report say it."""
    lose = sum(after[stop] < before[stop] for stop in before)
    gain = sum(after[stop] > before[stop] for stop in before)
    cut = sum(after[stop] == 0 < before[stop] for stop in before)
    new = sum(before[stop] == 0 < after[stop] for stop in before)
    text = f"{lose} lose{'s' * (lose == 1)}" + (f" ({cut} of them cut off)" if cut else "")
    return f"{text}, {gain} gain{'s' * (gain == 1)}" + (f" ({new} of them newly reached)" if new else "")


def fields_of(it: PairChange) -> list[str]:
    """A line of the table of pairs."""
    change = None if it.before is None or it.after is None else it.after - it.before
    times = ("" if number is None else str(number) for number in (it.before, it.after, change))
    return [it.origin, it.destination, it.what, *times]


def check_comparison(checked: Checked, scenario: str) -> list[str]:
    """The tables of `compare`, by pair and by origin; returns the two sentences that the report has to have."""
    changes = list(pair_changes(checked.matrix, "base", scenario, SHARE, 60))
    before, after = checked.jobs("base"), checked.jobs(scenario)
    heads = ("origin", "destination", "what", "before", "after", "change")
    pairs = [[row[name] for name in heads] for row in checked.table(f"compare_{scenario}_pairs.csv")]
    assert sorted(pairs) == sorted(map(fields_of, changes)) and pairs
    rows = checked.table(f"compare_{scenario}.csv")
    columns = ["access_before", "access_after", "change", *(kind.replace(" ", "_") for kind in KINDS)]
    for row in rows:
        stop = row["origin"]
        change = after[stop] - before[stop]
        numbers = [before[stop], after[stop], change]
        numbers += [sum(it.origin == stop and it.what == kind for it in changes) for kind in KINDS]
        assert [float(row[name]) for name in columns] == pytest.approx(numbers), row
        assert row["percent"] == ("" if before[stop] == 0 else str(round(100 * change / before[stop], 1))), row
    listed = {it.origin for it in changes} | {stop for stop in STOPS if before[stop] != after[stop]}
    assert sorted(row["origin"] for row in rows) == sorted(listed)
    counts = ", ".join(f"{sum(it.what == kind for it in changes)} {kind}" for kind in KINDS)
    total = sum(after.values()) - sum(before.values())
    sides = f"of {len(STOPS)} origins {sides_sentence(before, after)}; in all {text_of(total, '+')}"
    return [
        f"{scenario} compared with base: of {len(STOPS) ** 2} pairs {counts} (by more than 60 seconds)",
        f"access within {LIMIT // 60} minutes, percentile {SHARE}: {sides}",
    ]


def check_report(checked: Checked, sentences: Sequence[str]) -> None:
    """The figures of the report: its tables are those of the files, and no other number is in it."""
    text = (checked.folder / "report.md").read_text().replace("\\", "")
    blocks = text[text.index("## Figures") : text.index("## Inputs")].strip().split("\n\n")
    printed = [line[2:] for block in blocks if block.startswith("- ") for line in block.splitlines()]
    assert printed == sentences
    for caption, block in zip(blocks, blocks[1:]):
        if block.startswith("| "):
            header, _, *rows = [[cell.strip() for cell in line[2:-1].split("|")] for line in block.splitlines()]
            check_table(checked, caption, [dict(zip(header, row)) for row in rows])
    html = (checked.folder / "report.html").read_text()
    html = re.sub("<[^>]*>", " ", html[html.index("<h2>Figures") : html.index("<h2>Inputs")])
    assert re.findall(r"\d+", html) == re.findall(r"\d+", " ".join(it for it in blocks if not it.startswith("![")))
    named = {*STOPS, *(f"percentile {SHARE}", f"{SHARE} percent", f"within {LIMIT // 60} minutes", "SHA-256")}
    for block in blocks:
        if not block.startswith(("| ", "- ", "![")):
            rest = re.sub(r"\b(" + "|".join(sorted(named)) + r")\b", "", block)
            assert not re.search(r"\d", rest), block


def check_table(checked: Checked, caption: str, rows: Sequence[Row]) -> None:
    """A table of the report: means of access by hand, another one as the lines of its file."""
    if caption.startswith("Mean access"):
        assert len(rows) == 2 * len(drawn_study.CUTOFFS)
        for row in rows:
            kind = {"opportunity": row["Counted"], "percentile": str(SHARE), "cutoff": row["Within, minutes"]}
            for name, access in checked.of_row(kind, "cutoff").items():
                decimals = len(row[name].partition(".")[2])
                assert number_in(row[name]) == pytest.approx(
                    math.fsum(access.values()) / 12, abs=0.501 * 10**-decimals
                )
        return
    file = re.search(r"\(([a-z_]+\.csv)", caption)
    assert file is not None, caption
    lines = [{name.replace("_", " "): text for name, text in line.items()} for line in checked.table(file[1])]
    if caption.startswith("Who "):
        is_loss = caption.startswith("Who loses")
        lines = [line for line in lines if (float(line["change"]) < 0 if is_loss else float(line["change"]) > 0)]
        changes = [abs(float(line["change"])) for line in lines]
        assert changes == sorted(changes, reverse=True)
        lines = lines[:10]
    assert rows == lines, caption


def changes_sentence(before: Mapping[str, float], after: Mapping[str, float]) -> str:
    """How many travel times a map calls changed: by a minute or more."""
    apart = [after[stop] - before[stop] for stop in before]
    cut = sum(math.isnan(after[stop]) and not math.isnan(before[stop]) for stop in before)
    new = sum(math.isnan(before[stop]) and not math.isnan(after[stop]) for stop in before)
    text = f"{sum(change >= 60 for change in apart)} slower, {sum(change <= -60 for change in apart)} faster"
    return (f"{cut} cut off, " if cut else "") + text + (f", {new} newly reached" if new else "")


def check_maps_of_access(checked: Checked) -> None:
    base = checked.jobs("base")
    figure = checked.figures["maps/access.png"]
    half, most = text_of(statistics.median(base.values())), text_of(max(base.values()))
    assert figure.texts[1] == f"Half of 12 stops reach at least {half} jobs; the most is {most}"
    check_key(figure.key, lambda label, stop: is_in_range(label, base[stop]), STOPS)
    for scenario in SCENARIOS[1:]:
        figure, jobs = checked.figures[f"maps/access_{scenario}.png"], checked.jobs(scenario)
        losses = {stop: 100 * (base[stop] - jobs[stop]) / base[stop] for stop in STOPS if base[stop]}
        worst = max(losses, key=lambda stop: losses[stop])
        lost = f"{losses[worst]:.0f} % ({text_of(base[worst] - jobs[worst])} jobs) at Stop {worst} ({worst})"
        wanted = f"Of 12 stops {sides_sentence(base, jobs)}" + f"; the greatest loss: {lost}" * (losses[worst] >= 1)
        assert figure.texts[1] == wanted

        def is_inside(label: str, stop: str) -> bool:
            if ":" in label or base[stop] == 0 < jobs[stop] or jobs[stop] == 0 < base[stop]:
                name = (
                    "newly reached"
                    if base[stop] == 0 < jobs[stop]
                    else "cut off"
                    if jobs[stop] == 0 < base[stop]
                    else ""
                )
                return label.split(":")[0] == name
            return is_change_in(label, losses.get(stop, 0), "lost", "gained")

        check_key(figure.key, is_inside, STOPS)


def check_maps_of_times(checked: Checked) -> None:
    """Travel times from a stop, and to the nearest, with their changes."""
    times = {name: with_nan(checked.matrix.cells[name, SHARE][MAP_ORIGIN]) for name in SCENARIOS}
    others = [stop for stop in STOPS if stop != MAP_ORIGIN]
    there = [times["base"][stop] for stop in others if not math.isnan(times["base"][stop])]
    half = math.ceil(statistics.median(there) / 60)
    figure = checked.figures[f"maps/times_{MAP_ORIGIN}.png"]
    assert figure.texts[1] == f"{len(there)} of 11 other stops are reached, half of them within {half} minutes"
    check_key(figure.key, lambda label, stop: is_time_in(label, times["base"][stop]), others)
    check_changes(checked, f"times_{MAP_ORIGIN}", times, others)
    for what, one in (("jobs", "job"), ("schools", "school")):
        times = checked.of_row({"opportunity": what, "percentile": str(SHARE), "nearest": "1"}, "nearest")
        there = [time for time in times["base"].values() if not math.isnan(time)]
        half, figure = math.ceil(statistics.median(there) / 60), checked.figures[f"maps/nearest_{what}.png"]
        assert (
            figure.texts[1] == f"{len(there)} of 12 stops reach at least 1 {one}, half of these within {half} minutes"
        )
        check_key(figure.key, lambda label, stop: is_time_in(label, times["base"][stop]), STOPS)
        check_changes(checked, f"nearest_{what}", times, STOPS)


def check_changes(checked: Checked, name: str, times: Mapping[str, Mapping[str, float]], places: Sequence[str]) -> None:
    for scenario in SCENARIOS[1:]:
        figure, after = checked.figures[f"maps/{name}_{scenario}.png"], times[scenario]
        assert figure.texts[1] == f"Of 12 stops {changes_sentence(times['base'], after)}"
        check_key(figure.key, lambda label, stop: is_time_change_in(label, times["base"][stop], after[stop]), places)


def check_areas(checked: Checked) -> None:
    """The areas that are reached, as files and on maps: places and counts exactly, square kilometres to one percent."""
    features = json.loads((checked.folder / f"isochrones/{AREA_ORIGIN}.geojson").read_text())["features"]
    found = {(it["properties"]["scenario"], it["properties"]["minutes"]): it["properties"] for it in features}
    assert len(found) == len(features) == len(SCENARIOS) * len(AREA_BANDS)
    for (scenario, minutes), properties in found.items():
        row = checked.matrix.cells[scenario, SHARE][AREA_ORIGIN]
        near = [stop for stop in STOPS if (time := row[stop]) is not None and time <= 60 * minutes]
        radii = {stop: min(60 * minutes - (row[stop] or 0), 600) * (4 / 3) / 1.3 for stop in near}
        area = circles_area([(*checked.drawn.places[stop], radii[stop]) for stop in near], 10) / 1e6
        assert properties["square_km"] == pytest.approx(area, rel=0.01)
        counts = {name: sum(of[stop] for stop in near) for name, of in checked.drawn.counts.items()}
        assert properties["reached"] == len(near) and {name: properties[name] for name in counts} == pytest.approx(
            counts
        )
    for scenario in SCENARIOS:
        end = "" if scenario == "base" else f"_{scenario}"
        figure = checked.figures[f"maps/isochrones_{AREA_ORIGIN}{end}.png"]
        areas = {minutes: found[scenario, minutes]["square_km"] for minutes in AREA_BANDS}
        assert figure.texts[1] == f"{areas[AREA_BANDS[-1]]:,.1f} km² within {AREA_BANDS[-1]:g} minutes"
        assert figure.key[:3] == [f"up to {minutes:g} minutes: {area:,.1f} km²" for minutes, area in areas.items()]


def check_everything(checked: Checked) -> None:
    check_tables_of_origins(checked)
    check_tables_of_people(checked)
    check_report(checked, [line for scenario in SCENARIOS[1:] for line in check_comparison(checked, scenario)])
    check_maps_of_access(checked)
    check_maps_of_times(checked)
    check_areas(checked)
    for figure in checked.figures.values():
        notes = " ".join(figure.texts[2:]).replace(f"{SHARE} % of", "")
        assert not re.search(r"\d", notes), notes


def test_each_number_that_a_study_prints_is_that_of_plain_formulas(
    place: Place, monkeypatch: pytest.MonkeyPatch  # noqa: F811
) -> None:
    drawn, figures = drawn_study.draw_study(place, 86), drawn_study.noted_figures(monkeypatch)
    assert place.ran("study", place.path("town.toml"))[2] == 0
    assert len(figures) == 4 + 15  # bars of people, and maps
    check_everything(Checked(place.folder / "town", drawn, figures))
