"""The report of a study: its question, what it rests on, its figures, and what is proved of them. It has no times, so
that the same study has the same report.
"""

import itertools
from pathlib import Path
from typing import Iterator, Sequence

from ..api.access_files import read_access
from ..core.tables import number_of, records as records_in
from ..core.text import display_text
from ..places.features import NOT_SUMMED
from ..places.folder import UNREACHED
from ..places.grid import OUTSIDE
from .counted import NOT_COUNTED, REACH_NOTHING
from .document import Document
from .opening import write_opening
from .outside import sentence_on_outside
from .results.maps import AREAS, maps_of
from .results.page import PAGE
from .results.tables import ACCESS_TABLE, Records, StudyMatrix
from .results.windows import write_changes_by_window, write_windows
from .settings import Study
from .stages import Stage

MARKDOWN, HTML, TOLD = "report.md", "report.html", "inputs/told.txt"
FEW = 10  # origins that lose, and that gain most, which the report names
MOST_DECIMALS = 6
MISSED = (
    OUTSIDE,
    UNREACHED,
    NOT_COUNTED,
    REACH_NOTHING,
    NOT_SUMMED,
)  # signs of people, jobs or points that the figures miss
OF_PEOPLE = {
    "equity": "Access by groups of people",
    "bands": "People by number of opportunities",
    "equity_nearest": "Time to the nearest, by group of people",
    "bands_nearest": "People by minutes to the nearest",
}
PROVED = (
    "Each travel time of the matrix is the least that the percentile of departures achieves, over all journeys of at "
    "most the stated number of vehicles, for the files in the folder inputs and the arguments above. This is ttm's "
    "contract, and proved. So is that the rows of the whole are those of its parts, however they ran.",
    "Not proved, but tested: how the inputs were made (repairs, walks, points, plans), how parts were joined, and all "
    "tables, maps and pages. Whether the timetable is what really runs, and what is counted at each stop, depend on "
    "the inputs.",
    "ttm-tools study --verify recomputes a drawn tenth of the rows, and compares their bytes.",
)


def report_stages(results: StudyMatrix, records: Records) -> list[Stage]:
    """The report in both forms."""

    def make() -> list[str]:
        document = report_of(results, records)
        Path(results.at(MARKDOWN)).write_text(document.as_markdown(), encoding="utf-8", errors="backslashreplace")
        Path(results.at(HTML)).write_text(document.as_html(), encoding="utf-8", errors="backslashreplace")
        return [f"{MARKDOWN}, {HTML}"]

    about = results.study.about
    lines = {name: record.lines for name, record in {**results.inputs.records, **records}.items()}
    sums = {name: record.outputs for name, record in records.items()}
    texts = [results.study.title, about.question, about.note, list(results.version), results.unit]
    facts = {"texts": texts, "told": lines, "sums": sums, "words": results.inputs.run.arguments()}
    return [Stage("report", {**results.depends, **facts, "sources": results.inputs.sources}, [MARKDOWN, HTML], make)]


def report_of(results: StudyMatrix, records: Records) -> Document:
    study, inputs = results.study, results.inputs
    document = Document(study.title, folder=study.folder)
    for text in (study.about.question, study.about.note):
        if text:
            document.paragraph(text)
    write_opening(document, results, records)
    document.heading("Figures")
    write_figures(document, results, records)
    document.heading("Inputs")
    sums = [list(source) for source in inputs.sources.items()]
    document.table("Files, with their SHA-256 checksums", ["File", "SHA-256"], sums)
    document.paragraph("How the inputs were prepared:")
    document.items(f"{name}: {line}" for name, record in inputs.records.items() for line in record.lines)
    document.paragraph("Arguments of the run, in the study's folder; parts of the origins ran instead:")
    document.code(["ttm " + " ".join(inputs.run.arguments())])
    warnings = list[str]()
    for path in file_names_of(study):
        day = f" for {Path(path).stem.removeprefix('told_')}" if path != TOLD else ""
        document.paragraph(f"What ttm reported about days, trips and walks{day}:")
        lines = Path(results.at(path)).read_text(encoding="utf-8").splitlines()
        document.code(lines)
        warnings += [line for line in lines if line.startswith("warning") and line not in warnings]
    lines = [line for record in inputs.records.values() for line in record.lines]
    warnings += [line for line in lines if line.startswith("warning") or any(sign in line for sign in MISSED)]
    document.paragraph("Warnings: " + ("; ".join(warnings) if warnings else "none."))
    document.heading("What is proved, and what isn't")
    for text in PROVED:
        document.paragraph(text)
    document.code(list(results.version))
    return document


def file_names_of(study: Study) -> list[str]:
    """What `ttm` reported of each day, that of the first one first."""
    return [TOLD, *(day_shown(date) for date in study.run.dates[1:])]


def day_shown(date: str) -> str:
    return TOLD.replace(".txt", f"_{date}.txt")


def write_figures(document: Document, results: StudyMatrix, records: Records) -> None:
    """Access, winners and losers, equity and maps: those that the study has."""
    study = results.study
    if "access" in records:
        caption = f"Mean access of the origins, for travel times that {study.share} percent of the departures achieve"
        caption += f"; {sentence}" if (sentence := results.matrix().greatest_stated) else ""
        document.table(caption, ["Counted", "Within, minutes", *results.scenarios], list(means(results)))
    for scenario, name in results.others.items():
        if f"compare_{name}" in records:
            document.heading(f"{display_text(scenario)} compared with {display_text(results.inputs.base)}", 3)
            write_changes_by_window(document, results, records, scenario)
            document.items(records[f"compare_{name}"].lines)
            write_changes(document, results, f"compare_{name}.csv")
    if "equity" in records:
        document.heading("How access is distributed among people", 3)
    for name, caption in OF_PEOPLE.items():
        if name in records:
            header, *lines = [list(map(display_text, fields)) for _, fields in records_in(results.at(f"{name}.csv"))]
            people = sentence_on_outside(study)
            of = f"; percentages are {people}" if "percent" in header else f"; measures are {people}" * ("," in people)
            document.table(f"{caption} ({name}.csv){of}", list(map(as_phrase, header)), lines)
            for path in (output for output in records[name].outputs if output.endswith(".png")):
                document.picture(path, f"{caption}: {display_text(Path(path).stem)}")
    write_windows(document, results, records)
    if "page" in records:
        document.link("A page for the browser:", PAGE)
    if AREAS in records:
        document.paragraph(f"The areas reached within the given minutes are in the folder {AREAS}, as GeoJSON.")
    if "maps" in records:
        document.heading("Maps", 3)
        document.paragraph("The pictures are also files in the folder maps.")
        for picture in maps_of(results):
            start = f", from {display_text(picture.origin)}" if picture.origin else ""
            end = f", the nearest {display_text(picture.nearest)}" if picture.nearest else ""
            document.picture(picture.file, f"{picture.kind}, {display_text(picture.scenario)}{start}{end}")


def means(results: StudyMatrix) -> Iterator[list[str]]:
    """The mean access of each scenario, by what is counted and within which limit."""
    table = read_access(results.at(ACCESS_TABLE))
    places = [table.scenario(name) for name in results.scenarios]
    for number, kind in enumerate(table.kinds):
        if kind.percentile in ("", str(results.study.share)):
            yield [
                display_text(kind.opportunity),
                kind.cutoff,
                *texts_apart([table.numbers[place, number].mean() for place in places]),
            ]


def texts_apart(numbers: Sequence[float]) -> list[str]:
    """Numbers with one decimal, or with as many as show in which of them there is a change, and which are not 0."""
    different = len({round(float(number), MOST_DECIMALS) for number in numbers})
    for decimals in range(1, MOST_DECIMALS + 1):
        texts = [f"{number:,.{decimals}f}" for number in numbers]
        are_shown = all(
            text.strip("-0.") or not round(float(number), MOST_DECIMALS) for text, number in zip(texts, numbers)
        )
        if len(set(texts)) == different and are_shown:
            return texts
    return texts


def as_phrase(name: str) -> str:
    """The name of a column as words, between which a line may end."""
    return name.replace("_", " ")


def write_changes(document: Document, results: StudyMatrix, path: str) -> None:
    """The origins that lose most, and those that gain most: the table has losers first, and then winners."""
    study = results.study
    of = f"within {study.within / 60:g} minutes, percentile {study.share}"
    several = [name for name, values in (("within", study.run.limits), ("share", study.run.shares)) if len(values) > 1]
    chosen = f"; {' and '.join(several)} of [results] choose{'s' * (len(several) == 1)}" if several else ""
    _, header = next(records_in(results.at(path)))
    place = header.index("change")
    for what, sign in (("loses", -1), ("gains", 1)):
        wanted = (fields for _, fields in records_in(results.at(path)) if sign * number_of(fields[place]) > 0)
        found = list(itertools.islice(wanted, FEW))
        if found:
            rows = [list(map(display_text, fields)) for fields in found]
            caption = f"Who {what} most {of} ({path} has all{chosen})"
            document.table(caption, list(map(as_phrase, header)), rows)
