"""Results of the matrices of all windows and days: access and its spread over people by window, pictures of both by
time of day, and their part of the report.
"""

import itertools
from pathlib import Path
from typing import Any, BinaryIO, Iterator, Sequence

import numpy as np

from ...api.count_files import columns_of, read_counts
from ...core.columns import WINDOWS as WINDOW_COLUMNS, names_of
from ...core.filenames import file_names
from ...core.files import atomic_folder, output
from ...core.tables import records as records_in, write_rows
from ...core.text import decimal, display_text, quantity
from ...measures.access_table import AccessKind, AccessTable
from ...measures.opportunities import Counts
from ...views import equity
from ...views.access import ACCESS, Measured, NEAREST, long_rows
from ...views.gains import header_of_gains
from ...views.picture_files import write_picture
from ...views.windows import FigureLabels, WindowColumn, figure_by_time, figure_of_heat, figure_of_maps
from ..counted import COUNTED, PEOPLE
from ..document import Document
from ..joining import MATRIX
from ..kinds import Window
from ..outside import with_outside
from ..settings import DayWindow
from ..stages import Stage
from ..windows import WINDOWS, matrix_of
from .tables import LOSE, Measurement, POINTS, Records, STOPS, StudyMatrix, measurements_of
from .gains import WHO_GAINS, are_wanted, rows_of_gains, words_of
from .window_changes import changes_of, fields_of, write_changes

HEADS = names_of(WINDOW_COLUMNS)
EACH = "origins"  # whom the means count where no people are named: each origin once
PICTURES = f"{WINDOWS}/pictures"
KINDS = {  # of pictures, and what each shows
    "time": "mean access and that of the tenth that has the least, by time of day",
    "heat": "each place by window",
    "maps": "maps by window",
}
DECIMALS = 6
EQUITY = f"{WINDOWS}/equity.csv"
COLUMNS = ["date", "window", "group", "scenario", "people", "mean", "least_tenth"]  # of the report
CHANGES, GAINS = f"{WINDOWS}/compare.csv", f"{WINDOWS}/{WHO_GAINS}"
CHANGE_COLUMNS = ["date", "window", "lose", "cut_off", "gain", "newly_reached", "group", "mean_change"]


def window_stages(results: StudyMatrix, records: Records) -> list[Stage]:
    """Tables and pictures, where several windows or days are named."""
    return [tables_stage(results, of) for of in measurements_of(results.study)] if results.study.questions else []


def path_of(results: StudyMatrix, question: DayWindow) -> str:
    return MATRIX if question == results.study.questions[0] else matrix_of(question)


def tables_stage(results: StudyMatrix, of: Measurement) -> Stage:
    """The table by origin, and that by people; of access the pictures, too."""
    study = results.study
    by_origin = f"{WINDOWS}/{of.kind}.csv"
    by_people = EQUITY if of.heads == ACCESS else f"{WINDOWS}/equity_{of.kind}.csv"
    pictures = [PICTURES] if study.results.maps and of.heads == ACCESS else []
    gained = [GAINS] if of.heads == ACCESS and are_wanted(results) else []
    compared = [CHANGES] if study.results.compare and of.heads == ACCESS and results.others else []

    def make() -> list[str]:
        tables = dict[DayWindow, AccessTable]()
        header = [*HEADS, "scenario", "id", "opportunity", "percentile", *of.heads]
        with output(results.at(by_origin)) as file:
            write_rows(file, header, lines_of(results, of, tables))
        with output(results.at(by_people)) as file:
            write_spread(file, tables, results)
        for path in compared:
            with output(results.at(path)) as file:
                wide, people = with_people(results, tables)
                write_changes(file, list(changes_of(wide, results.inputs.base, people)), people.names)
        for path in gained:
            with output(results.at(path)) as file:
                write_gains_by_window(file, results, tables)
        for _ in pictures:
            draw_all(results, tables)
        written = [by_origin, by_people, *compared, *gained, *pictures]
        return [f"{', '.join(written)}: {quantity(len(tables), 'window')}"]

    options = [*of.options, study.results.unit, [question.label for question in study.questions]]
    sums = [results.inputs.outputs_of(stage) for stage in ("counted", "people", "grid")]
    facts: dict[str, Any] = {**results.depends, "words": options, "windows": results.windows, "sums": sums}
    facts |= {"who_gains": words_of(results)} if gained else {}
    return Stage(f"windows_{of.kind}", facts, [by_origin, by_people, *compared, *gained, *pictures], make)


def lines_of(results: StudyMatrix, of: Measurement, tables: dict[DayWindow, AccessTable]) -> Iterator[list[object]]:
    """The lines of the table by origin, window by window; each window's numbers are kept for the table by people."""
    for question in results.study.questions:
        path = path_of(results, question)
        matrix, stops = results.open(path)
        counts = results.counts(matrix)
        found = of.of(matrix, counts, stops)
        tables[question] = table_of(path, found, counts, of)
        texts = [decimal(limit) for limit in of.limits]
        yield from ([*question.head, *line] for line in long_rows(found, counts.names, texts, True))


def table_of(path: str, found: Sequence[Measured], counts: Counts, of: Measurement) -> AccessTable:
    """The same numbers as `read_access` gives them, with the decimals that a table has."""
    shares = ["" if share is None else str(share) for share in found[0].shares]
    kinds = [
        AccessKind(name, share, decimal(limit)) for name in counts.names for share in shares for limit in of.limits
    ]
    by_kind = [of.numbers.transpose(2, 0, 3, 1).reshape(len(kinds), -1) for of in found]
    numbers = np.round(np.stack(by_kind), DECIMALS)
    return AccessTable(path, [of.scenario for of in found], kinds, found[0].origins, numbers, of.heads == NEAREST)


def people_of(results: StudyMatrix, origins: Sequence[str]) -> Counts:
    """Who lives at the origins; where no people are named, one at each."""
    if "people" in results.inputs.records:
        return read_counts([results.at(PEOPLE)], origins, "origin of the study")
    return Counts([EACH], np.ones((len(origins), 1)))


def with_people(
    results: StudyMatrix, tables: dict[DayWindow, AccessTable]
) -> tuple[dict[DayWindow, AccessTable], Counts]:
    """Adds the people outside all cells to the tables, if the study counts them; and returns all its people."""
    people = people_of(results, next(iter(tables.values())).origins)
    found = {question: with_outside(results.study, table, people) for question, table in tables.items()}
    return {question: table for question, (table, _) in found.items()}, next(iter(found.values()))[1]


def write_spread(out: BinaryIO, tables: dict[DayWindow, AccessTable], results: StudyMatrix) -> None:
    """How what is measured is spread over people, window by window."""
    lines, header = list[list[object]](), list[str]()
    wide, people = with_people(results, tables)
    for question, table in wide.items():
        options = equity.EquityOptions(results.inputs.base, LOSE, table.kinds)
        header, *rows = equity.rows_of(equity.measured(table, people, options))
        lines += [[*question.head, *row] for row in rows]
    write_rows(out, [*HEADS, *header], lines)


def write_gains_by_window(out: BinaryIO, results: StudyMatrix, tables: dict[DayWindow, AccessTable]) -> None:
    """Who gains and who loses, window by window."""
    wide, people = with_people(results, tables)
    lines = [[*question.head, *row] for question, own in wide.items() for row in rows_of_gains(results, own, people)]
    write_rows(out, [*HEADS, *header_of_gains()], lines)


def kinds_drawn(results: StudyMatrix) -> list[AccessKind]:
    """What is drawn of each thing that is counted."""
    cutoffs = [decimal(cutoff) for cutoff in results.study.cutoffs]
    share = next(iter(results.matrix().shares))
    percentile = "" if share is None else str(results.study.share)
    return [
        results.kind_drawn([AccessKind(name, percentile, cutoff) for cutoff in cutoffs], name)
        for name in pictures_of(results)
    ]


def pictures_of(results: StudyMatrix) -> dict[str, list[str]]:
    """The pictures of each thing that is counted: by time, the heat map, and the maps."""
    names = columns_of(results.at(COUNTED)) if "counted" in results.inputs.records else [STOPS]
    called = file_names(names, [f"_{kind}" for kind in KINDS])
    return {name: [f"{PICTURES}/{file}_{kind}.png" for kind in KINDS] for name, file in called.items()}


def draw_all(results: StudyMatrix, tables: dict[DayWindow, AccessTable]) -> None:
    """Draws the pictures of each thing that is counted."""
    first = next(iter(tables.values()))
    wide, people = with_people(results, tables)
    places, base = POINTS if results.study.points.all else STOPS, first.scenario(results.inputs.base)
    _, stops = results.open()
    with atomic_folder(results.at(PICTURES)) as folder:
        for name, paths in pictures_of(results).items():
            kind = results.kind_drawn(first.kinds, name)
            number = first.kinds.index(kind)
            columns, of_people = (columns_drawn(own, number) for own in (tables, wide))
            scenario = results.inputs.base if len(first.scenarios) > 1 else ""
            labels = FigureLabels(kind.label, display_text(name), places, display_text(scenario))
            figures = [
                figure_by_time(of_people, first.scenarios, people, labels),
                figure_of_heat(columns, base, labels),
                figure_of_maps(columns, base, stops.of(first.origins), labels),
            ]
            for path, figure in zip(paths, figures):
                write_picture(str(folder / Path(path).name), figure)


def columns_drawn(tables: dict[DayWindow, AccessTable], kind: int) -> list[WindowColumn]:
    """The numbers of one kind of access in each window."""
    return [WindowColumn(*question.head, table.numbers[:, kind]) for question, table in tables.items()]


def write_changes_by_window(document: Document, results: StudyMatrix, records: Records, scenario: str) -> None:
    """Who loses and who gains access in each window, before what the report says of the first window alone."""
    questions = results.study.questions
    if not questions:
        return
    if "windows_access" in records and CHANGES in records["windows_access"].outputs:
        for kind in kinds_drawn(results):
            caption = f"{kind.label}: how many origins lose and gain, and the mean change, in each window ({CHANGES})"
            wanted = [scenario, *fields_of(kind)]
            lines = list(lines_reported(results.at(CHANGES), wanted, CHANGE_COLUMNS))
            document.table(caption, [name.replace("_", " ") for name in CHANGE_COLUMNS], lines)
    document.paragraph(f"In the first window, {questions[0].label}:")


def write_windows(document: Document, results: StudyMatrix, records: Records) -> None:
    """The windows with their matrices, access in each of them, and pictures."""
    questions = results.study.questions
    if not questions:
        return
    document.heading("By time of day", 3)
    rows = [[*question.head, display_text(path_of(results, question))] for question in questions]
    document.table("Windows, each with its matrix", ["Day", "Window", "From", "To", "Matrix"], rows)
    if overlap_by_rule(results.study.run.windows):
        document.paragraph("Windows overlap: some departures are in more than one.")
    document.paragraph(f"Comparisons, maps and the page are those of the first: {questions[0].label}.")
    if "windows_access" not in records:
        return
    for kind in kinds_drawn(results):
        caption = f"{kind.label}: mean of the people, and of the tenth that has the least ({EQUITY} has all)"
        lines = list(lines_reported(results.at(EQUITY), fields_of(kind), COLUMNS))
        document.table(caption, [name.replace("_", " ") for name in COLUMNS], lines)
    if PICTURES in {path.rpartition("/")[0] for path in records["windows_access"].outputs}:
        for name, paths in pictures_of(results).items():
            for path, what in zip(paths, KINDS.values()):
                document.picture(path, f"{display_text(name)}: {what}")


def overlap_by_rule(windows: Sequence[Window]) -> bool:
    """Whether windows that a rule names by their first departures share departures."""
    return all(window.is_named_by_first for window in windows) and any(
        after.first <= before.last for before, after in itertools.pairwise(windows)
    )


def lines_reported(path: str, kind: list[str], columns: Sequence[str]) -> Iterator[list[str]]:
    """Some columns of the lines of a kind in a table, as the report has them."""
    table = records_in(path)
    _, header = next(table)
    first, places = len(HEADS), [header.index(name) for name in columns]
    for _, fields in table:
        if fields[first : first + len(kind)] == kind:
            yield [display_text(fields[place]) for place in places]
