"""Who gains and who loses access in each scenario of a study, by group of people and threshold."""

from ...core.arrays import Floats
from ...core.files import output
from ...core.text import display_text
from ...measures.access_table import AccessTable
from ...measures.gains import ALL, group_of_all, with_everyone
from ...measures.opportunities import Counts
from ...views.gains import GainOptions, gain_rows, write_gains
from ...views.tables import CSV
from ..stages import Stage
from .tables import ACCESS_TABLE, Records, StudyMatrix, read_people

WHO_GAINS = "who_gains.csv"


def are_wanted(results: StudyMatrix) -> bool:
    """Whether a study counts who gains: it does if it names people and compares scenarios, unless it says no."""
    has_people = "people" in results.inputs.records
    return has_people and bool(results.others) and results.study.results.who_gains is not False


def groups_of(people: Counts) -> tuple[dict[str, Floats], str]:
    """The groups with that of everyone, and what it is: the sum, or the first if no other is larger anywhere."""
    groups = {name: people.named(name) for name in people.names}
    known = group_of_all(groups)
    what = "the sum of the groups" if known is None else f"{display_text(known)}, nowhere smaller than another group"
    return with_everyone(groups, known), what


def rows_of_gains(results: StudyMatrix, table: AccessTable, people: Counts) -> list[list[str]]:
    """The rows of a table of access."""
    settings = results.study.results
    options = GainOptions(results.inputs.base, settings.thresholds, settings.gain_least)
    return gain_rows(table, table.kinds, groups_of(people)[0], options)


def words_of(results: StudyMatrix) -> list[object]:
    """What the rows depend on, besides access and people."""
    settings = results.study.results
    return [list(settings.thresholds), settings.gain_least, results.inputs.base]


def gain_stages(results: StudyMatrix, records: Records) -> list[Stage]:
    """The table of the first window."""
    if "access" not in records or not are_wanted(results):
        return []

    def make() -> list[str]:
        table, people = read_people(results, ACCESS_TABLE)
        with output(results.at(WHO_GAINS)) as file:
            write_gains(file, rows_of_gains(results, table, people), CSV)
        groups, what = groups_of(people)
        stated = f"; {ALL} is {what}" if len(people.names) > 1 and ALL not in people.names else ""
        return [f"{WHO_GAINS}: {', '.join(map(display_text, groups))}{stated}"]

    own = {stage: results.inputs.outputs_of(stage) for stage in ("people", "grid")}
    facts = {**own, "access": records["access"].outputs, "words": words_of(results)}
    return [Stage("who_gains", facts, [WHO_GAINS], make)]
