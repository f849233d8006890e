"""How the access of people changes in each scenario: the numbers behind the report's opening, and its charts."""

from dataclasses import dataclass

import numpy as np

from ...api.access_files import read_access
from ...core.arrays import Floats
from ...core.files import atomic_folder
from ...core.text import display_text, quantity
from ...measures.opportunities import Counts
from ...measures.person_changes import PersonChanges
from ...views.people_chart import ChartWords, figure_by_group, figure_in_order
from ...views.picture_files import write_picture
from ..stages import Stage
from .tables import ACCESS_TABLE, Records, StudyMatrix, read_people

PEOPLE, PLACES = "people", "places"
ORDER, GROUPS = f"{PEOPLE}/order.png", f"{PEOPLE}/groups.png"


@dataclass(frozen=True)
class StudyChanges:
    """Access before and in each scenario, and how many people of each group live where."""

    words: ChartWords
    minutes: str
    unit: str
    base: Floats
    after: dict[str, Floats]  # by scenario
    groups: dict[str, Floats]  # people by place

    @property
    def all_people(self) -> Floats:
        """All people: the first group if no other is larger at any place, such as a total, else the sum of all."""
        first, *others = self.groups.values()
        is_total = all(bool((first >= other).all()) for other in others)
        summed: Floats = np.sum([first, *others], axis=0)
        return first if is_total else summed

    def of(self, scenario: str, group: str | None = None) -> PersonChanges:
        """The changes of a group of people; without a name those of all people."""
        return PersonChanges(self.base, self.after[scenario], self.groups[group] if group else self.all_people)


def study_changes(whole: StudyMatrix) -> StudyChanges:
    """Reads the table of access, and who lives at its origins; without people each place counts once."""
    if "people" in whole.inputs.records:
        table, people = read_people(whole, ACCESS_TABLE)
    else:
        table = read_access(whole.at(ACCESS_TABLE))
        people = Counts([PLACES], np.ones((len(table.origins), 1)))
    kind = whole.kind_drawn(table.kinds, table.kinds[0].opportunity)
    numbers = table.numbers[:, table.kinds.index(kind)]
    base = table.scenario(whole.inputs.base)
    after = {name: numbers[table.scenario(name)] for name in whole.others}
    groups = {name: people.numbers[:, place] for place, name in enumerate(people.names)}
    unit = display_text(kind.opportunity)
    words = ChartWords(f"{unit} within {kind.cutoff} min", PLACES if people.names == [PLACES] else "people")
    return StudyChanges(words, kind.cutoff, unit, numbers[base], after, groups)


def change_stages(whole: StudyMatrix, known: Records) -> list[Stage]:
    """The charts of who loses and who gains, if the study has a table of access, pictures, and scenarios."""
    if "access" not in known or not whole.study.results.maps or not whole.others:
        return []

    def make() -> list[str]:
        found = study_changes(whole)
        with atomic_folder(whole.at(PEOPLE)) as aside:
            figure = figure_in_order({name: found.of(name) for name in found.after}, found.words)
            write_picture(str(aside / "order.png"), figure)
            count = 1
            first = next(iter(found.after))
            if len(found.groups) > 1:
                groups = {name: found.of(first, name) for name in found.groups}
                write_picture(str(aside / "groups.png"), figure_by_group(groups, found.words))
                count += 1
        return [f"{PEOPLE}: {quantity(count, 'chart')}"]

    own = {stage: whole.inputs.outputs_of(stage) for stage in ("people", "grid")}
    facts = {**whole.depends, **own, "access": known["access"].outputs}
    return [Stage("changes", facts, [PEOPLE], make)]
