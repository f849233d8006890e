"""The page of a study: one file to view and to send."""

from typing import Any, Sequence

from ...api.count_files import columns_of
from ...core.files import output
from ...core.text import decimal, display_text, quantity
from ...places.folder import POINTS
from ...web.page.make import page_of
from ...web.page.settings import PageSettings
from ..counted import COUNTED, PEOPLE
from ..sources import Sources
from ..stages import Stage
from .tables import Records, StudyMatrix

PAGE = "page.html"
LEAST, MOST, OTHERWISE = 1.0, 250.0, 30.0  # minutes that a limit of the page may have, and if it has none of these
COUNTS = (("counted", COUNTED), ("people", PEOPLE))  # stages and the files that they write
SEED = 1  # of the draw of origins, if the page can't hold all


def page_stages(results: StudyMatrix, records: Records) -> list[Stage]:
    study, inputs = results.study, results.inputs
    if not study.results.page:
        return []

    def make() -> list[str]:
        page = page_of(results.matrix(), settings_of(results))
        with output(results.at(PAGE)) as file:
            page.write(file)
        ground = page.content.ground
        sentence = (
            f"{quantity(len(ground.places.identifiers), 'place')}, travel times from {len(ground.rows):,} of them"
        )
        lost = [*limits_of_page(study.cutoffs)[1], *people_of_page(results)[1]]
        return [f"{PAGE}: {sentence}", *page.frame.sentences, *(f"{PAGE}: {line}" for line in lost)]

    texts: list[Any] = [study.title, study.about.note, results.unit, study.within, list(study.cutoffs)]
    texts += [list(study.results.nearest), study.walk_facts]
    counts = [inputs.outputs_of("counted"), inputs.outputs_of("people")]
    facts = {"texts": texts, "counts": counts, "run": inputs.sums, "words": inputs.run.arguments()}
    return [
        Sources(study.at, [study.walks.streets, study.results.ground]).stage(
            "page", {**results.depends, **facts}, [PAGE], make
        )
    ]


def limits_of_page(cutoffs: Sequence[float]) -> tuple[list[float], list[str]]:
    """Returns the limits of access that a page can have, another one if there are none; and what is left out."""
    kept = [cutoff for cutoff in cutoffs if LEAST <= cutoff <= MOST]
    lost = ", ".join(decimal(cutoff) for cutoff in cutoffs if cutoff not in kept)
    instead = "" if kept else f"; it has {decimal(OTHERWISE)} instead"
    what = f"without the limits below {LEAST:g} or above {MOST:g} minutes, {lost}{instead}"
    return kept or [OTHERWISE], [what] if lost else []


def people_of_page(results: StudyMatrix) -> tuple[list[str], list[str]]:
    """Returns the file of people for the page, none if their columns are among what is counted; and why."""
    counted, people = ([results.at(path)] if name in results.inputs.records else [] for name, path in COUNTS)
    both = [name for name in columns_of(people[0]) if name in columns_of(counted[0])] if counted and people else []
    if not both:
        return people, []
    names = ", ".join(map(display_text, both))
    return [], [f"without people by origin, since {names} of people is counted as what is reached, too"]


def settings_of(results: StudyMatrix) -> PageSettings:
    study, inputs = results.study, results.inputs
    counted = [results.at(COUNTED)] if "counted" in inputs.records else []
    people, cutoffs = people_of_page(results)[0], limits_of_page(study.cutoffs)[0]
    return PageSettings(
        feed=results.at(inputs.feed),
        points=results.at(f"{inputs.feed}/{POINTS}") if "points" in inputs.records else None,
        edits=list(map(results.at, inputs.edits.values())),
        opportunities=counted,
        people=people,
        base=inputs.base,
        cutoffs=cutoffs,
        seed=SEED,
        unit=results.unit,
        title=study.title,
        note=" ".join(text for text in (study.about.question, study.about.note) if text) or None,
        arguments=" ".join(inputs.run.arguments()),
        within=study.within,
        nearest=list(study.results.nearest) if counted else [],
        walking=study.walking,
        streets=study.at(study.walks.streets) if study.walks.streets else None,
        near=study.walks.near,
        ground=study.at(study.results.ground) if study.results.ground else None,
    )
