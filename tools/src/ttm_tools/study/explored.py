"""The settings of a study as the options of an exploration."""

from dataclasses import replace
from pathlib import Path
from typing import Any, Collection, Iterator

from ..core.errors import InputError
from ..core.times import day_of
from ..web.options import ExploreOptions
from .settings import Study
from .study_file import read_study

SAME = ("trips", "walk", "back", "ahead")  # names of [run] that are names of options
WALKS = {"footpaths", "streets", "grid"}  # options that name or make walks


def options_of_study(path: str, options: ExploreOptions, given: Collection[str]) -> tuple[ExploreOptions, list[str]]:
    """The settings of a study's file, and sentences on what the page does not show of the study.

    Options that are given replace settings. A study whose feed must be prepared first is refused.
    """
    study = read_study(path)
    if not study.feed.ready or study.points.are_any:
        message = "needs a prepared feed: explore the folder of a feed, such as the one in the study's folder"
        raise InputError(path, message, column="ready", allowed="true, and no [points]")
    if study.walks.table is None and not study.walks.none and WALKS.isdisjoint(given):
        message = "must be computed first: run ttm-tools walks, then set table of [walks]"
        raise InputError(path, message, column="walks", allowed="table, or none = true")
    values = {name: value for name, value in values_of(study).items() if name not in given}
    if "footpaths" not in given and not WALKS.isdisjoint(given):
        values["footpaths"] = None  # these options make walks
    ends = zip(("first", "last"), options.window, (study.run.first, study.run.last))
    first, last = (own if name in given else of_study for name, own, of_study in ends)
    return replace(options, window=(first, last), **values), list(sentences_on_rest(study, given))


def values_of(study: Study) -> dict[str, Any]:
    """The values of options that a study states; its percentiles, which no option names, too."""
    run, walks = study.run, study.walks
    values: dict[str, Any] = {name: getattr(run, name) for name in (*SAME, "shares")}
    values |= {"feed": study.at(study.feed.files[0]), "date": day_of(run.date), "title": study.title}
    table, plan = (None if path is None else study.at(path) for path in (walks.table, study.scenarios.plan))
    files = [study.at(file) for file in study.opportunities.files]
    return {**values, "plan": plan, "footpaths": table, "opportunities": files}


def sentences_on_rest(study: Study, given: Collection[str]) -> Iterator[str]:
    """What of a study the page does not show."""
    run, scenarios = study.run, study.scenarios
    if len(run.dates) > 1 and "date" not in given:
        shown, *rest = [day_of(date).isoformat() for date in run.dates]
        yield f"dates: the page shows {shown}, not {', '.join(rest)}: name another with --date"
    if len(run.windows) > 1 and not {"first", "last"} & set(given):
        shown, *rest = [f"{window.name}, {window.first} to {window.last}" for window in run.windows]
        help_ = "name another with --from and --to, or move its sliders"
        yield f"windows: the page begins with {shown}, not with {'; '.join(rest)}: {help_}"
    if scenarios.files and "plan" not in given:
        names = ", ".join(Path(file).name for file in scenarios.files)
        yield f"scenarios: the page does not show the scenario files {names}: name a plan with --plan"
