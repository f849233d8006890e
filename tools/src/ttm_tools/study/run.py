"""The run of `ttm` that a study means: its days, its arguments, and what its scenarios are called there."""

import datetime
import itertools
from typing import Any, Sequence

from ..core.scenarios import BASE, scenario_name
from ..core.tables import records
from ..core.times import day_of
from ..engine.arguments import EngineArguments
from .settings import Study


def shown_names(scenarios: Sequence[str], runs_all: bool) -> dict[str, str]:
    """What each scenario of a plan is called in the run: by its name, or `base` for one that takes out nothing of the
    feed, which has the trips of all; but for that `base` isn't shown.
    """
    names = {scenario_name(path): scenario_name(path) for path in scenarios}
    whole = [scenario_name(path) for path in scenarios if len(list(itertools.islice(records(path), 2))) < 2]
    return names if runs_all or not whole else {**names, whole[0]: BASE}


def run_of(study: Study, feed: str, files: dict[str, str], scenarios: Sequence[str]) -> EngineArguments:
    """The arguments of a run of `ttm`."""
    settings, alike = study.run, ("trips", "walk", "shares", "limits", "tries", "back", "ahead")
    own: dict[str, Any] = {name: getattr(settings, name) for name in alike}
    return EngineArguments(
        feed, settings.date, (settings.first, settings.last), scenarios=scenarios, files=files, **own
    )


def dates_of(study: Study) -> list[datetime.date]:
    """The days of the departures, of which there may be several."""
    named = study.run.dates or (study.run.date,)
    return [day_of(text) for text in named]


def days_of(study: Study) -> list[datetime.date]:
    """The days of the runs, where services that run on others are left out."""
    span = range(-study.run.back, study.run.ahead + 1) if study.feed.only_days else range(0)
    return sorted({day + datetime.timedelta(number) for day in dates_of(study) for number in span})
