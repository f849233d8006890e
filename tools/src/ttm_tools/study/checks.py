"""A study's files compared with each other, before any work that takes long."""

import datetime
from pathlib import Path
from typing import Collection, Sequence

from ..api.count_files import called, columns_of, numbers_of
from ..core.errors import InputError
from ..core.stop_lists import origins_in
from ..core.tables import rows
from ..core.text import display_text
from ..gtfs import likely
from ..gtfs.check import check
from ..gtfs.feeds import read_feed
from ..gtfs.stops import origins_of_feed
from ..places.read import read_points
from ..prepare.losses import Hints, refuse_day
from .counted import refuse_unknown, unknown_in
from .settings import Study
from .stages import room

HINTS = Hints(
    errors="ttm-tools prepare --check lists all; repair = true of [feed] repairs what its rules cover",
    after_repair="ttm-tools prepare --check lists all; no rule covers them",
    loss="allow_loss = true of [feed] continues; ttm-tools prepare --check lists all errors",
    day="name another date in [run], or let allow_loss = true of [feed] continue",
    empty="keep more in [feed], name another date in [run], or let allow_loss = true of [feed] continue",
)
OF_STUDY, OF_ORIGINS = "point of the study", "point at which journeys begin"


def check_points(study: Study) -> None:
    """Looks at the points of a study, and at what other files say of them; without points at the columns alone."""
    settings = study.points
    read = {path: read_points(study.at(path)) for path in settings.all}
    columns = [name for points in read.values() for name in points.columns]
    check_columns(study, columns)
    if not settings.all:
        return
    names = names_of({path: points.identifiers for path, points in read.items()})
    for path in study.opportunities.files:
        check_counts(study.at(path), names, OF_STUDY)
    origins = names_of({path: read[path].identifiers for path in (*settings.files, *settings.origins)})
    if study.opportunities.people:
        check_counts(study.at(study.opportunities.people), origins, OF_ORIGINS)
    if study.results.maps or study.results.page:
        check_shown(study, origins, "map_origins")


def check_stops(study: Study, feed: str) -> None:
    """Looks at what a study's files say of the stops of its feed."""
    stops = set(origins_of_feed(feed))
    named = study.at(study.run.origins) if study.run.origins else None
    for path in study.opportunities.files:
        check_counts(study.at(path), stops, "stop of the feed")
    origins = stops if named is None else set(origins_in(named))
    if named is not None:
        check_origins(named, stops)
    if study.opportunities.people:
        check_counts(study.at(study.opportunities.people), origins, "origin of the study")
    if study.results.maps or study.results.page:
        check_shown(study, origins, "map_origins")


def check_runs(study: Study, folder: str, days: Sequence[datetime.date]) -> None:
    """Ends where no trip of a feed that is ready runs on one of the days; what is wrong with the feed itself, `ttm`
    says.
    """
    if study.feed.allow_loss or not days:
        return
    with room(study.folder) as aside:
        feed = read_feed(folder, aside)
        for day in days if not check(feed) else ():
            refuse_day(study.at(study.feed.files[0]), feed, day, HINTS)


def feed_warnings(study: Study, folder: str) -> list[str]:
    """What `ttm-tools prepare --check` reports of a feed that is ready, but for its days."""
    with room(study.folder) as aside:
        return [f"warning: {sentence}" for sentence in likely.sentences(read_feed(folder, aside), with_days=False)]


def names_of(files: dict[str, list[str]]) -> set[str]:
    """The points of some files by their names in the feed, which may begin with that of their file."""
    return {name for path, own in files.items() for point in own for name in (point, f"{Path(path).stem}:{point}")}


def check_columns(study: Study, own: Sequence[str]) -> None:
    """Looks at the columns of opportunities and people that a study names."""
    settings = study.opportunities
    found = [*own, *(called(name, study.at(path)) for path in settings.files for name in columns_of(study.at(path)))]
    refuse_unknown(study, found)
    groups = columns_of(study.at(settings.people)) if settings.people else []
    for name in settings.groups:
        if name not in groups:
            message = (
                f"[opportunities] names a group {display_text(name)}; there are {', '.join(map(display_text, groups))}"
            )
            raise InputError(study.path, message)


def check_counts(path: str, known: Collection[str], kind: str) -> None:
    """Refuses a file of people or opportunities none of which are at a known place, or the first record that has no
    number.
    """
    every = [*known, *unknown_in(path, known)]
    numbers_of(path, columns_of(path), {name: place for place, name in enumerate(every)}, kind)


def check_origins(path: str, stops: Collection[str]) -> None:
    """Refuses the first origin that is no stop."""
    for number, (name,) in rows(path, ["stop_id"]):
        if name not in stops:
            raise InputError(path, f"{display_text(name)} is not a stop of the feed", record=number)


def check_shown(study: Study, origins: Collection[str], *keys: str) -> None:
    """Refuses a place of [results] that is shown and that is no origin of the study."""
    for key in keys:
        lost = next((place for place in getattr(study.results, key) if place not in origins), None)
        if lost is not None:
            raise InputError(study.path, f"{key} of [results]: {lost} is not an origin of the study")
