"""Stages before the run: walks between stops, points as stops with walks to and from them, and cells as points."""

from dataclasses import replace
from typing import Protocol

from ..core.tables import write_rows
from ..core.text import quantity, short_number
from ..gtfs.stops import read_stops
from ..places import grid as grids, folder as points
from ..places.read import read_points
from ..plans.nearness import sentences_on_nearer
from ..streets.walks import footpaths_of, walks_of
from .settings import Study
from .sources import Sources
from .stages import Stage

POINTS, FOOTPATHS, GRID = "inputs/points", "inputs/footpaths.csv", "inputs/grid.csv"
OUTSIDE, OUTSIDE_COLUMNS = "inputs/outside.csv", ("column", "outside")  # sums of what is in no cell


class FeedInputs(Protocol):
    """The feed of a study after the stages that have run."""

    study: Study
    feed: str  # its folder, relative to the study's

    def at(self, name: str) -> str:
        """The path of a file in the study's folder."""

    @property
    def feed_sums(self) -> dict[str, str]:
        """Checksums of the feed's files, by their paths in the study's folder."""

    @property
    def stops_sum(self) -> str | None:
        """The checksum of stops.txt."""


def walks_stage(maker: FeedInputs) -> Stage:
    """Walks between the stops."""
    study, settings, feed = maker.study, maker.study.walks, maker.at(maker.feed)
    path = maker.at(FOOTPATHS)

    def make() -> list[str]:
        table, streets = (study.at(named) if named else None for named in (settings.table, settings.streets))
        found, sentence = footpaths_of(read_stops(feed), table, study.walking, streets, settings.near)
        with open(path, "wb") as file:
            found.write(file)
        nearer = sentences_on_nearer(feed, path, study.run.walk)
        return [f"{FOOTPATHS}: {sentence}", *sentences_on_limits(study), *nearer]

    depends = {"stops": maker.stops_sum, "walk": study.run.walk, "walking": study.walk_facts}
    return Sources(study.at, [settings.streets, settings.table]).stage("walks", depends, [FOOTPATHS], make)


def sentences_on_limits(study: Study) -> list[str]:
    """What is reported where single walks end earlier than the walks that `ttm` puts together of them."""
    limit, run = study.walk_limit, study.run.walk
    limits = f"a single walk takes {limit:,} seconds at most ([walks] limit), several in a row {run:,} ([run] walk)"
    return [limits] if limit < run else []


def points_stage(maker: FeedInputs) -> Stage:
    """The feed with points as stops, and the walks to and from them."""
    study, settings, feed, out = maker.study, maker.study.points, maker.at(maker.feed), maker.at(POINTS)
    walks, near = study.walks, study.walks.near
    begins = [path in (*settings.files, *settings.origins) for path in settings.all]
    ends = [path in (*settings.files, *settings.destinations) for path in settings.all]
    paths = [study.at(path) for path in settings.all]

    def make() -> list[str]:
        files, limit = [read_points(path) for path in paths], study.walk_limit
        streets = study.at(walks.streets) if walks.streets else None
        options = points.PointsOptions(feed, out, files, begins, ends, limit, settings.leave_out, near, POINTS)
        sentences = points.make(options, lambda stops, first: walks_of(stops, study.walking, streets, near, first))
        sentences += sentences_on_limits(study)
        return [*sentences, *sentences_on_nearer(f"{out}/{points.FEED}", f"{out}/footpaths.csv", study.run.walk)]

    facts = {"begins": begins, "ends": ends, "leave_out": settings.leave_out}
    depends = {"feed": maker.feed_sums, "walk": study.run.walk, "walking": study.walk_facts, **facts}
    return Sources(study.at, [*settings.all, study.walks.streets]).stage("points", depends, [POINTS], make)


def with_grid(study: Study) -> Study:
    """The same study, whose cells are points of a file that it makes: at both ends of journeys, or at the end that no
    file names. Groups of people are columns of the cells where no file of people is named.
    """
    settings, opportunities = study.points, study.opportunities
    if settings.grid is None:
        return study
    place = "destinations" if settings.origins else "origins" if settings.destinations else "files"
    settings = replace(settings, **{place: (*getattr(settings, place), GRID)})
    if opportunities.groups and opportunities.people is None:
        opportunities = replace(opportunities, people=GRID)
    return replace(study, points=settings, opportunities=opportunities, generated=(*study.generated, GRID))


def grid_stage(study: Study, feed: str, stops_sum: str | None) -> Stage:
    """The cells with the numbers of people, jobs and the like in them."""
    settings = study.points
    width = settings.grid or 0.0
    metres = study.walking.max_straight_metres

    def make() -> list[str]:
        area = study.at(settings.grid_area) if settings.grid_area else None
        cells = grids.grid_over(area, width) if area else grids.grid_near(read_stops(feed), width, metres)
        filled = grids.filled(cells, [study.at(path) for path in settings.grid_people])
        found = filled.points
        with open(study.folder / GRID, "wb") as file:
            write_rows(file, ["id", "name", "lat", "lon", "width", *found.columns], points.point_lines(found))
        with open(study.folder / OUTSIDE, "wb") as file:
            write_rows(file, OUTSIDE_COLUMNS, ([name, short_number(number)] for name, number in filled.outside.items()))
        return [f"{GRID}: {quantity(len(found.identifiers), 'cell')} of {width:g} metres", *filled.sentences]

    has_area = settings.grid_area is not None
    facts = {"stops": stops_sum, "width": width, "metres": metres, "area": has_area}
    return Sources(study.at, [settings.grid_area, *settings.grid_people]).stage("grid", facts, [GRID, OUTSIDE], make)
