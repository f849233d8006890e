"""Computes what an exploration begins with if its options say so: walks along streets, and cells of a grid."""

import os
import shutil
from dataclasses import replace
from pathlib import Path

from ..core.errors import ArgumentError
from ..core.files import copy_file, writing_to
from ..core.folders import scratch
from ..core.text import quantity
from ..core.walking import Walking
from ..gtfs.stops import Stops, read_stops
from ..places import folder as points_folder, grid
from ..places.folder import PointsOptions
from ..streets.walks import NEAR, Walks, summary, walks_of
from .options import ExploreOptions
from .point import FEED, Point, WALKS, Walk, laid_out

CELLS = "cells"


def with_generated(options: ExploreOptions, room: Path) -> tuple[ExploreOptions, list[str]]:
    """The options with a feed and walks that are generated in a room, and sentences about them.

    The walks take at most as long as the longest walk of the command.
    """
    if options.grid is None and options.streets is None:
        return options, []
    if options.footpaths is not None:
        raise ArgumentError("--footpaths has walks, and --streets and --grid compute them: choose one")
    name = options.name or os.path.basename(os.path.abspath(options.feed))
    own = replace(options, most_walk=options.walk, name=name, generated=True)
    return with_walks(own, room) if options.grid is None else with_cells(own, room, options.grid)


def with_walks(options: ExploreOptions, room: Path) -> tuple[ExploreOptions, list[str]]:
    walks = walks_of(read_stops(options.feed), Walking(max_seconds=options.walk), options.streets)
    path = room / WALKS
    with open(path, "wb") as file:
        walks.write(file)
    return replace(options, footpaths=str(path)), [
        f"{quantity(len(walks.seconds), 'walk')}; {summary(walks, 'stops', NEAR)}"
    ]


def with_cells(options: ExploreOptions, room: Path, side: float) -> tuple[ExploreOptions, list[str]]:
    """A feed whose stops include the cells within a walk of a stop, and walks between all of them."""
    walking, folder = Walking(max_seconds=options.walk), room / CELLS
    cells = grid.filled(grid.grid_near(read_stops(options.feed), side, walking.max_straight_metres), []).points

    def walker(stops: Stops, first: int | None) -> Walks:
        return walks_of(stops, walking, options.streets, NEAR, first)

    point_options = PointsOptions(options.feed, str(folder), [cells], [True], [True], options.walk, False, NEAR)
    sentences = points_folder.make(point_options, walker)[:-1]
    count = f"{quantity(len(cells.identifiers), 'cell')} of {side:g} metres"
    feed, footpaths = folder / points_folder.FEED, folder / points_folder.FOOTPATHS
    return replace(options, feed=str(feed), footpaths=str(footpaths)), [count, *sentences]


def copy_generated(options: ExploreOptions, folder: Path) -> None:
    """Copies what was made into the folder of a study, which outlives the exploration."""
    if options.footpaths is not None:
        copy_file(options.footpaths, folder / WALKS)
    if options.grid is not None or options.copied:
        with writing_to(folder / FEED):
            shutil.copytree(options.feed, folder / FEED)


def with_copies(options: ExploreOptions, folder: Path) -> ExploreOptions:
    """The options with copies of the opportunities in a study's folder, where they don't outlive the exploration."""
    if not options.copied:
        return options
    copies = [folder / Path(path).name for path in options.opportunities]
    for path, copy in zip(options.opportunities, copies):
        copy_file(path, copy)
    return replace(options, opportunities=[str(copy) for copy in copies])


def copy_with_point(options: ExploreOptions, folder: Path, point: Point, walks: list[Walk]) -> str:
    """Copies the feed with a point as one more stop, and the walks with those from there; gives its identifier."""
    with scratch("point") as room:
        name, feed, footpaths = laid_out(room, options.feed, options.footpaths, point, walks)
        copy_file(footpaths, folder / WALKS)
        with writing_to(folder / FEED):
            shutil.copytree(feed, folder / FEED)
    return name
