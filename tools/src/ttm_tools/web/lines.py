"""The lines of a feed, read once, and what the scenarios of a plan change of them."""

from functools import cached_property
from typing import Any, Sequence

import numpy as np
import numpy.typing as npt

from ..core.arrays import Floats
from ..core.scenarios import BASE
from ..gtfs.projection import Projection
from ..gtfs.shapes import LinePoints, pieces, shape_points, unique_rows
from ..gtfs.stops import Stops, has_file
from ..plans.base import Base
from ..plans.new_records import OwnTrip
from ..plans.shapes import NAME as SHAPES, Shapes
from ..plans.state import State
from ..plans.writing import Written
from ..views.drawn_lines import LineChange, NONE, OnGrid, Pieces
from .page.lines import Lines, STRAIGHT, change_of, in_degrees, page_lines

Course = tuple[Floats, Floats]  # latitudes and longitudes of the points of a line, one after another
UNCHANGED = LineChange(NONE, NONE, NONE)


class FeedLines:
    def __init__(self, folder: str, stops: Stops) -> None:
        self.folder, self.stops = folder, stops
        self.projection = Projection(stops.latitudes, stops.longitudes)
        self.has_shapes = has_file(folder, SHAPES)

    @cached_property
    def whole(self) -> Lines:
        """All lines with which a page begins: those of shapes, as others need the trips (`from_stop_to_stop`)."""
        if not self.has_shapes:
            return Lines(NONE, [UNCHANGED], STRAIGHT)
        return page_lines(self.folder, self.stops, [BASE], {})

    def from_stop_to_stop(self, base: Base) -> Pieces | None:
        """The lines of trips from stop to stop; None where the feed has shapes."""
        if self.has_shapes:
            return None
        ends = zip(base.begins[:-1].tolist(), base.begins[1:].tolist())
        ways = {base.stop[begin:end].tobytes(): (begin, end) for begin, end in ends}
        found = self.along([course_of(base, base.stop[begin:end]) for begin, end in ways.values()])
        return in_degrees(found, self.projection)

    @cached_property
    def shapes(self) -> LinePoints | None:
        """The points of the feed's shapes; None where it has none, and lines go from stop to stop."""
        return shape_points(self.folder, self.projection) if self.has_shapes else None

    def changes(self, written: Written) -> list[LineChange]:
        """What today changes, which is nothing, and what each scenario of a plan does."""
        return [UNCHANGED, *(self.change(written, state) for state in written.states)]

    def change(self, written: Written, state: State) -> LineChange:
        base, trips = written.base, {id(trip) for trip in state.own.values()}
        gone = np.flatnonzero((base.lengths > 0) & ~state.kept).tolist()
        own = [own_trip for own_trip in written.own if id(own_trip.trip) in trips]
        if self.shapes is None:
            before = [course_of(base, base.stop[base.begins[trip] : base.begins[trip + 1]]) for trip in gone]
            found = [self.along(before), self.along([course_of(base, own_trip.trip.stop) for own_trip in own])]
        else:
            names = {shape_of(base, own_trip) for own_trip in own}
            found = [self.of_shapes({base.shapes[trip] for trip in gone}, None), self.of_shapes(names, written.shapes)]
        return change_of(found[0], found[1], self.projection)

    def of_shapes(self, names: set[str], shapes: Shapes | None) -> OnGrid:
        """The pieces of some of the feed's shapes, and of those that a plan makes."""
        assert self.shapes is not None
        shapes_drawn = [] if shapes is None else [np.array(shapes.new[name]) for name in names if name in shapes.new]
        own = self.along([(points[:, 0], points[:, 1]) for points in shapes_drawn])
        return unique_rows(np.concatenate([pieces(self.shapes.of_lines(names)), own]))

    def along(self, courses: Sequence[Course]) -> OnGrid:
        """The pieces of some lines; a point without a place is left out."""
        if not courses:
            return NONE
        latitudes, longitudes = (np.concatenate(some) for some in zip(*courses))
        line = np.repeat(np.arange(len(courses)), [len(one) for one, _ in courses])
        placed = ~np.isnan(latitudes)
        east, north = self.projection.kilometres(longitudes[placed], latitudes[placed])
        return pieces(LinePoints([], line[placed], np.arange(len(east), dtype=np.float64), east, north))


def course_of(base: Base, stops: npt.NDArray[Any]) -> Course:
    return base.places.latitudes[stops], base.places.longitudes[stops]


def shape_of(base: Base, own: OwnTrip) -> str:
    """The shape along which a trip runs as it is written; empty where it has none."""
    return own.shape if own.trip.redrawn or own.trip.source < 0 else base.shapes[own.trip.source]
