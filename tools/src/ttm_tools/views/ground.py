"""The ground below a map of matplotlib: what areas are drawn on, what lies above them, and names."""

from dataclasses import dataclass, field
from typing import Any, Iterator, Sequence

import numpy as np
from matplotlib.collections import LineCollection, PathCollection
from matplotlib.patheffects import withStroke
from matplotlib.path import Path
from matplotlib.transforms import Bbox

from ..core.arrays import Floats
from ..gtfs.projection import Projection
from ..ground.contents import UNIT, Ground, Shapes
from .classes import TABLE, TOKENS

STYLES: dict[str, Any] = TABLE["ground"]
POINTS = 0.75  # of a pixel, in which `classes` has widths
THROUGH = {"colors": TOKENS["ink"], "alpha": 0.13}  # minor streets that show through areas
UNDER, EDGES, OVER, NAMED = 0.1, 0.7, 0.8, 2.9  # orders of drawing; areas have 0.5, lines 1 and marks 3
RINGS, WAYS = (0, 14, 26, 40), ((0, 1), (0, -1), (1, 0), (-1, 0), (0.7, 0.7), (-0.7, 0.7), (0.7, -0.7), (-0.7, -0.7))
MOST_COVERED = 1  # stops that a name may cover
ROOM = 3  # pixels around a stop


@dataclass
class GroundLayer:
    """The ground of one map, which it draws on its axes."""

    ground: Ground
    projection: Projection
    axes: Any
    rows: dict[str, list[Floats]] = field(default_factory=dict)  # of shapes, in kilometres

    @property
    def pixel(self) -> float:
        """The metres of a pixel, of which an inch has 96."""
        left, right = self.axes.get_xlim()
        wide = self.axes.get_position().width * self.axes.figure.get_figwidth()
        return float(1000 * (right - left) / (wide * 96))

    def draw(self, has_areas: bool) -> None:
        """Draws all but the names; areas, if the map has some, lie between the two parts."""
        self.axes.set_facecolor(TOKENS["land"])
        self.draw_kinds(STYLES["under"], UNDER)
        if has_areas:
            street = STYLES["kinds"]["street3"]
            if self.pixel <= street["until"]:
                self.draw_lines("street3", street["width"], THROUGH, EDGES - 0.02)
            self.draw_kinds(STYLES["edges"], EDGES)
        self.draw_kinds(STYLES["over"], OVER)

    def draw_kinds(self, kinds: Sequence[str], order: float) -> None:
        for place, kind in enumerate(kinds):
            how = STYLES["kinds"][kind]
            if len(self.ground.shapes[kind]) and self.pixel <= how["until"]:
                self.draw_kind(kind, how, order + place / 100)

    def draw_kind(self, kind: str, how: dict[str, Any], order: float) -> None:
        if "fill" in how:
            path = path_of(self.rows_of(kind))
            fill = {"facecolors": TOKENS[how["fill"]], "edgecolors": "none", "zorder": order}
            self.axes.add_collection(PathCollection([path], **fill))
        elif self.pixel > how.get("thin", np.inf):
            self.draw_lines(kind, how["hair"], {"colors": TOKENS[how["edge"]]}, order)
        else:
            for above, (width, colour) in enumerate((("casing", "edge"), ("width", "colour"), ("core", "inner"))):
                if width in how:
                    dash = {"linestyles": [(0, (6, 6))]} if width == "core" else {}
                    self.draw_lines(kind, how[width], {"colors": TOKENS[how[colour]], **dash}, order + above / 1000)

    def draw_lines(self, kind: str, width: float, how: dict[str, Any], order: float) -> None:
        factor = min(1.8, max(0.5, (STYLES["metres"] / self.pixel) ** 0.5))
        cap = {} if "linestyles" in how else {"capstyle": "round"}
        style = {**how, **cap, "linewidths": width * POINTS * factor, "zorder": order}
        self.axes.add_collection(LineCollection(self.rows_of(kind), **style))

    def rows_of(self, kind: str) -> list[Floats]:
        if kind not in self.rows:
            self.rows[kind] = in_kilometres(self.ground.shapes[kind], self.projection)
        return self.rows[kind]

    def draw_names(self, points: Floats, taken: list[Any]) -> None:
        """Draws names, each at the freest spot near its place; `points` are stops, and `taken` boxes of other names."""
        renderer = self.axes.figure.canvas.get_renderer()
        fine = self.axes.figure.dpi / 96
        stops = self.axes.transData.transform(points[~np.isnan(points[:, 0])])
        frame = self.axes.get_window_extent()
        for how, text, at in self.ranked():
            spot = self.axes.transData.transform(at)
            label = self.axes.annotate(text, at, (0, 0), textcoords="offset pixels", **letters(how))
            size = label.get_window_extent(renderer)
            inside = frame.contains(*spot)
            found = (
                freest(spot, (size.width, size.height), fine, bool(how.get("dot")), taken, stops) if inside else None
            )
            if found is None or not (frame.contains(found.x0, found.y0) and frame.contains(found.x1, found.y1)):
                label.remove()
                continue
            label.set_position(((found.x0 + found.x1) / 2 - spot[0], (found.y0 + found.y1) / 2 - spot[1]))
            taken.append(found)
            if how.get("dot"):
                dot = {"s": 16, "facecolors": "white", "edgecolors": TOKENS["place"], "linewidths": 1}
                self.axes.scatter(*at, zorder=NAMED, **dot)

    def ranked(self) -> Iterator[tuple[dict[str, Any], str, Floats]]:
        """The names that this scale shows, the foremost first, with their style and place in kilometres."""
        for how in STYLES["names"]:
            names = [name for name in self.ground.names if name.kind == how["kind"] and self.pixel <= how["until"]]
            longitudes, latitudes = [name.longitude for name in names], [name.latitude for name in names]
            places: Floats = np.stack(self.projection.kilometres(longitudes, latitudes), axis=1)
            for number, name in enumerate(names):
                yield how, name.text, places[number]


def letters(how: dict[str, Any]) -> dict[str, Any]:
    halo = [withStroke(linewidth=2.5, foreground=TOKENS["land"])]
    font = {"fontsize": how["size"] * POINTS, "fontweight": how["weight"], "fontstyle": how.get("style", "normal")}
    place = {"ha": "center", "va": "center", "zorder": NAMED, "path_effects": halo, "parse_math": False}
    return {**font, **place, "color": TOKENS[how["colour"]]}


def freest(
    spot: Floats, size: tuple[float, float], fine: float, aside: bool, taken: Sequence[Any], stops: Floats
) -> Any | None:
    """Returns the box of a label near a spot that meets no other label and the fewest stops; None if there is none."""
    best, least = None, MOST_COVERED + 1
    for ring in RINGS[aside:]:
        for across, up in WAYS if ring else [(0.0, 0.0)]:
            x, y = spot[0] + across * (ring * fine + size[0] / 2 - 6), spot[1] + up * ring * fine
            box = Bbox.from_bounds(x - size[0] / 2, y - size[1] / 2, *size)
            if any(box.overlaps(other) for other in taken):
                continue
            low, high = np.array(box.min) - ROOM * fine, np.array(box.max) + ROOM * fine
            covered = int(np.all((stops > low) & (stops < high), axis=1).sum())
            if covered < least:
                best, least = box, covered
            if not least:
                return best
    return best


def in_kilometres(shapes: Shapes, projection: Projection) -> list[Floats]:
    """The points of shapes, east and north of the middle of a map."""
    degrees = shapes.points / UNIT
    points = np.stack(projection.kilometres(degrees[:, 1], degrees[:, 0]), axis=1)
    return np.split(points, np.cumsum(shapes.counts)[:-1])


def path_of(rows: Sequence[Floats]) -> Path:
    """Rings as one path: those of holes turn the other way, so they stay empty."""
    codes = [[Path.MOVETO, *[Path.LINETO] * (len(row) - 2), Path.CLOSEPOLY] for row in rows]
    return Path(np.concatenate(rows), np.concatenate(codes).astype(Path.code_type))


def ground_layer(ground: Ground | None, projection: Projection, axes: Any, has_areas: bool) -> GroundLayer | None:
    """Draws a ground on axes, and returns what draws its names once all marks are known; None without a ground."""
    if ground is None:
        return None
    layer = GroundLayer(ground, projection, axes)
    layer.draw(has_areas)
    return layer
