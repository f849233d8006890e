"""A picture as a figure of matplotlib: a map of stops over the lines on which vehicles run, a key, a scale, and what a
reader needs to know.
"""

import math
import textwrap
from dataclasses import replace
from typing import Any, Sequence

import numpy as np
import numpy.typing as npt
from matplotlib.backends.backend_agg import FigureCanvasAgg
from matplotlib.figure import Figure
from matplotlib.lines import Line2D
from matplotlib.patheffects import withStroke

from ..gtfs.projection import Projection
from ..gtfs.stops import Stops
from ..ground.contents import Ground
from .cells import Cells
from .classes import TOKENS, Mark
from .ground import ground_layer
from .map_content import NO_ORIGIN, Picture, round_step
from .map_lines import MapLines, MapPoints, draw_crosses, draw_lines, over_squares
from .texts import without_mathtext

MOST_NAMES = 3
MOST_ABOVE, MOST_BELOW = 100, 136  # letters of the two lines above a map
EDGE_OF_MARK = 0.75 * 0.75  # points
INCHES = 10  # the picture's width; below, those of the map, its greatest height, the head above it and the edge
MAP_WIDTH, MAP_HEIGHT, HEAD, EDGE = 6.7, 7.0, 0.85, 0.2
LEAST_HEIGHT = 5.2  # of the picture, so that the key has room
LEAST_SIDE = 0.5  # kilometres that a map shows
INK, SOFT = TOKENS["ink"], TOKENS["soft"]
STAR = {"marker": "*", "color": INK}
SHAPES = {
    "circle": "o",
    "dot": "o",
    "down": "v",
    "up": "^",
    "cross": "X",
    "plus": "P",
    "thin": "x",
    "diamond": "D",
    "square": "s",
}
LETTERS: dict[str, Any] = {
    "ha": "center",
    "fontsize": 9,
    "zorder": 6,
    "path_effects": [withStroke(linewidth=2.5, foreground="white")],
}


@without_mathtext
def draw(
    picture: Picture,
    stops: Stops,
    lines: Sequence[MapLines],
    note: str,
    width: int = 1350,
    ground: Ground | None = None,
) -> Figure:
    """The picture of these stops, which are those of the matrix, as a figure of this width in pixels."""
    projection = Projection(stops.latitudes, stops.longitudes)
    points, cells = points_of(stops, projection), Cells(stops, projection)
    corners = [path.vertices for path in cells.areas.values()]
    figure, axes = empty_map(limits_of(np.concatenate([points[stops.placed], *corners])), width)
    write_head(figure, picture)
    layer = ground_layer(ground, projection, axes, bool(cells.are_there.any()))
    if cells.are_there.any():
        lines = over_squares(lines)
    marked = np.where(cells.are_there[:, None], np.nan, points)
    for number, kind in enumerate(lines):
        draw_lines(axes, kind, 1 + number / 10)
        draw_crosses(axes, kind, marked, 1.05 + number / 10)
    draw_cells(axes, picture, points, cells)
    draw_stops(axes, picture, marked)
    taken = draw_names(axes, picture, stops, points)
    if layer is not None:
        layer.draw_names(marked, taken)
    draw_scale(axes)
    draw_key(figure, shaped(picture, cells), points, lines)
    write_notes(figure, picture, f"{note} In brackets: number of {picture.what}.".strip())
    return figure


def points_of(stops: Stops, projection: Projection) -> MapPoints:
    return np.stack(projection.kilometres(stops.longitudes, stops.latitudes), axis=1)


def write_head(figure: Figure, picture: Picture) -> None:
    """Writes the answer above a map, and below it what the map shows; a user's own title stands above the answer."""
    top, plain = figure.get_figheight(), {"va": "top", "parse_math": False}
    above: dict[str, Any] = {"y": 1 - 0.2 / top, "fontsize": 13, "fontweight": "bold", "color": INK}
    below: dict[str, Any] = {"y": 1 - 0.5 / top, "fontsize": 9.5, "color": SOFT}
    title, answer = (above, below) if picture.is_titled else (below, above)
    for text, how in ((picture.title, title), (picture.subtitle, answer)):
        most = MOST_ABOVE if how is above else MOST_BELOW
        figure.text(EDGE / INCHES, s=shortened(text, most), **how, **plain)


def write_notes(figure: Figure, picture: Picture, note: str) -> None:
    """Writes source and note below the key."""
    beside, low = figure.axes[0].get_position().x1 + EDGE / INCHES, EDGE / figure.get_figheight()
    notes = wrapped(" ".join(filter(None, [picture.source, note])), 44)
    figure.text(beside, low, notes, fontsize=8, color=SOFT, va="bottom", parse_math=False)


def limits_of(points: MapPoints) -> tuple[float, float, float, float]:
    """Where the map ends, in kilometres (left, right, bottom, top): no strip, and with room for the scale below."""
    (left, bottom), (right, top) = points.min(axis=0).tolist(), points.max(axis=0).tolist()
    side = max(right - left, top - bottom, LEAST_SIDE)
    wide, high = (max(1.08 * length, 0.5 * side) for length in (right - left, top - bottom))
    middle, centre = (right + left) / 2, (top + bottom) / 2
    return middle - wide / 2, middle + wide / 2, centre - high / 2 - 0.06 * side, centre + high / 2


def empty_map(span: tuple[float, float, float, float], width: int) -> tuple[Figure, Any]:
    """A figure as high as its map needs, and the map's axes: one kilometre is as long in both directions."""
    left, right, bottom, top = span
    inches = min(MAP_WIDTH / (right - left), MAP_HEIGHT / (top - bottom))
    wide, high = (right - left) * inches, (top - bottom) * inches
    height = max(LEAST_HEIGHT, high + HEAD + EDGE)
    figure = Figure(figsize=(INCHES, height), dpi=width / INCHES, facecolor="white")
    FigureCanvasAgg(figure)  # becomes figure.canvas
    room = [EDGE / INCHES, 1 - (HEAD + high) / height, wide / INCHES, high / height]
    axes = figure.add_axes(room, xlim=(left, right), ylim=(bottom, top), xticks=[], yticks=[])
    for spine in axes.spines.values():
        spine.set_color("#bbbbbb")
    return figure, axes


def shortened(text: str, most: int) -> str:
    return text if len(text) <= most else text[: most - 2].rstrip() + " .."


def wrapped(text: str, most: int) -> str:
    return "\n".join(textwrap.fill(line, most) for line in text.split("\n"))


def mark_size(count: int) -> float:
    """The area of an ordinary mark in square points, so that this many of them don't hide one another."""
    return min(60.0, max(5.0, 60000 / max(1, count)))


def order_of_drawing(marks: Sequence[Mark]) -> list[int]:
    """The classes from the lowest to the highest: small marks first, and what is cut off on top."""
    return sorted(range(len(marks)), key=lambda place: (marks[place].size, -place))


def drawn(picture: Picture, points: MapPoints) -> npt.NDArray[np.bool_]:
    """Which stops are drawn as marks of their class: those with a place, but for the origin."""
    is_drawn: npt.NDArray[np.bool_] = ~np.isnan(points[:, 0])
    if picture.origin is not None:
        is_drawn[picture.origin] = False
    return is_drawn


def shaped(picture: Picture, cells: Cells) -> Picture:
    """The picture as its key shows it: squares where no mark is drawn."""
    if not cells.are_there.all():
        return picture
    marks = [replace(mark, shape="square", size=1.0, colour=cell_colour(mark)) for mark in picture.marks]
    return replace(picture, marks=marks)


def cell_colour(mark: Mark) -> str:
    """The colour of a cell; where hardly anything changes there is none but that of the land."""
    return TOKENS["land"] if mark.colour == TOKENS["none"] else mark.colour


def draw_cells(axes: Any, picture: Picture, points: MapPoints, cells: Cells) -> None:
    """Cells in the colours of their classes, below the lines; where some lie over others, what changes is on top."""
    here = drawn(picture, points) & cells.are_there
    for above, place in enumerate(order_of_drawing(picture.marks)):
        chosen = np.flatnonzero(here & (picture.classes == place))
        cells.draw(axes, chosen, points, cell_colour(picture.marks[place]), 0.5 + above / 1000)


def draw_stops(axes: Any, picture: Picture, points: MapPoints) -> None:
    here = drawn(picture, points)
    faint = [place for place, mark in enumerate(picture.marks) if mark == NO_ORIGIN]
    size = mark_size(int((~np.isnan(points[:, 0]) & ~np.isin(picture.classes, faint)).sum()))
    for above, place in enumerate(order_of_drawing(picture.marks)):
        mark, chosen = picture.marks[place], points[here & (picture.classes == place)]
        if len(chosen):
            edge: dict[str, Any] = {"linewidths": EDGE_OF_MARK * min(1, size / 40), "edgecolors": mark.edge}
            edge = {"linewidths": 1.0} if mark.shape == "thin" else edge
            shape = {"s": size * mark.size**2, "marker": SHAPES[mark.shape], "zorder": 3 + above / 100}
            axes.scatter(chosen[:, 0], chosen[:, 1], c=mark.colour, **shape, **edge)


def draw_names(axes: Any, picture: Picture, stops: Stops, points: MapPoints) -> list[Any]:
    """A star and a name at the origin, and names at the stops that lose most, unless they would overlap; returns their
    boxes.
    """
    wished = [*([picture.origin] if picture.origin is not None else []), *picture.named]
    if picture.origin is not None and not math.isnan(points[picture.origin, 0]):
        axes.scatter(*points[picture.origin], s=260, edgecolors="white", linewidths=0.9, zorder=5, **STAR)
    taken: list[Any] = []
    for stop in [stop for stop in wished if not math.isnan(points[stop, 0])]:
        across = axes.transAxes.inverted().transform(axes.transData.transform(points[stop]))[0]
        how = {**LETTERS, "ha": "left" if across < 0.12 else "right" if across > 0.88 else "center"}
        label = shortened(stops.names[stop], 32)
        plain = {"xytext": (0, 9), "textcoords": "offset points", "parse_math": False, "fontweight": "bold"}
        name = axes.annotate(label, points[stop], **plain, **how)
        box = name.get_window_extent(axes.figure.canvas.get_renderer())
        if len(taken) == MOST_NAMES or any(box.overlaps(other) for other in taken):
            name.remove()
        else:
            taken.append(box)
    return taken


def draw_scale(axes: Any) -> None:
    """A bar of a round length in kilometres, and where north is."""
    (left, right), (bottom, top) = axes.get_xlim(), axes.get_ylim()
    height = axes.get_position().height * axes.figure.get_figheight()
    point = (top - bottom) / (height * 72)  # kilometres of a 72nd of an inch
    metres = round_step((right - left) * 1000, 5)
    length, x, y = metres / 1000, left + 15 * point, bottom + 17 * point
    ends = ([x, x, x + length, x + length], [y + 4 * point, y, y, y + 4 * point])
    axes.plot(*ends, color=INK, linewidth=1.6, zorder=6)
    label = f"{metres // 1000} km" if metres >= 1000 else f"{metres} m"
    axes.text(x + length / 2, y + 6 * point, label, va="bottom", **LETTERS)
    arrow = {"arrowstyle": "-|>", "color": INK}
    place = (x + length + 30 * point, y + 22 * point)
    axes.annotate("N", place, (0, -24), textcoords="offset points", arrowprops=arrow, **LETTERS)


def draw_key(figure: Figure, picture: Picture, points: MapPoints, lines: Sequence[MapLines]) -> None:
    """The classes with how many stops each has; one without stops is left out."""
    counts = np.bincount(picture.classes[drawn(picture, points)], minlength=len(picture.marks)).tolist()
    handles = [handle(mark, f"{mark.label}  ({count:,})") for mark, count in zip(picture.marks, counts) if count]
    write_key(figure, picture.key, handles, lines, picture.origin is not None)


def write_key(figure: Figure, title: str, classes: list[Any], lines: Sequence[MapLines], has_star: bool) -> None:
    """Writes a key below a title: of classes, of the origin's star, and of lines."""
    star = Line2D([], [], label="origin", linestyle="none", markersize=15, markeredgecolor="white", **STAR)
    handles = [*classes, *[star] * has_star]
    for kind in lines:
        how: dict[str, Any] = {"color": kind.colour, "linewidth": max(1.2, kind.width), "linestyle": kind.style}
        cross: dict[str, Any] = {"marker": "x", "markersize": kind.cross} if kind.cross else {}
        handles.append(Line2D([], [], label=kind.label, **how, **cross))
    map_place = figure.axes[0].get_position()
    corner = (map_place.x1 + EDGE / INCHES, map_place.y1)
    place = {"loc": "upper left", "bbox_to_anchor": corner, "borderaxespad": 0, "alignment": "left"}
    texts = {"frameon": False, "fontsize": 9.5, "title_fontsize": 10.5, "labelspacing": 0.75}
    key = figure.legend(handles=handles, title=wrapped(title, 32), **texts, **place)
    key.get_title().set_fontweight("bold")


def handle(mark: Mark, label: str) -> Line2D:
    """What the key shows of a class."""
    edge = {"markeredgecolor": mark.edge, "markeredgewidth": 1.2 if mark.shape == "thin" else EDGE_OF_MARK}
    how = {"marker": SHAPES[mark.shape], "linestyle": "none", "markerfacecolor": mark.colour}
    return Line2D([], [], label=label, markersize=9 * max(mark.size, 0.55), **how, **edge)
