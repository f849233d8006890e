"""A map of isochrones: the areas that are reached within bands of minutes, over the lines on which vehicles run."""

from dataclasses import dataclass
from typing import Any, Sequence

import numpy as np
from matplotlib.collections import PathCollection
from matplotlib.figure import Figure
from matplotlib.patches import Patch
from matplotlib.path import Path

from ..core.text import rounded
from ..ground.contents import Ground
from . import drawing
from .cells import path_along
from .classes import from_near
from .ground import ground_layer
from .isochrones import StopGeometry, polygons_in
from .map_content import Picture
from .map_lines import MapLines, draw_lines, over_squares
from .texts import without_mathtext


@dataclass(frozen=True)
class Bands:
    """Minutes and the shape in kilometres that is reached within them, ascending; and the ground below, if any."""

    shapes: Sequence[tuple[float, Any]]
    ground: Ground | None = None


def path_of(shape: Any) -> Path | None:
    """A shape as a path, whose holes stay empty; nothing for none."""
    parts = polygons_in(shape)
    rings = [np.asarray(ring.coords) for part in parts for ring in (part.exterior, *part.interiors)]
    return path_along(rings) if rings else None


@without_mathtext
def draw_bands(
    picture: Picture,
    ground: StopGeometry,
    lines: Sequence[MapLines],
    note: str,
    width: int,
    bands: Bands,
) -> Figure:
    """The map of bands, the widest, which is the last, below the others."""
    points = np.stack([ground.east, ground.north], axis=1)
    paths = [path_of(shape) for _, shape in bands.shapes]
    corners = [path.vertices for path in paths if path is not None]
    figure, axes = drawing.empty_map(drawing.limits_of(np.concatenate([points[ground.placed], *corners])), width)
    drawing.write_head(figure, picture)
    layer = ground_layer(bands.ground, ground.projection, axes, True)
    colours = from_near(len(bands.shapes))
    for above, (path, colour) in enumerate(reversed(list(zip(paths, colours)))):
        if path is not None:
            axes.add_collection(PathCollection([path], facecolors=colour, edgecolors="none", zorder=0.5 + above / 1000))
    for number, kind in enumerate(over_squares(lines)):
        draw_lines(axes, kind, 1 + number / 10)
    taken = drawing.draw_names(axes, picture, ground.stops, points)
    if layer is not None:
        layer.draw_names(np.zeros((0, 2)), taken)
    drawing.draw_scale(axes)
    labels = [f"up to {minutes:g} minutes: {rounded(shape.area, 1)} km²" for minutes, shape in bands.shapes]
    key = [Patch(facecolor=colour, label=label) for label, colour in zip(labels, colours)]
    drawing.write_key(figure, picture.key, key, lines, True)
    drawing.write_notes(figure, picture, note)
    return figure
