"""The lines of a map: where vehicles run, and what a scenario removes, changes and adds, each in a form of its own."""

from dataclasses import dataclass, replace
from typing import Any, Sequence

import numpy as np
import numpy.typing as npt
from matplotlib.collections import LineCollection

from ..gtfs.shapes import GRID
from .classes import TABLE, TOKENS

MANY_LINES = 2000  # pieces, from which on lines are drawn thinner
POINTS = 0.75  # of a pixel, in which `classes` has widths
OVER_SQUARES = TOKENS["hollow-edge"]  # the colour of lines on which vehicles run
CROSS_EVERY, CROSS_FROM_STOP = 34.0, 12.0  # pixels: between crosses of a removed line, and from a stop to a cross
Pieces = npt.NDArray[np.int32]
MapPoints = npt.NDArray[np.float64]  # kilometres east and north, NaN where a stop has no place


@dataclass(frozen=True)
class MapLines:
    """Pieces of lines, and how they are drawn and named. Widths are in points."""

    pieces: Pieces
    label: str
    colour: str
    width: float
    style: str | tuple[int, tuple[float, ...]] = "solid"
    casing: float = 0.0  # width of the white line below
    cross: float = 0.0  # width of the crosses on it; 0 for none


def styled(kind: str, pieces: Pieces) -> MapLines:
    """Lines of a kind that `classes` has: `running`, `taken`, `changed` or `added`."""
    how = TABLE["lines"][kind]
    width = how["width"] * POINTS
    dashes = tuple(length * POINTS / width for length in how["dash"])  # matplotlib counts in widths of the line
    casing, cross = how["casing"] * POINTS, how.get("crosses", 0) * POINTS
    return MapLines(pieces, how["label"], how["colour"], width, (0, dashes) if dashes else "solid", casing, cross)


def running(pieces: Pieces) -> MapLines:
    """The lines on which vehicles run; a city's are thin and faint."""
    lines = styled("running", pieces)
    return lines if len(pieces) < MANY_LINES else replace(lines, colour=TOKENS["route-faint"], width=lines.width / 2)


def over_squares(lines: Sequence[MapLines]) -> list[MapLines]:
    """Lines in their colours over what is filled."""
    faint = {TOKENS["route"], TOKENS["route-faint"]}
    return [replace(kind, colour=OVER_SQUARES) if kind.colour in faint else kind for kind in lines]


def draw_lines(axes: Any, lines: MapLines, order: float) -> None:
    ends = lines.pieces.reshape(-1, 2, 2) * GRID
    if lines.casing:
        casing: dict[str, Any] = {"colors": "white", "linewidths": lines.casing, "capstyle": "round"}
        axes.add_collection(LineCollection(ends, zorder=order - 0.02, **casing))
    cap = {"capstyle": "round"} if lines.style == "solid" else {}
    how: dict[str, Any] = {"colors": lines.colour, "linewidths": lines.width, "linestyles": [lines.style], **cap}
    axes.add_collection(LineCollection(ends, zorder=order, **how))


def draw_crosses(axes: Any, lines: MapLines, points: MapPoints, order: float) -> None:
    """Small crosses along removed lines: in the middle of pieces, away from stops and from one another."""
    if not lines.cross or not len(lines.pieces):
        return
    (left, right), wide = axes.get_xlim(), axes.get_window_extent().width / axes.figure.dpi
    pixel = (right - left) / (wide * 96)  # kilometres
    middles = lines.pieces.reshape(-1, 2, 2).mean(axis=1) * GRID
    stops = points[~np.isnan(points[:, 0])]
    chosen = list[npt.NDArray[np.float64]]()
    for middle in middles:
        near = [(stops, CROSS_FROM_STOP), (np.array(chosen).reshape(-1, 2), CROSS_EVERY)]
        if all(np.hypot(*(some - middle).T).min(initial=np.inf) >= far * pixel for some, far in near):
            chosen.append(middle)
    if chosen:
        how: dict[str, Any] = {"marker": "x", "s": lines.cross**2, "color": lines.colour, "linewidths": 1.5}
        axes.scatter(*np.array(chosen).T, zorder=order, **how)
