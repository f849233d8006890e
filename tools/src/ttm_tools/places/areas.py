"""Areas of points: polygons, which a folder of points keeps as GeoJSON, for maps, pages and other files."""

import json
from pathlib import Path
from typing import Any, BinaryIO, Mapping

import numpy as np

from ..core.arrays import Floats
from ..core.errors import InputError
from ..core.reading import as_one_line, read_json
from ..core.text import display_text
from ..gtfs.projection import Projection
from ..gtfs.stops import Area, Stops

AREAS_FILE = "areas.geojson"  # next to a feed's points
DECIMALS = 7  # of degrees, about a hundredth of a metre
KINDS = ("Polygon", "MultiPolygon")
AROUND = np.array([[-1, -1], [1, -1], [1, 1], [-1, 1], [-1, -1]])  # the corners of a square, against the clock


def area_of(shape: Any) -> Area:
    """A polygon of shapely, or several, with outer rings against the clock and holes with it, as RFC 7946 has them."""
    from shapely.geometry.polygon import orient

    parts = [orient(part) for part in getattr(shape, "geoms", [shape]) if not part.is_empty]
    return [[ring_of(ring.coords) for ring in (part.exterior, *part.interiors)] for part in parts]


def ring_of(corners: Any) -> Floats:
    """A ring as rows of longitude and latitude."""
    whole: Floats = np.array([corner[:2] for corner in corners], dtype=np.float64)
    return whole.round(DECIMALS)


def squares_of(stops: Stops) -> dict[str, Area]:
    """The squares, or oblongs, of those that say how wide they are, in degrees."""
    halves = stops.sides() / 2000
    cells = np.flatnonzero(stops.placed & ~np.isnan(halves[:, 0]))
    if not len(cells):
        return {}
    projection = Projection(stops.latitudes[cells], stops.longitudes[cells])
    east, north = projection.kilometres(stops.longitudes[cells], stops.latitudes[cells])
    corners = east[:, None] + halves[cells, :1] * AROUND[:, 0], north[:, None] + halves[cells, 1:] * AROUND[:, 1]
    rings = np.stack(projection.degrees(*corners), axis=2).round(DECIMALS)
    return {stops.identifiers[place]: [[ring]] for place, ring in zip(cells.tolist(), rings)}


def geometry_of(area: Area) -> dict[str, Any]:
    """An area as GeoJSON has it."""
    whole = [[ring.tolist() for ring in polygon] for polygon in area]
    return {"type": KINDS[len(whole) > 1], "coordinates": whole if len(whole) > 1 else whole[0]}


def write_areas(out: BinaryIO, areas: Mapping[str, Area]) -> None:
    """A collection of features, one a line, each with its point's identifier."""
    out.write(b'{"type": "FeatureCollection", "features": [')
    for number, (identifier, area) in enumerate(areas.items()):
        feature = {"type": "Feature", "geometry": geometry_of(area), "properties": {"id": identifier}}
        out.write((",\n" if number else "\n").encode() + json.dumps(feature).encode("ascii"))
    out.write(b"\n]}\n")


def areas_beside(points: str) -> dict[str, Area]:
    """The areas in the folder of a file of points; none if there are none."""
    path = Path(points).with_name(AREAS_FILE)
    if not path.is_file():
        return {}
    found, areas = read_json(path, "GeoJSON"), dict[str, Area]()
    with as_one_line(path, "is not a file of areas from ttm-tools points"):
        for feature in found["features"]:
            geometry = feature["geometry"]
            parts = geometry["coordinates"] if geometry["type"] == KINDS[1] else [geometry["coordinates"]]
            areas[str(feature["properties"]["id"])] = [[ring_of(ring) for ring in polygon] for polygon in parts]
    for identifier, area in areas.items():
        if not all(is_ring(ring) for polygon in area for ring in polygon):
            raise InputError(path, f"the area of {display_text(identifier)} has an invalid ring")
    return areas


def is_ring(ring: Floats) -> bool:
    """Whether a ring has corners on the earth, and enough of them."""
    return ring.ndim == 2 and len(ring) > 3 and bool((np.abs(ring) <= [180, 90]).all())
