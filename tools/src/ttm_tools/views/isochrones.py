"""Isochrones: the area that is reached from an origin within given minutes, dissolved into one shape for each band.

A point with a shape of its own, a square or the polygon of its file, counts whole where it is reached in time. From any
other point, such as a stop, one walks on for the time that is left, up to the longest walk: in a circle, or along
streets where they are known.
"""

import itertools
from dataclasses import dataclass, replace
from pathlib import Path
from typing import Any, BinaryIO, Iterator, Mapping, Sequence

import numpy as np

from ..core.arrays import Floats
from ..core.errors import InputError
from ..core.progress import reported
from ..core.text import display_text
from ..core.walking import Walking
from ..gtfs.projection import Projection
from ..gtfs.stops import Stops
from ..matrices import Matrix, Share
from ..measures.opportunities import Counts
from ..places.features import AREAS, POLYGONS, read_frame, text_of, valid
from ..places.walked_squares import WalkedSquares
from ..streets.osm import read_streets
from ..streets.walks import points_of
from .gis import whole, write_features, write_layer

LAYER = "isochrones"
QUARTER = 12  # corners of a quarter of a circle
DECIMALS = 6  # of degrees, some tenths of a metre
SLIVER = 0.0005  # kilometres: half the width of a gap that counts as none, above what rounding to DECIMALS moves
MITRE = 2  # shapely's number for the style of corners that keeps them square


@dataclass(frozen=True)
class Isochrone:
    """What is reached within a band."""

    scenario: str
    share: Share
    minutes: float
    shape: Any  # of shapely, in degrees
    area: float  # square kilometres
    reached: int  # stops or points
    counts: dict[str, float]  # what is there, by the columns of the file of people


@dataclass(frozen=True)
class StopGeometry:
    """Where the stops or points of a matrix lie, and which of them have a shape of their own; all in kilometres."""

    stops: Stops
    projection: Projection
    east: Floats
    north: Floats
    shapes: list[Any]  # polygons; None where there is none
    placed: Any  # whether it has a place
    squares: WalkedSquares | None = None  # along streets, from those that have a place and no shape, in their order

    def around(self, identifier: str) -> "StopGeometry":
        """The same ground, projected around a stop, near which lengths are true; unchanged if it has no place."""
        place = self.stops.places.get(identifier)
        has_shapes = self.squares is not None or any(shape is not None for shape in self.shapes)
        if place is None or not self.placed[place] or has_shapes:
            return self  # shapes have their areas in any equal-area projection, and squares that touch stay so
        chosen = slice(place, place + 1)
        projection = Projection(self.stops.latitudes[chosen], self.stops.longitudes[chosen])
        east, north = projection.kilometres(self.stops.longitudes, self.stops.latitudes)
        return replace(self, projection=projection, east=east, north=north)

    def shapes_within(self, seconds: Floats, limits: Sequence[float], walking: Walking) -> Iterator[Any]:
        """What is reached within each of some limits in seconds, which ascend."""
        from shapely.ops import unary_union

        for limit in limits:
            near = np.flatnonzero(self.placed & (seconds <= limit))
            parts = [self.shapes[place] for place in near.tolist() if self.shapes[place] is not None]
            yield unary_union([*parts, *self.walked(limit - seconds, walking)])

    def walked(self, left: Floats, walking: Walking) -> Iterator[Any]:
        """What one reaches on foot in the seconds that are left, from where there is no shape."""
        from shapely.geometry import Point

        bare = np.flatnonzero(self.placed & np.array([shape is None for shape in self.shapes], dtype=np.bool_))
        if self.squares is not None:
            metres = np.where(left[bare] >= 0, np.minimum(left[bare], walking.max_seconds) * walking.speed, -1.0)
            yield self.squares.area(metres)
            return
        # as the crow flies, in kilometres
        radii = np.minimum(left[bare], walking.max_seconds) * walking.speed / walking.detour / 1000
        for place, radius in zip(bare.tolist(), radii.tolist()):
            if radius > 0:
                yield Point(self.east[place], self.north[place]).buffer(radius, QUARTER)

    def in_degrees(self, shape: Any) -> Any:
        """A shape in degrees, its outer rings against the clock, as GeoJSON asks."""
        from shapely.geometry import MultiPolygon
        from shapely.ops import transform
        from shapely.validation import make_valid

        def degrees(east: Any, north: Any) -> tuple[Any, Any]:
            longitudes, latitudes = self.projection.degrees(east, north)
            return np.round(longitudes, DECIMALS), np.round(latitudes, DECIMALS)

        area = shape if shape.is_empty else transform(degrees, shape)
        if not area.is_valid:
            # Squares around rounded middles leave slivers between them, for which `make_valid` would drop squares.
            area = make_valid(transform(degrees, without_slivers(shape)))
        return MultiPolygon(polygons_in(area))


def without_slivers(shape: Any) -> Any:
    """Return the shape with gaps of up to twice `SLIVER` closed."""
    return shape.buffer(SLIVER, join_style=MITRE).buffer(-SLIVER, join_style=MITRE)


def polygons_in(shape: Any) -> list[Any]:
    """The polygons of a shape, also those of collections in it, their outer rings against the clock."""
    from shapely.geometry.polygon import orient

    if hasattr(shape, "geoms"):
        return [polygon for part in shape.geoms for polygon in polygons_in(part)]
    return [orient(shape)] if shape.geom_type == "Polygon" and not shape.is_empty else []


def ground_of(stops: Stops, polygons: Mapping[str, Any]) -> StopGeometry:
    """Where these stops lie: each with its polygon, else its square, else none."""
    from shapely.geometry import box
    from shapely.ops import transform

    if not stops.placed.any():
        raise InputError(stops.path, "no stop has stop_lat and stop_lon, so there is nothing to draw")
    halves = stops.sides() / 2000
    is_square = stops.placed & ~np.isnan(halves[:, 0])
    centre = is_square if is_square.any() else stops.placed
    projection = Projection(stops.latitudes[centre], stops.longitudes[centre])
    east, north = projection.kilometres(stops.longitudes, stops.latitudes)
    shapes: list[Any] = [None] * len(east)
    for place in np.flatnonzero(is_square).tolist():
        x, y, (wide, high) = east[place], north[place], halves[place]
        shapes[place] = box(x - wide, y - high, x + wide, y + high)

    for identifier in polygons.keys() & stops.places.keys():
        shapes[stops.places[identifier]] = transform(projection.kilometres, polygons[identifier])
    return StopGeometry(stops, projection, east, north, shapes, stops.placed)


def along_streets(ground: StopGeometry, stops: Stops, streets: str, walking: Walking, near: float) -> StopGeometry:
    """The same ground, from whose stops one walks along the streets of a file."""
    bare = [place for place in np.flatnonzero(ground.placed).tolist() if ground.shapes[place] is None]
    if not bare:
        return ground
    positions = points_of(stops.latitudes[bare], stops.longitudes[bare])
    squares = WalkedSquares(read_streets(streets), positions, ground.projection, walking, near)
    return replace(ground, squares=squares)


def ground_on_foot(
    stops: Stops, points: str | None, walking: Walking, streets: str | None, near: float
) -> StopGeometry:
    """Where these stops lie, with the polygons of a file of points, and along which streets one walks on."""
    ground = ground_of(stops, polygons_of(points))
    return along_streets(ground, stops, streets, walking, near) if streets else ground


def polygons_of(path: str | None) -> dict[str, Any]:
    """The polygons of a file of points, by their identifiers; none where it has points, or is a table."""
    if path is None or Path(path).suffix.lower() not in AREAS:
        return {}
    frame = read_frame(path).to_crs(4326)
    shapes = enumerate(zip(frame["id"], frame.geometry))
    return {
        text_of(own): valid(path, place + 1, shape) for place, (own, shape) in shapes if shape.geom_type in POLYGONS
    }


@dataclass(frozen=True)
class Bands:
    """Which isochrones are wanted."""

    origin: str
    scenarios: Sequence[str]
    shares: Sequence[Share]
    minutes: Sequence[float]  # ascending
    walking: Walking


def isochrones_of(matrix: Matrix, ground: StopGeometry, bands: Bands, counts: Counts | None) -> list[Isochrone]:
    """The isochrones of each scenario, share and band, in this order; ground and counts are of the matrix's stops."""
    areas, ground = list[Isochrone](), ground.around(bands.origin)
    every = list(itertools.product(bands.scenarios, bands.shares))
    for scenario, share in reported(every, len(every), "scenarios and percentiles"):
        seconds = matrix.seconds(scenario, share, bands.origin).astype(np.float64)
        limits = [round(minutes * 60) for minutes in bands.minutes]
        shapes = ground.shapes_within(seconds, limits, bands.walking)
        for minutes, limit, shape in zip(bands.minutes, limits, shapes):
            near = seconds <= limit
            there = {} if counts is None else {name: float(counts.named(name)[near].sum()) for name in counts.names}
            sizes = float(shape.area), int(near.sum())
            areas.append(Isochrone(scenario, share, minutes, ground.in_degrees(shape), *sizes, there))
    return areas


def properties_of(isochrone: Isochrone, origin: str) -> dict[str, Any]:
    """What a file says of an isochrone in addition to its shape."""
    known: dict[str, Any] = {"origin": display_text(origin), "scenario": display_text(isochrone.scenario)}
    if isochrone.share is not None:
        known["percentile"] = isochrone.share
    known |= {"minutes": whole(isochrone.minutes), "square_km": round(isochrone.area, 4), "reached": isochrone.reached}
    return known | {display_text(name): whole(number) for name, number in isochrone.counts.items()}


def widest_first(isochrones: Sequence[Isochrone]) -> list[Isochrone]:
    """Isochrones in the order of a file, in which the others lie on the widest band."""
    return sorted(isochrones, key=lambda area: -area.minutes)


def write_geojson(out: BinaryIO, isochrones: Sequence[Isochrone], origin: str) -> None:
    from shapely.geometry import mapping

    write_features(out, ((mapping(area.shape), properties_of(area, origin)) for area in widest_first(isochrones)))


def collection_of(isochrones: Sequence[Isochrone], origin: str) -> dict[str, Any]:
    """The areas as a FeatureCollection of GeoJSON."""
    from shapely.geometry import mapping

    features = [
        {"type": "Feature", "geometry": mapping(area.shape), "properties": properties_of(area, origin)}
        for area in widest_first(isochrones)
    ]
    return {"type": "FeatureCollection", "features": features}


def write_geopackage(path: str, isochrones: Sequence[Isochrone], origin: str) -> None:
    ordered = widest_first(isochrones)
    rows = [properties_of(isochrone, origin) for isochrone in ordered]
    write_layer(path, rows, [area.shape for area in ordered], LAYER)
