"""Stops with their access, and travel times from an origin, for a geographic information system, as GeoJSON or
GeoPackage: as points, or as the squares and areas that cells are.
"""

import contextlib
import functools
import itertools
import json
import math
import sqlite3
from dataclasses import dataclass, replace
from pathlib import Path
from typing import Any, BinaryIO, Iterable, Sequence
from urllib.parse import quote

import numpy as np

from ..core.arrays import Floats
from ..core.errors import InputError, needs
from ..core.files import atomic_path
from ..core.reading import as_one_line
from ..core.tables import with_gaps
from ..core.text import decimal, display_text, quantity
from ..gtfs.stops import Stops
from ..matrices import Matrix, Share
from ..measures.access import nearest
from ..measures.opportunities import Counts
from ..places.areas import geometry_of, squares_of

LAYER = "stops"


@dataclass(frozen=True)
class Features:
    """The stops of a matrix that have a place, with a column for each number; NaN where a stop has none."""

    stops: Stops
    columns: dict[str, Any]  # arrays of numbers

    def properties(self, place: int) -> dict[str, Any]:
        numbers = {name: column[place] for name, column in self.columns.items()}
        named = {"stop_id": display_text(self.stops.identifiers[place]), "stop_name": self.stops.names[place]}
        return named | {name: None if math.isnan(number) else whole(float(number)) for name, number in numbers.items()}


def named(scenario: str, share: Share, what: str) -> str:
    """The name of a column, as base_50_access_1800, base_50_seconds."""
    return "_".join([display_text(scenario), *([str(share)] if share is not None else []), what])


def features_of(
    matrix: Matrix, stops: Stops, scenarios: Sequence[str], shares: Sequence[Share], origin: str | None
) -> Features:
    columns: dict[str, Any] = {}
    drawn = matrix.stops_and_origins()
    among = {name: place for place, name in enumerate(drawn)}
    for scenario, share in itertools.product(scenarios, shares):
        places = [among[name] for name in matrix.origins(scenario, share)]
        for limit, access in zip(matrix.layout.limits, matrix.access(scenario, share).T):
            what = "access" if limit is None else f"access_{limit}"
            columns[named(scenario, share, what)] = placed(access, places, len(drawn))
        if origin is not None:
            seconds = matrix.seconds(scenario, share, origin)
            columns[named(scenario, share, "seconds")] = placed(seconds, range(len(seconds)), len(drawn))
    found = stops.of(drawn)
    kept = np.flatnonzero(found.placed)
    there = found.of([found.identifiers[place] for place in kept.tolist()])
    there = replace(there, areas={**squares_of(there), **there.areas})
    return Features(there, {name: numbers[kept] for name, numbers in columns.items()})


def placed(numbers: Any, places: Sequence[int], count: int) -> Floats:
    """A column of `count` entries with numbers at some places, and NaN at the others."""
    column = np.full(count, np.nan)
    column[np.array(places, dtype=np.intp)] = numbers
    return column


def with_nearest(
    features: Features,
    matrix: Matrix,
    kinds: tuple[Sequence[str], Sequence[Share]],
    counts: Counts,
    nearest_of: Sequence[float],
) -> Features:
    """Adds the seconds within which these numbers of opportunities are reached."""
    columns, among = dict(features.columns), features.stops.places
    measure = functools.partial(nearest, numbers=counts.numbers, counts=nearest_of)
    for scenario, share in itertools.product(*kinds):
        found = matrix.measure(scenario, share, measure)
        origins = matrix.origins(scenario, share)
        rows = [row for row, name in enumerate(origins) if name in among]
        places = [among[origins[row]] for row in rows]
        for (kind, what), (place, count) in itertools.product(enumerate(counts.names), enumerate(nearest_of)):
            column = placed(found[rows, kind, place], places, len(features.stops.identifiers))
            columns[named(scenario, share, f"{display_text(what)}_nearest_{decimal(count)}")] = column
    return Features(features.stops, columns)


def whole(number: float) -> float:
    """A number without needless decimals."""
    return int(number) if number.is_integer() else number


def write_geojson(out: BinaryIO, features: Features) -> None:
    """The stops with their numbers, as GeoJSON."""
    stops = features.stops
    places = zip(stops.longitudes.tolist(), stops.latitudes.tolist())
    geometries: list[Any] = [{"type": "Point", "coordinates": place} for place in places]
    for name, area in stops.areas.items():
        geometries[stops.places[name]] = geometry_of(area)
    write_features(out, zip(geometries, map(features.properties, range(len(geometries)))))


def write_features(out: BinaryIO, features: Iterable[tuple[Any, dict[str, Any]]]) -> None:
    """A collection of shapes with what is known of each, one a line (RFC 7946)."""
    out.write(b'{"type": "FeatureCollection", "features": [')
    for number, (geometry, properties) in enumerate(features):
        feature = {"type": "Feature", "geometry": geometry, "properties": properties}
        out.write((",\n" if number else "\n").encode() + json.dumps(feature, ensure_ascii=False).encode("utf-8"))
    out.write(b"\n]}\n")


def write_geopackage(path: str, features: Features) -> None:
    """A layer of points, or areas."""
    from shapely.geometry import MultiPolygon, Point

    stops = features.stops
    columns: dict[str, Any] = {"stop_id": list(map(display_text, stops.identifiers)), "stop_name": stops.names}
    columns |= {name: with_gaps(numbers) for name, numbers in features.columns.items()}
    shapes = [Point(*place) for place in zip(stops.longitudes.tolist(), stops.latitudes.tolist())]
    for name, area in stops.areas.items():  # all as several polygons, since a layer has one kind
        shapes[stops.places[name]] = MultiPolygon([(whole, holes) for whole, *holes in area])
    write_layer(path, columns, shapes, LAYER)


def write_layer(path: str, columns: Any, shapes: Sequence[Any], layer: str) -> None:
    """Writes columns, or rows, and their shapes in WGS 84 as a GeoPackage, which gets its name when it is whole."""
    needs("geopandas")
    import geopandas

    frame = geopandas.GeoDataFrame(columns, geometry=shapes, crs="EPSG:4326")
    with atomic_path(path) as aside, as_one_line(path, "not written"):
        frame.to_file(aside, driver="GPKG", layer=layer)
        refuse_part(aside, path, layer, len(frame))


def refuse_part(written: Path, path: str, layer: str, count: int) -> None:
    """Refuses a GeoPackage that isn't whole, as one on a full disk, which its library writes without a word."""
    with contextlib.closing(sqlite3.connect(f"file:{quote(str(written))}?mode=ro", uri=True)) as base:
        (state,) = base.execute("PRAGMA integrity_check").fetchone()
        (there,) = base.execute(f"SELECT COUNT(*) FROM {layer}").fetchone()
    if state != "ok" or there != count:
        raise InputError(path, f"not written: it has {there:,} of {quantity(count, 'record')}; is the disk full?")
