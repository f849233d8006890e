"""Layers of places: the points that `ttm-tools` reads, and the features that results are joined to, by position."""

from __future__ import annotations

import csv
import math
from dataclasses import dataclass, field
from pathlib import Path
from typing import Any, Sequence

from qgis.core import (
    QgsCoordinateReferenceSystem,
    QgsCoordinateTransform,
    QgsCsException,
    QgsFeatureRequest,
    QgsProcessingException,
    QgsProcessingFeatureSource,
)

from . import compat

DEGREES = "EPSG:4326"


@dataclass
class Places:
    """The features of a layer, and a point for each that has a geometry.

    Attributes
    ----------
    label
        What the user calls the layer, for messages.
    prefix
        What the names in the points file begin with. No stop of a feed has such names, and users' own identifiers
        never leave QGIS.
    id_field
        The field that identifies a feature; "" for the feature's number.
    features, identifiers
        All features in the order of the layer, and the value that identifies each.
    points
        The positions of the features that have a point, ascending.
    coordinates
        Longitude and latitude of each point, in degrees.
    """

    label: str
    prefix: str
    source: Any
    id_field: str = ""
    features: list[Any] = field(default_factory=list)
    identifiers: list[Any] = field(default_factory=list)
    points: list[int] = field(default_factory=list)
    coordinates: list[tuple[float, float]] = field(default_factory=list)

    @property
    def identifier_type(self) -> Any:
        """The type of the identifiers."""
        return self.source.fields().field(self.id_field).type() if self.id_field else compat.LONG

    @property
    def names(self) -> list[str]:
        """The name of each point in the points file."""
        return [f"{self.prefix}{position + 1}" for position in self.points]

    def position_of(self, name: str) -> int:
        """Return the position of the feature that has this name in the points file."""
        return int(name.removeprefix(self.prefix)) - 1

    def write(self, path: Path) -> None:
        """Write the points file."""
        with path.open("w", newline="", encoding="utf-8") as file:
            writer = csv.writer(file)
            writer.writerow(["id", "lat", "lon"])
            for name, (longitude, latitude) in zip(self.names, self.coordinates):
                writer.writerow([name, repr(latitude), repr(longitude)])


def to_degrees(crs: Any, label: str, context: Any) -> Any:
    """Return the transform from a projection to degrees.

    Raises
    ------
    QgsProcessingException
        The layer has no projection: QGIS would return its coordinates unchanged.
    """
    if not crs.isValid():
        advice = "set the layer's projection, or load a CSV by Add Delimited Text Layer"
        raise QgsProcessingException(f"{label}: the layer has no coordinate reference system; {advice}")
    return QgsCoordinateTransform(crs, QgsCoordinateReferenceSystem(DEGREES), context.transformContext())


def in_degrees(transform: Any, x: float, y: float, what: str) -> tuple[float, float]:
    """Return longitude and latitude of a point.

    Raises
    ------
    QgsProcessingException
        It has none; the message begins with `what`.
    """
    try:
        point = transform.transform(x, y)
    except QgsCsException as error:
        raise QgsProcessingException(f"{what} is outside its projection: {error}") from None
    if not (math.isfinite(point.x()) and abs(point.x()) <= 180 and math.isfinite(point.y()) and abs(point.y()) <= 90):
        raise QgsProcessingException(f"{what} is at {point.x():g}, {point.y():g}, which are no degrees")
    return point.x(), point.y()


def point_of(geometry: Any, what: str) -> tuple[float, float] | None:
    """Return a point of a geometry: itself, or one inside an area or a multipoint. None if there is no geometry.

    Raises
    ------
    QgsProcessingException
        It is a line; the message begins with `what`.
    """
    if geometry.isNull() or geometry.isEmpty():
        return None
    if geometry.type() == compat.LINES:
        raise QgsProcessingException(f"{what} is a line; points and areas are allowed")
    inside = geometry.pointOnSurface()
    if inside.isNull() or inside.isEmpty():
        return None
    point = inside.asPoint()
    return point.x(), point.y()


def read_places(source: Any, label: str, id_field: str, prefix: str, context: Any, feedback: Any) -> Places:
    """Read a layer of places.

    Parameters
    ----------
    source
        The `QgsProcessingFeatureSource`, of which only selected features count if the user says so.
    id_field
        The field that identifies a feature; "" for the feature's number.

    Raises
    ------
    QgsProcessingException
        No feature, no projection, a line, a missing or repeated identifier, or coordinates that are no degrees.
    """
    transform = to_degrees(source.sourceCrs(), label, context)
    places = Places(label, prefix, source, id_field)
    index = source.fields().lookupField(id_field) if id_field else -1
    # A point inside an invalid area serves as well.
    flags = QgsProcessingFeatureSource.FlagSkipGeometryValidityChecks
    for position, feature in enumerate(source.getFeatures(QgsFeatureRequest(), flags)):
        places.features.append(feature)
        places.identifiers.append(feature.id() if index < 0 else feature.attribute(index))
        what = f"{label}: feature {feature.id()}"
        point = point_of(feature.geometry(), what)
        if point is not None:
            places.points.append(position)
            places.coordinates.append(in_degrees(transform, *point, what))
    if not places.features:
        raise QgsProcessingException(f"{label}: the layer has no features")
    check_identifiers(label, id_field, places.identifiers)
    missing = len(places.features) - len(places.points)
    if missing == len(places.features):
        raise QgsProcessingException(f"{label}: no feature has a geometry")
    if missing:
        feedback.pushWarning(f"{label}: {missing} of {len(places.features)} features have no geometry, and no result")
    return places


def check_identifiers(label: str, id_field: str, identifiers: Sequence[Any]) -> None:
    """Refuse identifiers that are missing or repeated."""
    seen: set[Any] = set()
    for identifier in identifiers:
        if compat.is_null(identifier):
            raise QgsProcessingException(f"{label}: a feature has no value in the field {id_field}")
        if identifier in seen:
            advice = "choose a field with a different value for each feature"
            raise QgsProcessingException(f'{label}: two features have "{identifier}" in {id_field}; {advice}')
        seen.add(identifier)
