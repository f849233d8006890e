"""The names of QGIS and Qt that later versions rename, in one place."""

from __future__ import annotations

from typing import Any

from qgis.core import NULL, QgsProcessing, QgsWkbTypes
from qgis.PyQt.QtCore import QVariant

INTEGER = QVariant.Int
LONG = QVariant.LongLong
REAL = QVariant.Double
TEXT = QVariant.String

NO_GEOMETRY = QgsWkbTypes.NoGeometry
POINT = QgsWkbTypes.Point
MULTI_LINE = QgsWkbTypes.MultiLineString
MULTI_POLYGON = QgsWkbTypes.MultiPolygon
LINES = QgsWkbTypes.LineGeometry
POLYGONS = QgsWkbTypes.PolygonGeometry
POINTS = QgsWkbTypes.PointGeometry

ANY_GEOMETRY = QgsProcessing.TypeVectorAnyGeometry
ANY_POLYGONS = QgsProcessing.TypeVectorPolygon
ANY_VECTOR = QgsProcessing.TypeVector
FILES = QgsProcessing.TypeFile


def is_null(value: Any) -> bool:
    """Return whether an attribute has no value. QGIS's NULL is neither None nor false in each version."""
    return value is None or value == NULL or isinstance(value, QVariant) and value.isNull()
