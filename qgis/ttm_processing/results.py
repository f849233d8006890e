"""Results: fields with names and units, and sinks that say when a disk is full."""

from __future__ import annotations

from typing import Any, Iterable, Sequence

from qgis.core import QgsFeature, QgsFeatureSink, QgsField, QgsFields, QgsProcessingException

from . import compat

SHAPEFILE_NAME = 10  # characters of a field name that a Shapefile keeps


def field(name: str, kind: Any, alias: str = "") -> Any:
    """Return a field; its alias says what it holds, with the unit."""
    made = QgsField(name, kind)
    if alias:
        made.setAlias(alias)
    return made


def seconds_field(name: str, percentile: int) -> Any:
    """Return a field of travel times."""
    return field(name, compat.INTEGER, f"Travel time, {percentile} % of departures (s)")


def table_of(fields: Iterable[Any]) -> Any:
    """Return the fields of a new layer."""
    made = QgsFields()
    for item in fields:
        made.append(item)
    return made


def extended(fields: Any, more: Sequence[Any], label: str) -> Any:
    """Return the fields of a layer with further ones.

    Raises
    ------
    QgsProcessingException
        The layer has a field of one of these names.
    """
    made = QgsFields(fields)
    taken = {fields.at(place).name().lower() for place in range(fields.count())}
    for item in more:
        if item.name().lower() in taken:
            raise QgsProcessingException(f'{label}: the layer has a field "{item.name()}" already; rename or remove it')
        taken.add(item.name().lower())
        made.append(item)
    return made


def feature_of(fields: Any, attributes: Sequence[Any], geometry: Any = None) -> Any:
    """Return a feature."""
    made = QgsFeature(fields)
    made.setAttributes(list(attributes))
    if geometry is not None:
        made.setGeometry(geometry)
    return made


class Output:
    """A layer that an algorithm writes.

    Parameters
    ----------
    algorithm, parameters, context
        As QGIS passes them.
    name
        The name of the sink's parameter.
    fields, geometry, crs
        The kind of the layer.

    Raises
    ------
    QgsProcessingException
        The layer cannot be made.
    """

    def __init__(
        self, algorithm: Any, parameters: Any, context: Any, name: str, fields: Any, kind: tuple[Any, Any]
    ) -> None:
        self.name, self.fields = name, fields
        self.sink, self.place = algorithm.parameterAsSink(parameters, name, context, fields, *kind)
        self.is_wanted = self.sink is not None
        if self.sink is None and parameters.get(name) is not None:
            raise QgsProcessingException(algorithm.invalidSinkError(parameters, name))

    def add(self, attributes: Sequence[Any], geometry: Any = None) -> None:
        """Add a feature.

        Raises
        ------
        QgsProcessingException
            It cannot be written: the disk is full, or the format has no such value.
        """
        if self.sink is None:
            return
        if not self.sink.addFeature(feature_of(self.fields, attributes, geometry), QgsFeatureSink.FastInsert):
            raise QgsProcessingException(f"{self.name}: a feature cannot be written; {self.sink.lastError()}")


def warn_of_shapefile(place: Any, fields: Any, feedback: Any) -> None:
    """Warn if a Shapefile would cut the names of fields."""
    long = [name for name in fields.names() if len(name) > SHAPEFILE_NAME]
    if str(place).lower().split("|")[0].endswith(".shp") and long:
        feedback.pushWarning(
            f"A Shapefile cuts names to {SHAPEFILE_NAME} characters ({', '.join(long)}), and may store a missing time "
            "as 0. A GeoPackage keeps both."
        )
