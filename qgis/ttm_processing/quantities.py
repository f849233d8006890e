"""Numbers in the fields of a layer."""

from __future__ import annotations

from typing import Any

from qgis.core import QgsProcessingException

from . import compat
from .places import Places


def numbers_of(places: Places, name: str, feedback: Any) -> list[float]:
    """Return the numbers of a field, one for each feature. A missing value counts as 0, with a warning.

    Raises
    ------
    QgsProcessingException
        A value is negative, or no number.
    """
    numbers, missing = list[float](), 0
    for feature in places.features:
        value = feature.attribute(name)
        if compat.is_null(value):
            missing += 1
            numbers.append(0.0)
            continue
        number = float(value)
        if not 0 <= number < float("inf"):
            what = f"{places.label}: feature {feature.id()}"
            raise QgsProcessingException(f"{what} has {value} in {name}; numbers from 0 on are allowed")
        numbers.append(number)
    if missing:
        feedback.pushWarning(f"{places.label}: {missing} features have no value in {name}; each counts as 0")
    return numbers
