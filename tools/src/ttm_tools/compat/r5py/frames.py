"""Frames that are computed from a network, and that pandas and geopandas treat as plain ones.

Their methods make frames by `type(self)(data)`, and `from_dict` and its kin by `cls(data)`: with data in place of a
network both give a plain frame.
"""

from typing import Any

import geopandas
import numpy as np
import pandas

DATA = (dict, list, np.ndarray, pandas.DataFrame, pandas.Series, pandas.Index)


def is_data(value: Any) -> bool:
    """Whether a frame is made of a value as it is: of data, or of what pandas keeps inside a frame."""
    return value is None or isinstance(value, DATA) or type(value).__module__.startswith("pandas.")


class ComputedFrame(pandas.DataFrame):  # type: ignore[misc]
    """A frame of pandas that is computed from a network."""

    _plain = pandas.DataFrame

    def __new__(cls, *arguments: Any, **named: Any) -> Any:
        first = arguments[0] if arguments else named.get("transport_network")
        if "transport_network" in named or arguments and not is_data(first):
            return super().__new__(cls)
        return cls._plain(*arguments, **named)

    @property
    def _constructor(self) -> Any:
        return self._plain

    def compare(self, other: Any, *arguments: Any, **named: Any) -> Any:
        """The differences from another frame, which may be a plain one, too."""
        return self._plain(self).compare(self._plain(other), *arguments, **named)

    def equals(self, other: Any) -> bool:
        """Whether another frame, which may be a plain one, has the same values."""
        return bool(self._plain(self).equals(self._plain(other) if isinstance(other, ComputedFrame) else other))


class ComputedGeoFrame(ComputedFrame, geopandas.GeoDataFrame):  # type: ignore[misc]
    """The same with a geometry."""

    _plain = geopandas.GeoDataFrame

    @property
    def _constructor(self) -> Any:
        return geopandas.GeoDataFrame._constructor.fget(self)  # plain pandas where no geometry is left
