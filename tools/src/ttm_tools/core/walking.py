"""How far and how fast people walk."""

from dataclasses import dataclass

import numpy as np
import numpy.typing as npt

from .arrays import Floats
from .question import MAX_WALK, WALKING, WAY

SLACK = 1e-6  # metres: walks are found a little beyond the limit, and then their whole seconds decide


@dataclass(frozen=True)
class Walking:
    """How far and how fast people walk.

    Attributes
    ----------
    kmh
        The walking speed in kilometres an hour.
    detour
        Metres walked for a metre of straight line, off the streets.
    max_seconds
        The longest walk.
    """

    kmh: float = WALKING.default
    detour: float = WAY.default
    max_seconds: float = MAX_WALK.default

    @property
    def speed(self) -> float:
        """The walking speed in metres a second."""
        return self.kmh / 3.6

    @property
    def straight_speed(self) -> float:
        """Metres of straight line a second."""
        return self.speed / self.detour

    @property
    def max_metres(self) -> float:
        """The longest walk in metres, with some slack."""
        return self.max_seconds * self.speed + SLACK

    @property
    def max_straight_metres(self) -> float:
        """The longest straight line of a walk in metres, with some slack."""
        return self.max_seconds * self.speed / self.detour + SLACK

    def seconds(self, metres: Floats) -> npt.NDArray[np.int64]:
        """Return the time to walk some metres, in whole seconds, rounded up."""
        return np.asarray(np.ceil(np.round(metres / self.speed, 6)), dtype=np.int64)

    def straight_seconds(self, metres: Floats) -> npt.NDArray[np.int64]:
        """Return the time of a walk whose ends are some metres apart in a straight line."""
        return self.seconds(metres * self.detour)
