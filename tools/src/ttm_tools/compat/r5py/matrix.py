"""Matrices of travel times, as frames with r5py's columns."""

import warnings
from functools import partial
from typing import Any

import numpy as np
import pandas

from ...places.doors import Seconds
from ...places.frames import FramePlaces, places_of
from .asking import seconds_between
from .frames import ComputedFrame
from .network import TransportNetwork, network_from
from .refusals import NotAvailable
from .task import NEAR, RegionalTask


def minutes_of(seconds: Seconds, most: int) -> Seconds:
    """Whole minutes, rounded down as R5 does it; NaN where a place isn't reached in less than the most seconds."""
    with np.errstate(invalid="ignore"):
        minutes: Seconds = np.where(seconds < most, np.floor(seconds / 60), np.nan)
    return minutes


def ends_of(
    network: TransportNetwork, origins: Any, destinations: Any, snaps: bool | float
) -> tuple[FramePlaces, FramePlaces, Any, Any]:
    """Where journeys begin and end, and the frames of these; without destinations they end at the origins."""
    if origins is None:
        raise NotAvailable("origins", "None isn't supported", "a GeoDataFrame with the columns id and geometry")
    frames = [origins] if destinations is None or destinations is origins else [origins, destinations]
    if snaps is not False:
        radius = NEAR if snaps is True else float(snaps)
        frames = [
            frame.assign(**{frame.geometry.name: network.snap_to_network(frame.geometry, radius)}) for frame in frames
        ]
    places = [places_of(name, frame) for name, frame in zip(("origins", "destinations"), frames)]
    return places[0], places[-1], frames[0], frames[-1]


def columns_of(task: RegionalTask, seconds: dict[int, Seconds]) -> dict[str, Seconds]:
    """A column for each percentile, in minutes; the median alone has no number in its name."""
    alone = task.percentiles == [50]
    names = {percentile: "travel_time" if alone else f"travel_time_p{percentile}" for percentile in task.percentiles}
    return {name: minutes_of(seconds[percentile], task.max_time).ravel() for percentile, name in names.items()}


def as_column(identifiers: list[Any]) -> Any:
    """Identifiers of their own kind: numbers stay numbers."""
    return pandas.Series(identifiers).to_numpy()


class TravelTimeMatrix(ComputedFrame):
    """Travel times between all origins and destinations: `from_id`, `to_id`, and `travel_time` in minutes, or
    `travel_time_p25` and so on for other percentiles; missing where a place isn't reached.
    """

    def __init__(
        self,
        transport_network: Any,
        origins: Any = None,
        destinations: Any = None,
        snap_to_network: bool | float = False,
        **kwargs: Any,
    ) -> None:
        network = network_from(transport_network)
        task = RegionalTask(network, **kwargs)
        begins, ends, *_ = ends_of(network, origins, destinations, snap_to_network)
        seconds = seconds_between(network, task, begins, ends)
        from_id = np.repeat(as_column(begins.identifiers), len(ends.identifiers))
        to_id = np.tile(as_column(ends.identifiers), len(begins.identifiers))
        super().__init__({"from_id": from_id, "to_id": to_id, **columns_of(task, seconds)})


class TravelTimeMatrixComputer:
    """The same by the names of r5py 0.1: `TravelTimeMatrixComputer(..).compute_travel_times()`."""

    def __init__(
        self,
        transport_network: Any,
        origins: Any = None,
        destinations: Any = None,
        snap_to_network: bool | float = False,
        **kwargs: Any,
    ) -> None:
        text = "TravelTimeMatrix replaces TravelTimeMatrixComputer in r5py 1.0"
        warnings.warn(text, DeprecationWarning, stacklevel=2)
        RegionalTask(transport_network, **kwargs)
        self.compute = partial(TravelTimeMatrix, transport_network, origins, destinations, snap_to_network, **kwargs)

    def compute_travel_times(self) -> pandas.DataFrame:
        """The matrix."""
        return pandas.DataFrame(self.compute())
