"""The classes of r5py, computed by `ttm` and the packages of this one. `ttm_tools.r5py` exports them."""

from .isochrones import Isochrones
from .itineraries import DetailedItineraries, DetailedItinerariesComputer
from .matrix import TravelTimeMatrix, TravelTimeMatrixComputer
from .modes import ElevationCostFunction, TransportMode
from .network import TransportNetwork
from .refusals import NotAvailable
from .task import RegionalTask

__all__ = [
    "DetailedItineraries",
    "DetailedItinerariesComputer",
    "ElevationCostFunction",
    "Isochrones",
    "NotAvailable",
    "RegionalTask",
    "TransportMode",
    "TransportNetwork",
    "TravelTimeMatrix",
    "TravelTimeMatrixComputer",
]
