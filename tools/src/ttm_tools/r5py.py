"""The names of r5py on `ttm`: a script of r5py runs with `from ttm_tools import r5py` instead of `import r5py`.

What r5py has and `ttm` hasn't, such as cars, bicycles and fares, raises `NotAvailable`, which names it and says what to
do instead. docs/howto/r5py.md has the differences.
"""

from typing import Any

from .compat.r5py import (
    DetailedItineraries,
    DetailedItinerariesComputer,
    ElevationCostFunction,
    Isochrones,
    NotAvailable,
    RegionalTask,
    TransportMode,
    TransportNetwork,
    TravelTimeMatrix,
    TravelTimeMatrixComputer,
)

__all__ = [
    "DetailedItineraries",
    "DetailedItinerariesComputer",
    "ElevationCostFunction",
    "Isochrones",
    "NotAvailable",
    "RegionalTask",
    "TransportMode",
    "TransportNetwork",
    "TravelTimeMatrix",
    "TravelTimeMatrixComputer",
]


def __getattr__(name: str) -> Any:
    """Refuse r5py's sample data, which is a package of its own that downloads files."""
    if name == "sampledata":
        what = "the sample data of r5py is a package of its own, which downloads files"
        raise NotAvailable(name, what, "ttm_tools.sample() has gtfs, streets, homes, jobs and clinics of a made town")
    raise AttributeError(f"module {__name__!r} has no attribute {name!r}")
