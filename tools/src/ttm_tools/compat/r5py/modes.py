"""Modes of transport by r5py's names, and which of them a route of GTFS is."""

import enum
from typing import Iterable, Sequence

from ...gtfs.modes import mode_named
from .refusals import NotAvailable


class TransportMode(enum.Enum):
    """How one travels."""

    AIR = "AIR"
    TRAM = "TRAM"
    SUBWAY = "SUBWAY"
    RAIL = "RAIL"
    BUS = "BUS"
    FERRY = "FERRY"
    CABLE_CAR = "CABLE_CAR"
    GONDOLA = "GONDOLA"
    FUNICULAR = "FUNICULAR"
    TRANSIT = "TRANSIT"
    WALK = "WALK"
    BICYCLE = "BICYCLE"
    CAR = "CAR"
    BICYCLE_RENT = "BICYCLE_RENT"
    CAR_PARK = "CAR_PARK"


class ElevationCostFunction(enum.Enum):
    """How slopes slow one down. `ttm` knows no slopes."""

    TOBLER = "TOBLER"
    MINETTI = "MINETTI"
    NONE = "NONE"


LACKING = (TransportMode.BICYCLE, TransportMode.CAR, TransportMode.BICYCLE_RENT, TransportMode.CAR_PARK)
VEHICLES = tuple(mode for mode in TransportMode if mode not in (*LACKING, TransportMode.TRANSIT, TransportMode.WALK))


def mode_of(route_type: int) -> TransportMode | None:
    """The mode of a route_type, one of the reference or an extended one; None where it has none."""
    name = mode_named(route_type)
    return None if name is None else TransportMode[name]


def modes_of(argument: str, given: Iterable[object]) -> list[TransportMode]:
    """The supported modes; names count as r5py takes them."""
    modes = [
        mode if isinstance(mode, TransportMode) else TransportMode(str(getattr(mode, "value", mode))) for mode in given
    ]
    for mode in modes:
        if mode in LACKING:
            instead = "use TransportMode.TRANSIT or WALK here, and r5py itself for this mode"
            raise NotAvailable(argument, f"{mode} isn't supported, since ttm knows no streets for it", instead)
    return modes


def only_walks(argument: str, given: Iterable[object]) -> None:
    """Refuses all ways to and from a stop but walking."""
    other = [mode for mode in modes_of(argument, given) if mode is not TransportMode.WALK]
    if other:
        raise NotAvailable(argument, f"{other[0]} isn't supported", "walk to and from stops: [TransportMode.WALK]")


def vehicles_of(modes: Sequence[TransportMode]) -> frozenset[TransportMode]:
    """The vehicles that may be taken: none where one walks alone."""
    if TransportMode.TRANSIT in modes:
        return frozenset(VEHICLES)
    return frozenset(modes) & frozenset(VEHICLES)
