"""Modes of transport by the `route_type` of a route (GTFS reference, routes.txt, and its extended types)."""

from ..core.tables import rows
from .fields import number
from .stops import in_folder

MODES = {  # by name, the route_type of the reference
    "tram": 0,
    "metro": 1,
    "rail": 2,
    "bus": 3,
    "ferry": 4,
    "cable_tram": 5,
    "aerial": 6,
    "funicular": 7,
    "trolleybus": 11,
    "monorail": 12,
}
BASIC = {kind: name for name, kind in MODES.items()}
EXTENDED = (  # route types below a number
    (100, ""),
    (200, "rail"),
    (300, "bus"),
    (500, "rail"),
    (700, "metro"),
    (800, "bus"),
    (900, "trolleybus"),
    (1000, "tram"),
    (1100, "ferry"),
    (1200, "air"),
    (1300, "ferry"),
    (1400, "aerial"),
    (1500, "funicular"),
)


def route_types(folder: str) -> dict[str, int]:
    """Return the `route_type` of each route of a feed; below 0 if it is empty or no number."""
    found = rows(in_folder(folder, "routes.txt"), ["route_id"], ["route_type"])
    return {route: number(kind) for _, (route, kind) in found}


def mode_of(route_type: int) -> str:
    """Return the mode of a `route_type`, one of the reference or an extended one; an empty text if it has none."""
    if route_type in BASIC:
        return BASIC[route_type]
    return next((mode for below, mode in EXTENDED if route_type < below), "")


OF_R5 = {  # R5's name of each mode
    **{"tram": "TRAM", "metro": "SUBWAY", "rail": "RAIL", "bus": "BUS", "ferry": "FERRY", "cable_tram": "CABLE_CAR"},
    **{"aerial": "GONDOLA", "funicular": "FUNICULAR", "trolleybus": "BUS", "monorail": "RAIL", "air": "AIR"},
}
WALK = "WALK"  # R5's name of walking


def mode_named(route_type: int) -> str | None:
    """Return the mode of a `route_type` by R5's name; None if it has none."""
    return OF_R5.get(mode_of(route_type))
