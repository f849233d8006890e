"""Kinds of objects on the ground of a map, by their tags in OpenStreetMap."""

from typing import Mapping

Tags = Mapping[str, str]
AREAS = ("park", "water")  # kinds that are filled, in the order of drawing
LINES = ("brook", "river", "street3", "rail", "street2", "street1")  # kinds that are lines
KEYS = (
    "highway",
    "railway",
    "waterway",
    "service",
    "tunnel",
    "covered",
    "leisure",
    "landuse",
    "natural",
    "water",
    "name",
)
NAMES = ("city", "town", "suburb", "village", "station", "park", "water", "quarter")  # the foremost first

GREEN = {
    "leisure": {"park", "garden", "golf_course", "nature_reserve", "common", "recreation_ground"},
    "landuse": {"forest", "cemetery", "recreation_ground", "village_green", "allotments"},
    "natural": {"wood", "scrub", "heath"},
}
BASINS = {"reservoir", "basin"}
WATERWAYS = {"river": "river", "canal": "river", "stream": "brook"}
STREETS = {
    "street1": {"motorway", "trunk", "primary"},
    "street2": {"secondary", "tertiary"},
    "street3": {"unclassified", "residential", "living_street", "pedestrian", "road"},
}
RANKS = {highway: rank for rank, names in STREETS.items() for highway in names}
RAILWAYS = {"rail", "light_rail", "subway", "tram"}
PLACES = {
    "city": "city",
    "town": "town",
    "suburb": "suburb",
    "borough": "suburb",
    "village": "village",
    "hamlet": "quarter",
    "quarter": "quarter",
    "neighbourhood": "quarter",
}


def is_below(tags: Tags) -> bool:
    """Whether a way runs in a tunnel or is covered, and so is not seen."""
    return tags.get("tunnel", "no") not in ("no", "building_passage") or tags.get("covered", "no") == "yes"


def line_of(tags: Tags) -> str | None:
    """Returns the kind of a line, one of LINES; None if the way is none."""
    if is_below(tags):
        return None
    if tags.get("railway") in RAILWAYS:
        return None if "service" in tags else "rail"  # sidings and yards would be a black patch
    road = tags.get("highway", "")
    return RANKS.get(road.removesuffix("_link")) or WATERWAYS.get(tags.get("waterway", ""))


def area_of(tags: Tags) -> str | None:
    """Returns the kind of an area, one of AREAS; None if it is none."""
    is_basin = tags.get("landuse") in BASINS or tags.get("waterway") in ("riverbank", "dock")
    if tags.get("natural") == "water" or is_basin:
        return "water"
    return "park" if any(tags.get(key) in values for key, values in GREEN.items()) else None


def name_of(tags: Tags) -> str | None:
    """Returns the kind of a named point, one of NAMES; None if it has no name or none that is drawn."""
    if not tags.get("name"):
        return None
    if tags.get("railway") in ("station", "halt"):
        return "station"
    return PLACES.get(tags.get("place", ""))
