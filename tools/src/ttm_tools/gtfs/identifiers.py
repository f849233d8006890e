"""Which columns of a feed give and name identifiers of which kind; those of files that `ttm` doesn't read too."""

from typing import Callable

import numpy as np

from .columns import renamed, used
from .feeds import Feed
from .tables import Table

ZONES = ("origin_id", "destination_id", "contains_id")  # of fare_rules.txt
KINDS: dict[str, tuple[tuple[str, str], ...]] = {  # where identifiers of a kind are given
    "stop": (("stops.txt", "stop_id"),),
    "route": (("routes.txt", "route_id"),),
    "service": (("calendar.txt", "service_id"), ("calendar_dates.txt", "service_id"), ("trips.txt", "service_id")),
    "trip": (("trips.txt", "trip_id"),),
    "agency": (("agency.txt", "agency_id"), ("routes.txt", "agency_id")),
    "shape": (("shapes.txt", "shape_id"), ("trips.txt", "shape_id")),
    "fare": (("fare_attributes.txt", "fare_id"), ("fare_rules.txt", "fare_id")),
    "zone": (("stops.txt", "zone_id"), *(("fare_rules.txt", name) for name in ZONES)),
    "pathway": (("pathways.txt", "pathway_id"),),
    "level": (("levels.txt", "level_id"), ("stops.txt", "level_id")),
    "area": (("areas.txt", "area_id"), ("stop_areas.txt", "area_id")),
    "network": (("networks.txt", "network_id"), ("route_networks.txt", "network_id"), ("routes.txt", "network_id")),
    "attribution": (("attributions.txt", "attribution_id"),),
}
NAMING = {  # columns that name something of a kind, wherever they stand
    **{column: kind for kind, given in KINDS.items() for _, column in given if column not in ZONES},
    **{"parent_station": "stop", "from_stop_id": "stop", "to_stop_id": "stop"},
    **{"from_route_id": "route", "to_route_id": "route", "from_trip_id": "trip", "to_trip_id": "trip"},
}
TRANSLATED = {  # what record_id of translations.txt names, by table_name
    **{"stops": "stop", "routes": "route", "trips": "trip", "stop_times": "trip", "agency": "agency"},
    **{"pathways": "pathway", "levels": "level", "attributions": "attribution"},
}


def kind_of(table: str, column: str) -> str | None:
    """Of which kind the identifiers are that a column gives or names."""
    return "zone" if table == "fare_rules.txt" and column in ZONES else NAMING.get(column)


def identifiers(feed: Feed, kind: str) -> set[str]:
    """All identifiers of a kind that a feed has."""
    return {text for name, column in KINDS[kind] if name in feed.tables for text in used(feed.tables[name][column])}


def rename(table: Table, kind: str, new: Callable[[str], str]) -> None:
    """Gives the identifiers of a kind other names, wherever a table gives or names them; an empty field names none."""
    for name in table.columns:
        if kind_of(table.name, name) == kind:
            # a parent's spaces aren't read
            texts = [text.strip(" ") if name == "parent_station" else text for text in table[name].categories]
            table.replace(name, renamed(table[name], [new(text) if text else "" for text in texts]))
    if table.name == "translations.txt":
        names = list(zip(table.texts("table_name"), table.texts("record_id")))
        rows = [row for row, (name, text) in enumerate(names) if text and TRANSLATED.get(name) == kind]
        table.put("record_id", np.array(rows, dtype=np.intp), [new(names[row][1]) for row in rows])
