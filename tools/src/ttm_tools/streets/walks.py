"""Walks between the stops of a feed, or places among them: straight lines, and ways along streets."""

from ..core.errors import needs
from ..core.notices import Notice, note
from ..core.tables import RoundingCounter
from ..core.text import quantity
from ..core.walking import Walking
from ..gtfs.stops import Stops
from .straight import Walks, distances, points_of, read_walks, straight_walks

NEAR = 100.0  # metres to a street
__all__ = ["NEAR", "Walks", "distances", "footpaths_of", "points_of", "straight_walks", "summary", "walks_of"]


def walks_of(
    stops: Stops, walking: Walking, streets: str | None = None, near: float = NEAR, first: int | None = None
) -> Walks:
    """The walks between all stops, or the first ones and all, by straight lines or along the streets of a file."""
    if streets is None:
        return straight_walks(stops, walking, first)
    needs("osmium", "scipy")
    from .osm import read_streets
    from .street_walks import street_walks

    return street_walks(stops, walking, read_streets(streets), near, first)


def footpaths_of(
    stops: Stops, table: str | None, walking: Walking, streets: str | None, near: float
) -> tuple[Walks, str]:
    """The footpaths of a table, or else the walks between all stops; and what is reported of them."""
    if table:
        rounded = RoundingCounter()
        found = read_walks(table, stops, rounded)
        sentence = f"{quantity(rounded.count, 'time')} with decimals rounded up"
        note(*([Notice(f"{table}: {sentence}", "rounded", rounded.count)] if rounded.count else []))
    else:
        found = walks_of(stops, walking, streets, near)
        sentence = summary(found, "stops", near)
    return found, f"{quantity(len(found.seconds), 'footpath')}; {sentence}"


def summary(walks: Walks, what: str, near: float) -> str:
    """The places that have no walks, or only a straight line to a street."""
    found = [Notice(f"{quantity(walks.lost, what.removesuffix('s'))} without coordinates", "place", walks.lost)]
    if walks.far:
        text = f"{walks.far:,} more than {near:g} metres from a street, joined to it by a straight line"
        found.append(Notice(text, "place", walks.far))
    if walks.apart:
        found.append(Notice(f"{walks.apart:,} without a street in reach", "place", walks.apart))
    note(*(one for one in found if one.affected))
    return "; ".join(found)
