"""A made town that the package carries, so that examples run anywhere."""

from pathlib import Path
from typing import NamedTuple

import geopandas
import pandas

from ..core.shipped import DATA
from .frames import DEGREES

TOWN = DATA / "town"


class Sample(NamedTuple):
    """A made town: a feed, its streets, and places as points."""

    gtfs: Path
    streets: Path
    homes: geopandas.GeoDataFrame  # id, people, income, income_group
    jobs: geopandas.GeoDataFrame  # id, jobs
    clinics: geopandas.GeoDataFrame  # id (north, middle, south), beds


def sample() -> Sample:
    """Return the sample that this documentation uses.

    Examples
    --------
    >>> town = sample()
    >>> list(town.clinics["id"])
    ['north', 'middle', 'south']
    """
    places = [points_in(TOWN / f"{name}.csv") for name in ("homes", "jobs", "clinics")]
    return Sample(TOWN / "town.zip", TOWN / "town.osm.pbf", *places)


def points_in(path: Path) -> geopandas.GeoDataFrame:
    """Return a table with the columns lat and lon as points."""
    table = pandas.read_csv(path, dtype={"id": str})
    points = geopandas.points_from_xy(table["lon"], table["lat"])
    return geopandas.GeoDataFrame(table.drop(columns=["lat", "lon"]), geometry=points, crs=DEGREES)
