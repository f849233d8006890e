"""The stops and routes of a feed as frames."""

import datetime
from pathlib import Path

import geopandas
import numpy as np
import pandas
from shapely.geometry import LineString, MultiLineString, Polygon, box

from ..gtfs.feeds import read_folder
from ..gtfs.modes import mode_of
from ..gtfs.service_days import days_of, runs_by_day
from ..prepare.make import PREPARED
from ..streets.osm import Streets
from .frames import DEGREES


def read_table(path: Path) -> pandas.DataFrame:
    """Read a file of a feed: all fields are texts."""
    return pandas.read_csv(path, dtype=str, keep_default_na=False, encoding_errors="surrogateescape")


def stops_of(folder: Path) -> geopandas.GeoDataFrame:
    """Return the stops of a feed as points, by `stop_id`, with the feed's own columns."""
    table = read_table(folder / "stops.txt").set_index("stop_id")
    east, north = (pandas.to_numeric(table[name], errors="coerce") for name in ("stop_lon", "stop_lat"))
    points = geopandas.GeoSeries(geopandas.points_from_xy(east, north), index=table.index, crs=DEGREES)
    return geopandas.GeoDataFrame(table, geometry=points)


def routes_of(folder: Path, stops: geopandas.GeoDataFrame) -> geopandas.GeoDataFrame:
    """Return the routes of a feed as lines, by `route_id`, with the feed's own columns and `mode`."""
    routes = read_table(folder / "routes.txt").set_index("route_id")
    trips = read_table(folder / "trips.txt")
    if (folder / "shapes.txt").is_file() and "shape_id" in trips.columns:
        lines = shape_lines(folder, trips)
    else:
        lines = stop_lines(folder, trips, stops)
    shapes = [MultiLineString(lines.get(route, [])) for route in routes.index]
    kinds = pandas.to_numeric(routes["route_type"], errors="coerce").fillna(-1).astype(int)
    return geopandas.GeoDataFrame(routes.assign(mode=[mode_of(kind) for kind in kinds]), geometry=shapes, crs=DEGREES)


def shape_lines(folder: Path, trips: pandas.DataFrame) -> dict[str, list[LineString]]:
    """Return the shapes of each route."""
    points = read_table(folder / "shapes.txt")
    numbers = ["shape_pt_sequence", "shape_pt_lat", "shape_pt_lon"]
    points[numbers] = points[numbers].apply(pandas.to_numeric, errors="coerce")
    points = points.dropna(subset=numbers).sort_values(["shape_id", "shape_pt_sequence"], kind="stable")
    lines = {name: some[["shape_pt_lon", "shape_pt_lat"]].to_numpy() for name, some in points.groupby("shape_id")}
    pairs = trips[["route_id", "shape_id"]].drop_duplicates()
    found: dict[str, list[LineString]] = {}
    for route, shape in pairs.itertuples(index=False):
        if shape in lines and len(lines[shape]) > 1:
            found.setdefault(route, []).append(LineString(lines[shape]))
    return found


def stop_lines(folder: Path, trips: pandas.DataFrame, stops: geopandas.GeoDataFrame) -> dict[str, list[LineString]]:
    """Return straight lines from stop to stop, one for each sequence of stops of a route."""
    calls = pandas.read_csv(folder / "stop_times.txt", dtype=str, usecols=["trip_id", "stop_id", "stop_sequence"])
    calls["stop_sequence"] = pandas.to_numeric(calls["stop_sequence"])
    calls = calls.sort_values(["trip_id", "stop_sequence"], kind="stable")
    ways = calls.groupby("trip_id", sort=False)["stop_id"].agg(tuple)
    pairs = pandas.DataFrame({"route": trips.set_index("trip_id")["route_id"], "way": ways}).dropna().drop_duplicates()
    where = np.stack([stops.geometry.x, stops.geometry.y], axis=1)
    places = {name: place for place, name in enumerate(stops.index)}
    found: dict[str, list[LineString]] = {}
    for route, way in pairs.itertuples(index=False):
        line = where[[places[name] for name in way if name in places]]
        line = line[~np.isnan(line).any(axis=1)]
        if len(line) > 1:
            found.setdefault(route, []).append(LineString(line))
    return found


def extent_of(stops: geopandas.GeoDataFrame, streets: Streets | None) -> Polygon:
    """Return the rectangle around stops and streets, in degrees."""
    east, north = [stops.geometry.x.to_numpy()], [stops.geometry.y.to_numpy()]
    if streets is not None:
        east.append(streets.longitudes)
        north.append(streets.latitudes)
    across, up = np.concatenate(east), np.concatenate(north)
    return box(np.nanmin(across), np.nanmin(up), np.nanmax(across), np.nanmax(up))


def read_repairs(folder: Path) -> pandas.DataFrame:
    """Return what was repaired in a prepared feed: file, record, column, value, rule, result."""
    found = pandas.read_csv(folder / PREPARED, dtype=str, keep_default_na=False)
    return found.rename(columns={"done": "result"}).astype({"record": np.int64})


def trips_by_date_of(folder: Path) -> pandas.Series:
    """Return the number of trips of each day from the first to the last on which one runs."""
    feed = read_folder(folder, ())
    days = days_of(feed)
    runs = runs_by_day(feed, days)
    served = np.flatnonzero(runs)
    if not len(served):
        return pandas.Series([], index=pandas.DatetimeIndex([], name="date"), dtype=np.int64, name="trips")
    span = slice(int(served[0]), int(served[-1]) + 1)
    first = datetime.date.fromordinal(days.first + span.start)
    index = pandas.date_range(first, periods=span.stop - span.start, name="date")
    return pandas.Series(runs[span], index=index, name="trips")
