"""Access to opportunities, as frames."""

from collections.abc import Callable, Iterator, Sequence
from typing import Any, Literal

import geopandas
import numpy as np
import pandas

from ..core.arrays import Floats, Places, Seconds
from ..core.errors import InputError
from ..core.question import not_allowed
from ..core.toml_values import near
from ..measures.access import access, completing
from ..measures.competition import Market, competition
from ..measures.registry import COMPETITIONS, OPPORTUNITIES, PLACES
from .chosen import MatrixPart
from .decay import Decay, weighting_of

Counted = Literal["opportunities", "places"]  # what a count of the nearest counts


def numbers_in(argument: str, frame: geopandas.GeoDataFrame, names: str | Sequence[str]) -> tuple[list[str], Floats]:
    """Return columns of numbers from 0 on, of shape (rows, columns)."""
    listed = [names] if isinstance(names, str) else list(names)
    known = [name for name in frame.columns if name not in ("id", frame.geometry.name)]
    for name in listed:
        if name not in frame.columns:
            raise InputError(argument, f"has no column{near(str(name), map(str, known))}", column=str(name))
    numbers = np.empty((len(frame), len(listed)))
    for place, name in enumerate(listed):
        values = pandas.to_numeric(frame[name], errors="coerce").to_numpy(np.float64)
        bad = np.flatnonzero(~(values >= 0) | np.isinf(values))
        if len(bad):
            value, allowed = str(frame[name].iloc[bad[0]]), "a number from 0 on"
            raise InputError(argument, f"is invalid in row {bad[0]}", column=name, value=value, allowed=allowed)
        numbers[:, place] = values
    return listed, numbers


def checked_minutes(minutes: Sequence[float]) -> list[float]:
    """Return limits in minutes; there must be one at least."""
    listed = [float(minutes)] if isinstance(minutes, (int, float)) else [float(one) for one in minutes]
    if not listed or not all(0 <= one < np.inf for one in listed):
        raise not_allowed("minutes", minutes, "one or more numbers from 0 on")
    return listed


def by_origin(part: MatrixPart, columns: dict[str, Any], values: dict[str, Any]) -> geopandas.GeoDataFrame:
    """Return a frame with the places of the origins; `columns` before `from_id`, `values` behind it."""
    repeats = len(next(iter(values.values()))) // len(part.origins)
    ids = np.tile(part.origins["id"].to_numpy(), repeats)
    shapes = np.tile(part.origins.geometry.to_numpy(), repeats)
    return geopandas.GeoDataFrame({**columns, "from_id": ids, **values}, geometry=shapes, crs=part.origins.crs)


def in_frames(part: MatrixPart, one: Callable[[str, int], geopandas.GeoDataFrame]) -> geopandas.GeoDataFrame:
    """Return the frames of all scenarios and percentiles as one."""
    frames = [one(*key) for key in part.keys()]
    return geopandas.GeoDataFrame(pandas.concat(frames, ignore_index=True), crs=part.origins.crs)


def seconds_by_block(part: MatrixPart, scenario: str, percentile: int) -> Iterator[Seconds]:
    """Yield the travel times of all origins, some rows at a time."""
    return (part.seconds(scenario, percentile, rows) for rows in part.blocks())


def access_frame(
    part: MatrixPart, opportunities: str | Sequence[str], minutes: Sequence[float], decay: Decay
) -> geopandas.GeoDataFrame:
    """Return weighted sums of opportunities: see `Matrix.access`."""
    names, numbers = numbers_in("destinations", part.destinations, opportunities)
    cutoffs, weighting = checked_minutes(minutes), weighting_of(decay)

    def sums(scenario: str, percentile: int) -> geopandas.GeoDataFrame:
        blocks = seconds_by_block(part, scenario, percentile)
        found = np.concatenate([access(seconds, numbers, weighting, cutoffs) for seconds in blocks])
        frames = [
            by_origin(
                part,
                {"scenario": scenario, "percentile": percentile},
                {
                    "opportunity": [name] * len(found),
                    "minutes": [cutoff] * len(found),
                    "access": found[:, column, place],
                },
            )
            for column, name in enumerate(names)
            for place, cutoff in enumerate(cutoffs)
        ]
        return pandas.concat(frames, ignore_index=True)

    return in_frames(part, sums)


def counted_in(
    part: MatrixPart, opportunity: str | None, count: float, counted: str
) -> tuple[dict[str, str | float], Floats]:
    """Return the columns that say what is counted, and the number of each destination."""
    if not 1 <= count < np.inf:
        raise not_allowed("count", count, "1 or more")
    if counted not in (OPPORTUNITIES, PLACES):
        raise not_allowed("counted", counted, f"{OPPORTUNITIES}, {PLACES}")
    if opportunity is None:
        return {"opportunity": PLACES, "counted": PLACES, "count": count}, np.ones(len(part.destinations))
    numbers = numbers_in("destinations", part.destinations, opportunity)[1][:, 0]
    about: dict[str, str | float] = {"opportunity": opportunity, "counted": counted, "count": count}
    return about, (numbers > 0).astype(np.float64) if counted == PLACES else numbers


def nearest_frame(part: MatrixPart, opportunity: str | None, count: float, counted: str) -> geopandas.GeoDataFrame:
    """Return the time until a count is reached, and the destination that completes it: see `Matrix.nearest`."""
    sought, numbers = counted_in(part, opportunity, count, counted)
    ends = part.destinations["id"]

    def times(scenario: str, percentile: int) -> geopandas.GeoDataFrame:
        blocks = seconds_by_block(part, scenario, percentile)
        pieces = [completing(seconds, numbers[:, None], [count]) for seconds in blocks]
        place, found, ties = (np.concatenate(column)[:, 0, 0] for column in zip(*pieces))
        to_id = pandas.Series(ends.to_numpy()[np.maximum(place, 0)]).where(place >= 0)
        about = {"scenario": scenario, "percentile": percentile}
        repeated = {name: [value] * len(found) for name, value in sought.items()}
        return by_origin(part, about, {**repeated, "to_id": to_id.to_numpy(), "seconds": found, "ties": ties})

    return in_frames(part, times)


def ties_frame(part: MatrixPart, opportunity: str | None, count: float, counted: str) -> geopandas.GeoDataFrame:
    """Return all destinations that are equally near, where several are: see `Matrix.nearest_ties`."""
    sought, numbers = counted_in(part, opportunity, count, counted)
    ends = part.destinations["id"].to_numpy()

    def tied(scenario: str, percentile: int) -> geopandas.GeoDataFrame:
        rows, columns, times, begin = list[Places](), list[Places](), list[Floats](), 0
        for seconds in seconds_by_block(part, scenario, percentile):
            _, found, ties = (array[:, 0, 0] for array in completing(seconds, numbers[:, None], [count]))
            there = (seconds == found[:, None]) & (numbers > 0) & (ties > 0)[:, None]
            row, column = np.nonzero(there)
            rows.append(row + begin)
            columns.append(column)
            times.append(found[row].astype(np.float64))
            begin += len(seconds)
        column, found, origins = np.concatenate(columns), np.concatenate(times), part.origins.iloc[np.concatenate(rows)]
        about = {"scenario": scenario, "percentile": percentile, "from_id": origins["id"].to_numpy(), **sought}
        columns_found = {**about, "to_id": ends[column], "seconds": found}
        return geopandas.GeoDataFrame(columns_found, geometry=origins.geometry.to_numpy(), crs=part.origins.crs)

    return in_frames(part, tied)


def competition_frame(
    part: MatrixPart, columns: tuple[str, str], minutes: Sequence[float], method: str, decay: Decay
) -> geopandas.GeoDataFrame:
    """Return access where people compete: see `Matrix.competition`."""
    if method not in COMPETITIONS:
        raise not_allowed("method", method, ", ".join(COMPETITIONS))
    supply, demand = columns
    supplied = numbers_in("destinations", part.destinations, supply)[1][:, 0]
    people = numbers_in("origins", part.origins, demand)[1][:, 0]
    cutoffs, weighting = checked_minutes(minutes), weighting_of(decay)

    market = Market(method, supplied[:, None], people, weighting)

    def shares(scenario: str, percentile: int) -> geopandas.GeoDataFrame:
        found = competition(lambda: seconds_by_block(part, scenario, percentile), market, cutoffs)[:, 0]
        frames = []
        for place, cutoff in enumerate(cutoffs):
            about = {"opportunity": [supply] * len(found), "minutes": [cutoff] * len(found), "access": found[:, place]}
            frames.append(by_origin(part, {"scenario": scenario, "percentile": percentile}, about))
        return pandas.concat(frames, ignore_index=True)

    return in_frames(part, shares)
