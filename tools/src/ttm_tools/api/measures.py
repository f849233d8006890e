"""How access is spread over people: functions of frames, also for access that another program computed."""

from collections.abc import Iterator, Sequence
from dataclasses import asdict, dataclass

import geopandas
import numpy as np
import pandas

from ..core.arrays import Floats
from ..core.errors import InputError
from ..core.question import not_allowed
from ..core.scenarios import BASE, TODAY
from ..core.text import quantity
from ..core.toml_values import near
from ..measures.bands import with_at_least
from ..measures.comparison import least_change, sides_of
from ..measures.equity import equity as equity_of
from ..measures.inequality import concentration, poverty, theil
from .opportunities import numbers_in

KEYS = ("scenario", "percentile", "opportunity", "minutes")  # columns of access, apart from origin and number


@dataclass(frozen=True)
class Population:
    """People by origin: groups with an array each, in the order of the origins' frame."""

    identifiers: pandas.Index
    groups: dict[str, Floats]


def equity(
    access: pandas.DataFrame,
    origins: pandas.DataFrame,
    *,
    people: str | Sequence[str],
    by: str | None = None,
    rank: str | None = None,
    poverty_line: float | None = None,
    base: str | None = None,
    loss_percent: float = 10,
) -> pandas.DataFrame:
    """How access is spread over people.

    Parameters
    ----------
    access
        from_id, access, and any of scenario, percentile, opportunity, minutes; as `Matrix.access` returns it.
    origins
        Identifiers, and the columns that these name: `people`, numbers of people, each a group; `by`, labels that
        divide them further; `rank`, such as income, which adds `concentration`.
    people
        One column of `origins` or several.
    by
        A column of `origins`.
    rank
        A column of `origins`.
    poverty_line
        Adds fgt0, fgt1 and fgt2: people with less access are poor.
    base
        The scenario with which others are compared: today, else base, else the first.
    loss_percent
        Who loses this part of the base's access, or more, counts as a loser.

    Returns
    -------
    DataFrame
        keys of `access`, group, people, mean, median, losers_percent, gini, palma, theil, least_tenth, ..

    Examples
    --------
    >>> access = pandas.DataFrame({"from_id": [1, 2], "access": [10.0, 30.0]})
    >>> homes = pandas.DataFrame({"id": [1, 2], "people": [3, 1]})
    >>> equity(access, homes, people="people")[["group", "people", "mean"]].values.tolist()
    [['people', 4.0, 15.0]]
    """
    population = population_of(origins, people, by)
    ranks = None if rank is None else numbers_in("origins", as_frame(origins), rank)[1][:, 0]
    rows = list[dict[str, object]]()
    for keys, before, after in compared(access, population, base):
        for group, weights in population.groups.items():
            known = ~np.isnan(after) & ~np.isnan(before) & (weights > 0)
            row: dict[str, object] = {**keys, "group": group}
            if known.any():
                row |= asdict(equity_of(before[known], after[known], weights[known], loss_percent))
                row["theil"] = theil(after[known], weights[known])
                if ranks is not None:
                    row["concentration"] = concentration(after[known], weights[known], ranks[known]).concentration
                if poverty_line is not None:
                    poor = asdict(poverty(after[known], weights[known], poverty_line))
                    row |= {name: poor[name] for name in ("fgt0", "fgt1", "fgt2")}
            else:
                row["people"] = 0.0
            rows.append(row)
    return pandas.DataFrame(rows)


def people_by_band(
    access: pandas.DataFrame, origins: pandas.DataFrame, *, people: str | Sequence[str], limits: Sequence[float]
) -> pandas.DataFrame:
    """How many people have at least so many opportunities: keys of `access`, group, limit, people, percent."""
    population, rows = population_of(origins, people, None), list[dict[str, object]]()
    for keys, _, after in compared(access, population, None):
        for group, weights in population.groups.items():
            counts = with_at_least(np.nan_to_num(after), weights, list(limits))
            total = float(weights.sum())
            for limit, count in zip(limits, counts.tolist()):
                percent = 100 * count / total if total else float("nan")
                rows.append({**keys, "group": group, "limit": limit, "people": count, "percent": percent})
    return pandas.DataFrame(rows)


def access_change(access: geopandas.GeoDataFrame, scenario: str, base: str | None = None) -> geopandas.GeoDataFrame:
    """Access before and after: other keys of `access`, before, after, change, percent, what (str), geometry.

    `what` is cut off, less, same, more or newly reached.
    """
    checked_access(access)
    base = base_of(access, base)
    for name in (scenario, base):
        if name not in set(access.get("scenario", ())):
            raise not_allowed("scenario", name, ", ".join(map(str, access["scenario"].unique())))
    keys = ["from_id", *(key for key in KEYS if key in access.columns and key != "scenario")]
    first, second = (access[access["scenario"] == name] for name in (base, scenario))
    both = first.merge(second[[*keys, "access"]], on=keys, how="left", suffixes=("", "_after"), validate="one_to_one")
    before, after = both["access"].to_numpy(np.float64), both["access_after"].to_numpy(np.float64)
    sides = sides_of(before, after, least_change(before, after))
    names = ["cut off", "newly reached", "less", "more"]
    what = np.select([sides.cut_off, sides.newly_reached, sides.lose, sides.gain], names, "same")
    change = after - before
    percent = np.divide(100 * change, before, out=np.full(len(before), np.nan), where=before > 0)
    columns = {"before": before, "after": after, "change": change, "percent": percent, "what": what}
    found = both.drop(columns=["access", "access_after", "scenario"]).assign(**columns)
    order = [
        *(name for name in found.columns if name != "geometry"),
        *(["geometry"] if "geometry" in found.columns else []),
    ]
    return found[order]


def compared(
    access: pandas.DataFrame, population: Population, base: str | None
) -> Iterator[tuple[dict[str, object], Floats, Floats]]:
    """Yield the keys of each part of a table of access, and the access by origin before and now."""
    checked_access(access)
    known = population.identifiers
    lost = access["from_id"][~access["from_id"].isin(known)]
    if len(lost):
        raise InputError(
            "access",
            f"from_id is not among the origins{near(str(lost.iloc[0]), map(str, known))}",
            value=str(lost.iloc[0]),
        )
    names = [name for name in KEYS if name in access.columns]
    own = base_of(access, base) if "scenario" in names else None
    groups = (
        access.groupby(names if len(names) > 1 else names[0], sort=False, observed=True) if names else [((), access)]
    )
    by_key = {key if isinstance(key, tuple) else (key,): one for key, one in groups}
    for key, one in by_key.items():
        keys = dict(zip(names, key))
        first = by_key.get(tuple(own if name == "scenario" else value for name, value in keys.items()), one)
        yield keys, by_origin(first, known), by_origin(one, known)


def by_origin(part: pandas.DataFrame, identifiers: pandas.Index) -> Floats:
    """Return the access of each origin; NaN for one without."""
    if part["from_id"].duplicated().any():
        twice = part["from_id"][part["from_id"].duplicated()].iloc[0]
        raise InputError(
            "access", "has two rows for an origin; keep one scenario, percentile and limit", value=str(twice)
        )
    found: Floats = part.set_index("from_id")["access"].reindex(identifiers).to_numpy(np.float64)
    return found


def base_of(access: pandas.DataFrame, base: str | None) -> str:
    """Return the scenario with which others are compared."""
    names = list(map(str, access["scenario"].unique()))
    if base is not None and base not in names:
        raise not_allowed("base", base, ", ".join(names))
    return next((name for name in (base, TODAY, BASE) if name in names), names[0])


def checked_access(access: pandas.DataFrame) -> None:
    """Refuse a table without the columns of access."""
    for name in ("from_id", "access"):
        if name not in access.columns:
            raise InputError("access", "is not a column; use Matrix.access, or rename one", column=name)


def as_frame(origins: pandas.DataFrame) -> geopandas.GeoDataFrame:
    """Return a frame with an empty geometry where it has none."""
    if isinstance(origins, geopandas.GeoDataFrame):
        return origins
    return geopandas.GeoDataFrame(origins, geometry=[None] * len(origins))


def population_of(origins: pandas.DataFrame, people: str | Sequence[str], by: str | None) -> Population:
    """Return the people of each group."""
    names, numbers = numbers_in("origins", as_frame(origins), people)
    identifiers = pandas.Index(origins["id"] if "id" in origins.columns else origins.index)
    if by is None:
        return Population(identifiers, dict(zip(names, numbers.T)))
    if by not in origins.columns:
        raise InputError("origins", f"has no column{near(by, map(str, origins.columns))}", column=by)
    labels = origins[by].to_numpy()
    if pandas.isna(labels).any():
        raise InputError("origins", f"{quantity(int(pandas.isna(labels).sum()), 'row')} without a label", column=by)
    groups = {
        f"{name} {label}" if len(names) > 1 else str(label): np.where(labels == label, numbers[:, place], 0.0)
        for place, name in enumerate(names)
        for label in pandas.unique(labels)
    }
    return Population(identifiers, groups)
