"""The table [results] of a study's file."""

from dataclasses import dataclass

from ..core.limits import MOST_NUMBER
from ..core.toml_values import FLAG, TEXT, ascending, number, one_of, whole
from ..measures.registry import DECAYS
from .kinds import FILE, TEXTS, flag, setting, several


@dataclass(frozen=True)
class ResultSettings:
    """Which results are written. matrix.omx, report.md, report.html and study.json always are."""

    csv: bool = flag("also matrix.csv, byte for byte that of one run of ttm")
    access: bool = flag("access.csv, and equity.csv if people are named", True)
    cutoffs: tuple[float, ...] | None = setting(
        ascending(0, 10000, "minutes", False), "limits of access.csv; without it, limits of [run]", "[15, 30, 45]"
    )
    decay: str = setting(one_of(*DECAYS), "how weights fall, as for ttm-tools access", '"logistic"', "step")
    decay_value: float | None = setting(
        number(0, 10000, "minutes"), "the parameter of linear and logistic; without it, none", "10"
    )
    nearest: tuple[float, ...] = several(
        ascending(0.000001, 1e15, "opportunities", False),
        "nearest.csv: the time within which this number is reached; equity_nearest.csv if people are named; and a map",
        "[1, 3]",
    )
    bands: tuple[float, ...] = several(
        ascending(0, 1e15, "opportunities", False),
        "bands.csv: how many people have at least this number; needs people",
        "[1000, 10000]",
    )
    nearest_bands: tuple[float, ...] = several(
        ascending(0, 10000, "minutes", False),
        "bands_nearest.csv: how many people have the nearest within these minutes; needs people and nearest",
        "[10, 20, 30]",
    )
    who_gains: bool | None = setting(
        FLAG,
        "who_gains.csv: who gains and who loses; without it, if people are named and scenarios compared",
        "true",
    )
    thresholds: tuple[float, ...] = setting(
        ascending(0.1, 100, "percent", False, 3),
        "who_gains.csv: a smaller change, in percent of the access before, counts as none",
        "[10, 25]",
        (10.0, 25.0),
    )
    gain_least: float = setting(
        number(0, 1e15, "opportunities"), "who_gains.csv: a smaller change counts as none, too", "100", 0.0
    )
    max_minutes: float | None = setting(
        number(0, 10000, "minutes"),
        "the greatest travel time: a longer one counts as not reached; without it, each counts",
        "90",
    )
    compare: bool = flag("winners and losers by origin, for each scenario", True)
    pairs: bool = flag("winners and losers by pair, for each scenario")
    differs: int = setting(whole(0, 604800, "seconds"), "a change of travel time counts above this", "60", 60)
    maps: bool = flag("pictures of access and of each scenario's difference", True)
    map_origins: tuple[str, ...] = several(TEXTS, "stops whose travel times are drawn too", '["B00170S"]')
    ground: str | None = setting(
        FILE, "a file of ttm-tools ground, to draw below maps and page; without it, none", '"ground.bin"'
    )
    isochrones: tuple[str, ...] = several(
        TEXTS, "stops or points from which areas are written, as isochrones/STOP.geojson; needs shapely", '["B00170S"]'
    )
    isochrone_bands: tuple[float, ...] = setting(
        ascending(1, 10000, "minutes", False),
        "the greatest travel times of these areas",
        "[15, 30]",
        (15.0, 30.0, 45.0, 60.0),
    )
    unit: str | None = setting(
        TEXT, "what access counts, as readers call it; without it, the name of the column", '"jobs"'
    )
    share: int | None = setting(
        whole(1, 100, "percent"), "the percentile of tables, maps and page; without it, the median or the first", "50"
    )
    within: int | None = setting(
        whole(0, MOST_NUMBER, "seconds"), "the limit of tables, maps and page; without it, the last of [run]", "1800"
    )
    cutoff: float | None = setting(number(0, 10000, "minutes"), "the same in minutes, instead of within", "30")
    page: bool = flag("page.html, to view and to send", True)
