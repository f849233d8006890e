"""Who gains and who loses access by group, by values worked out by hand."""

from typing import Any

import pytest

pandas = pytest.importorskip("pandas")
pytest.importorskip("geopandas")

from ttm_tools import who_gains  # noqa: E402
from ttm_tools.core.errors import ArgumentError, InputError  # noqa: E402

HOMES = pandas.DataFrame(
    {"id": [1, 2, 3, 4], "people": [30, 20, 10, 40], "old": [3, 0, 0, 1], "income": ["low", "low", "high", "high"]}
)
COUNTS = ["people", "people_gain", "people_lose", "people_unchanged"]


def access(tram: list[float], today: list[float] = [100, 100, 0]) -> Any:
    """Jobs from three of the four places; the fourth is off the network."""
    columns = {"scenario": ["today"] * 3 + ["tram"] * 3, "from_id": [1, 2, 3] * 2, "access": [*today, *tram]}
    return pandas.DataFrame(columns)


def test_gains_and_losses_by_group_and_threshold() -> None:
    found = who_gains(access([110, 75, 4]), HOMES, people="people", by="income", thresholds=[10, 25])
    assert found["group"].tolist() == ["low", "low", "high", "high", "all", "all"]
    # 30 gain exactly a tenth, 20 lose exactly a quarter, 10 had nothing and gain at each threshold, 40 are off
    assert found[COUNTS].values.tolist() == [
        [50, 30, 20, 0],
        [50, 0, 20, 30],
        [50, 10, 0, 40],
        [50, 10, 0, 40],
        [100, 40, 20, 40],
        [100, 10, 20, 70],
    ]
    assert found["gain_percent"].tolist() == [60, 0, 20, 20, 40, 10]
    assert found["lose_percent"].tolist() == [40, 40, 0, 0, 20, 20]
    every = found.iloc[4]
    # 30 * 100 + 20 * 100 of 100 people; 30 * 110 + 20 * 75 + 10 * 4
    assert (every["mean_before"], every["mean_after"]) == (50, 48.4)
    assert every["mean_change"] == pytest.approx(-1.6) and every["mean_percent"] == pytest.approx(-3.2)
    assert found["mean_percent"].isna().tolist() == [False, False, True, True, False, False]
    assert found.loc[0, ["scenario", "base"]].tolist() == ["tram", "today"]


def test_a_change_below_the_least_counts_as_none() -> None:
    found = who_gains(access([110, 75, 4]), HOMES, people="people", thresholds=[10], least=5)
    assert found[COUNTS].values.tolist() == [[100, 30, 20, 50]] * 2
    assert who_gains(access([110, 75, 4]), HOMES, people="people", base="tram")["people_gain"].tolist()[0] == 20


def test_everyone_is_a_named_group_or_the_sum() -> None:
    both: dict[str, Any] = {"people": ["people", "old"], "thresholds": [10]}
    message = "people is nowhere smaller than old, and may count everyone: set all='people', or all='sum'"
    with pytest.raises(ArgumentError, match=message):
        who_gains(access([110, 75, 4]), HOMES, **both)
    for named, people in (("people", 100), ("sum", 104)):
        found = who_gains(access([110, 75, 4]), HOMES, all=named, **both)
        assert found["group"].tolist() == ["people", "old", "all"] and found["people"].tolist() == [100, 4, people]


def test_wrong_arguments_and_tables_are_refused() -> None:
    good = access([110, 75, 4])
    with pytest.raises(ArgumentError, match=r"thresholds is \[25, 10\]; allowed: 1 to 3 numbers, 0.1 to 100 percent"):
        who_gains(good, HOMES, people="people", thresholds=[25, 10])
    bad: list[list[float]] = [[], [0.05], [1, 2, 3, 4], [101]]
    for wrong in bad:
        with pytest.raises(ArgumentError, match="thresholds is"):
            who_gains(good, HOMES, people="people", thresholds=wrong)
    with pytest.raises(ArgumentError, match="least is -1; allowed: a number from 0"):
        who_gains(good, HOMES, people="people", least=-1)
    with pytest.raises(ArgumentError, match="all is 'old'; allowed: people, sum"):
        who_gains(good, HOMES, people="people", all="old")
    with pytest.raises(InputError, match="has one scenario"):
        who_gains(good.iloc[:3], HOMES, people="people")
    with pytest.raises(InputError, match="1 origin in one of base and scenario alone"):
        who_gains(good.iloc[:5], HOMES, people="people")
