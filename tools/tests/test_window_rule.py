"""Windows by rule in a study, by hand."""

import re
from pathlib import Path

import pytest

from test_study import Place, place  # noqa: F401
from test_windows import DAY, WINDOWS, laid_out
from ttm_tools.study.kinds import Window
from ttm_tools.study.results.windows import overlap_by_rule
from ttm_tools.study.study_file import read_study

SHARED = 'windows = { from = "08:00", to = "08:05", every = 2, length = 3 }'


def windows_of(place: Place, rule: str) -> list[tuple[str, str, str]]:  # noqa: F811
    study = read_study(laid_out(place, DAY.replace(WINDOWS, rule)))
    return [(window.name, window.first, window.last) for window in study.run.windows]


@pytest.mark.parametrize("rest", ["", ", every = 60", ", length = 60", ", every = 60, length = 60"])
def test_a_rule_gives_nineteen_hours_from_five_to_midnight(place: Place, rest: str) -> None:  # noqa: F811
    windows = windows_of(place, f'windows = {{ from = "05:00", to = "24:00"{rest} }}')
    assert len(windows) == 19
    assert (windows[0], windows[-1]) == (("0500", "05:00", "05:59"), ("2300", "23:00", "23:59"))


@pytest.mark.parametrize(
    "rule, expected",
    [
        ('from = "08:00", to = "08:05", every = 2', ["08:00 08:01", "08:02 08:03"]),  # a third would end at 08:06
        ('from = "08:00", to = "08:06", every = 2', ["08:00 08:01", "08:02 08:03", "08:04 08:05"]),
        ('from = "08:00", to = "10:00", length = 10', ["08:00 08:09", "09:00 09:09"]),
        ('from = "08:00", to = "11:00", every = 30, length = 120', ["08:00 09:59", "08:30 10:29", "09:00 10:59"]),
        ('from = 08:00:00, to = "08:01", every = 1', ["08:00 08:00"]),
    ],
)
def test_windows_begin_every_so_often_as_long_as_a_whole_one_ends_in_time(
    place: Place, rule: str, expected: list[str]  # noqa: F811
) -> None:
    windows = windows_of(place, f"windows = {{ {rule} }}")
    assert [f"{first} {last}" for _, first, last in windows] == expected
    assert [name for name, _, _ in windows] == [text[:5].replace(":", "") for text in expected]


FORMS = "a list of tables with name, from and to, or one table with from, to, every and length"
REFUSED = {
    '{ from = "05:00", to = "24:00", every = 1 }': "windows gives 1,140 windows, and 96 are allowed; use every = 60 or "
    "a shorter day",
    '{ from = "23:00", to = "24:00", length = 90 }': "length '90' is longer than the 60 minutes from 23:00 to 24:00; "
    "allowed: 1 to 60 minutes",
    '{ from = "23:00", to = "24:00", every = 61 }': "every '61' is longer than the 60 minutes from 23:00 to 24:00; "
    "allowed: 1 to 60 minutes",
    '{ name = "a", from = "05:00", to = "06:00", every = 5 }': f"windows has every and name; allowed: {FORMS}",
    '[{ name = "a", from = "05:00", to = "06:00", every = 5 }]': f"windows has every and name; allowed: {FORMS}",
    '{ name = "a", from = "05:00", to = "06:00" }': f"windows has name; allowed: {FORMS}",
    '{ from = "05:00", to = "05:00" }': "to '05:00' is not after from",
    '{ from = "05:00", to = "24:01" }': "to '24:01' is not a time; allowed: HH:MM in quotes, 00:01 to 24:00",
    '{ from = "24:00", to = "24:00" }': "from '24:00' is not a time; allowed: HH:MM in quotes, 00:00 to 23:59",
    '{ from = "05:00", to = "06:00", every = 0 }': "every '0' is invalid; allowed: a whole number from 1 to 1,440 "
    "minutes",
    '{ from = "05:00", to = "06:00", step = 5 }': "step isn't known",
}


@pytest.mark.parametrize("rule", list(REFUSED))
def test_a_rule_that_gives_no_windows_is_refused_on_its_line(place: Place, rule: str) -> None:  # noqa: F811
    path = laid_out(place, DAY.replace(WINDOWS, f"windows = {rule}"))
    line = Path(path).read_text().splitlines().index(f"windows = {rule}") + 1
    with pytest.raises(ValueError, match=re.escape(f"nine.toml: line {line}: {REFUSED[rule]}")):
        read_study(path)


def test_windows_of_a_rule_share_departures_if_they_are_longer_than_the_time_between_them() -> None:
    apart = (Window("0800", "08:00", "08:59"), Window("0900", "09:00", "09:59"))
    shared = (Window("0800", "08:00", "09:00"), Window("0900", "09:00", "10:00"))
    named = (Window("day", "08:00", "17:59"), Window("peak", "08:00", "08:59"))
    assert [overlap_by_rule(windows) for windows in (apart, shared, named)] == [False, True, False]


def test_a_study_has_rows_for_each_window_of_its_rule(place: Place) -> None:  # noqa: F811
    """From 08:00 to 08:05, windows of three minutes each two minutes: 08:00 to 08:02, and 08:02 to 08:04."""
    study = DAY.replace(WINDOWS, SHARED)
    assert place.ran("study", laid_out(place, study))[2] == 0
    lines = Path(place.path("nine/windows/equity.csv")).read_text().splitlines()[1:]
    found = list(dict.fromkeys(tuple(line.split(",")[:4]) for line in lines))
    assert found == [
        (day, *window)
        for day in ("2026-05-04", "2026-05-05")
        for window in (("0800", "08:00", "08:02"), ("0802", "08:02", "08:04"))
    ]
    assert "Windows overlap: some departures are in more than one." in Path(place.path("nine/report.md")).read_text()
