"""`Question`: its checks, its defaults, and that commands, studies, page and r5py's names take theirs from it."""

import datetime as dt
import pickle
from dataclasses import fields

import pytest

from ttm_tools.api.asking import walking_of
from ttm_tools.core.errors import ArgumentError
from ttm_tools.core.question import (
    DAYS_AFTER,
    DAYS_BEFORE,
    MAX_RIDES,
    MAX_WALK,
    PERCENTILES,
    Question,
    travel_seconds,
    walk_seconds,
    window_of,
)
from ttm_tools.core.times import as_duration, duration_seconds

MORNING = Question("2026-05-04", "08:00", "08:59")


def test_times_and_durations_are_stored_in_one_form_however_they_are_given() -> None:
    given = Question(dt.date(2026, 5, 4), dt.time(8), dt.time(8, 59), [50], dt.timedelta(minutes=10))
    assert given == MORNING == Question("20260504", "08:00", "08:59", max_walk="600 s")
    assert (given.date, given.first, given.last, given.max_walk) == ("2026-05-04", "08:00", "08:59", "10 min")
    assert hash(given) == hash(MORNING)


def test_durations_are_read_with_their_units() -> None:
    texts = ["15 min", "1 h 30 min", "1h30min", "90 s", "-2 min", "1.5 hours", "2 minutes", "0 s"]
    assert [duration_seconds(text) for text in texts] == [900, 5400, 5400, 90, -120, 5400, 120, 0]
    assert [as_duration(seconds) for seconds in (900, 90, 0, 0.5)] == ["15 min", "90 s", "0 min", "0.5 s"]
    for text in ("15", "", "min", "15 m 3", "15 parsecs", "5 min -3 s", "--3 s"):
        with pytest.raises(ValueError):
            duration_seconds(text)


def test_departures_are_one_each_minute_with_the_last_included() -> None:
    assert [str(time) for time in Question("2026-05-04", "23:58", "23:59").departures] == [
        "2026-05-04 23:58:00",
        "2026-05-04 23:59:00",
    ]
    assert len(MORNING.departures) == 60
    assert len(Question("2026-05-04", "08:00").departures) == 1
    assert window_of(Question("2026-05-04", "08:00")) == ("08:00", "08:00")


def test_a_departure_and_a_window_are_taken_as_r5py_and_r5r_take_them() -> None:
    start = dt.datetime(2026, 5, 4, 8)
    assert Question.starting(start) == MORNING
    assert Question.starting(start, dt.timedelta(minutes=1)).last == "08:00"
    assert Question.starting(dt.datetime(2026, 5, 4, 23), "1 h", max_rides=2) == Question(
        "2026-05-04", "23:00", "23:59", max_rides=2
    )
    for departure, window in [
        (start.replace(tzinfo=dt.timezone.utc), "1 h"),
        (start.replace(second=1), "1 h"),
        (start.replace(hour=23), "61 min"),
        (start, "90 s"),
        (start, "0 min"),
        (start, 60),
        ("2026-05-04 08:00", "1 h"),
    ]:
        with pytest.raises(ArgumentError):
            Question.starting(departure, window)  # type: ignore[arg-type]


def test_numbers_are_in_their_units() -> None:
    question = MORNING.replace(max_walk="15 min", max_travel="90 min", walking_kmh=3.6)
    assert (walk_seconds(question), travel_seconds(question), walking_of(question).speed) == (900, 5400, 1.0)
    assert travel_seconds(MORNING) is None


@pytest.mark.parametrize(
    ("setting", "value", "allowed"),
    [
        ("date", "4 May", "YYYYMMDD or YYYY-MM-DD"),
        ("date", 20260504, "YYYYMMDD or YYYY-MM-DD"),
        ("date", dt.datetime(2026, 5, 4, 8), "YYYYMMDD or YYYY-MM-DD"),
        ("first", "8:00", "00:00 to 23:59"),
        ("first", "24:00", "00:00 to 23:59"),
        ("last", dt.time(8, 0, 30), "00:00 to 23:59"),
        ("last", "07:59", "a window within one day"),
        ("percentiles", (0,), "from 1 to 100"),
        ("percentiles", (101,), "from 1 to 100"),
        ("percentiles", (50, 50), "different"),
        ("percentiles", (), "one to 8"),
        ("percentiles", range(1, 10), "one to 8"),
        ("percentiles", 50, "one to 8"),
        ("percentiles", "50", "one to 8"),
        ("percentiles", (50.5,), "whole numbers"),
        ("max_walk", 15, "a unit"),
        ("max_walk", "15", "a unit"),
        ("max_walk", "2 h 1 s", "from 0 min to 120 min"),
        ("max_walk", "-1 s", "from 0 min to 120 min"),
        ("max_walk", "0.5 s", "whole seconds"),
        ("max_rides", 9, "0 to 8 vehicles"),
        ("max_rides", True, "0 to 8 vehicles"),
        ("max_rides", 2.0, "0 to 8 vehicles"),
        ("max_travel", "0 s", "from 1 s"),
        ("max_travel", 30, "a unit"),
        ("walking_kmh", 0, "0.1 to 50 km/h"),
        ("walking_kmh", float("nan"), "0.1 to 50 km/h"),
        ("walking_kmh", "5", "0.1 to 50 km/h"),
        ("detour", 0.9, "1 to 100"),
        ("days_before", 7, "0 to 6 days"),
        ("days_after", -1, "0 to 6 days"),
    ],
)
def test_what_is_not_allowed_is_refused_by_name(setting: str, value: object, allowed: str) -> None:
    with pytest.raises(ArgumentError, match=allowed) as refused:
        MORNING.replace(**{setting: value})
    assert str(refused.value).startswith(f"{setting} is ")


def test_numbers_of_numpy_become_plain_ones() -> None:
    numpy = pytest.importorskip("numpy")
    question = MORNING.replace(percentiles=numpy.array([75, 25]), max_rides=numpy.int64(2))
    assert question.percentiles == (25, 75) and type(question.max_rides) is int
    assert type(question.percentiles[0]) is int


def test_a_question_is_made_again_from_its_settings() -> None:
    question = Question("2026-05-04", "08:00", percentiles=(10, 90), max_travel="1 h", days_after=0)
    assert Question(**question.to_dict()) == question == pickle.loads(pickle.dumps(question))  # type: ignore[arg-type]
    assert question.to_dict()["percentiles"] == [10, 90]


def test_defaults_are_those_of_commands_studies_explore_and_the_engine() -> None:
    from ttm_tools.cli.options import Parser
    from ttm_tools.engine.arguments import EngineArguments
    from ttm_tools.web.options import ExploreOptions
    from ttm_tools.study.settings import RunSettings

    parser = Parser()
    parser.add_journeys()
    parser.add_days_that_count()
    command = vars(parser.parse_args([]))
    settings = {setting.option: setting.default for setting in (MAX_WALK, MAX_RIDES, DAYS_BEFORE, DAYS_AFTER)}
    assert command == settings == {"walk": 600, "trips": 4, "back": 1, "ahead": 1}
    for kind in (RunSettings, ExploreOptions, EngineArguments):
        defaults = {field.name: field.default for field in fields(kind)}
        assert {name: defaults[name] for name in settings} == settings
    assert (walk_seconds(MORNING), MORNING.max_rides, MORNING.days_before, MORNING.days_after) == (600, 4, 1, 1)
    assert MORNING.percentiles == (PERCENTILES.default,)
