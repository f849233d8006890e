"""`Scenario`: its actions as a plan file has them, and what is refused."""

from pathlib import Path
from typing import Callable

import pytest

geopandas = pytest.importorskip("geopandas")
from shapely.geometry import Point  # noqa: E402

from ttm_tools.api.scenario import Scenario, read_plan, write_plan  # noqa: E402
from ttm_tools.core.errors import ArgumentError  # noqa: E402
from ttm_tools.plans.action_list import ACTIONS  # noqa: E402

TRAM = (
    Scenario("change")
    .remove_routes("13")
    .set_headway("10", every="5 min", start="06:00", end="20:00", direction=0)
    .add_line("T1", ["A", "B"], departures=[("05:30", "23:30", "10 min")], kmh=24, dwell="20 s", mode="tram")
)


def test_a_scenario_is_written_as_a_plan_file_has_it() -> None:
    assert (
        TRAM.to_toml()
        == """\
[[scenario]]
name = "change"

[[scenario.action]]
do = "remove_route"
route = ["13"]

[[scenario.action]]
do = "headway"
route = "10"
direction = 0
every = 300
from = "06:00:00"
to = "20:00:00"

[[scenario.action]]
do = "add_line"
route = "T1"
type = 0
stops = ["A", "B"]
speed = 24
dwell = 20
both = true
departures = [{ first = "05:30:00", last = "23:30:00", every = 600 }]
days = "daily"
"""
    )


def test_methods_return_new_scenarios() -> None:
    first = Scenario("one")
    second = first.remove_trips("t")
    assert first.actions == () and len(second.actions) == 1 and second.remove_trips("t") == second.remove_trips("t")


def test_every_method_makes_an_action_of_plans_with_its_keys() -> None:
    points = geopandas.GeoSeries([Point(0, 51), Point(0.01, 51)], crs=4326, index=["N1", "N2"])
    all_of_them = (
        TRAM.remove_modes("bus")
        .remove_trips("t1", "t2")
        .remove_stops("A", route="10")
        .shift_route("10", "-2 min", direction=1)
        .shift_trips(["t3"], "90 s")
        .double_frequency("10")
        .change_speed("10", factor=0.85, dwell="5 s", between=("A", "B"))
        .extend_route("10", points, after="B", run_times=["5 min", "5 min"])
        .cut_route("10", before="A")
    )
    done = [str(action["do"]) for action in all_of_them.actions]
    assert set(done) == set(ACTIONS)
    for action in all_of_them.actions:
        assert set(action) - {"do", "new_stops"} <= set(ACTIONS[str(action["do"])].keys)
    assert [action["seconds"] for action in all_of_them.actions if "shift" in str(action["do"])] == [-120, 90]


def test_points_become_new_stops_once(tmp_path: Path) -> None:
    points = geopandas.GeoDataFrame({"id": ["N1", "N2"]}, geometry=[Point(0, 51), Point(0.01, 51)], crs=4326)
    lines = [
        Scenario(name).add_line(name, points, departures=[("06:00", "07:00", "1 h")], kmh=20) for name in ("a", "b")
    ]
    write_plan(lines, tmp_path / "plan.toml")
    text = (tmp_path / "plan.toml").read_text()
    assert text.count("[[stop]]") == 2 and 'id = "N2"\nname = "N2"\nlat = 51.0\nlon = 0.01\n' in text
    write_plan(read_plan(tmp_path / "plan.toml"), tmp_path / "again.toml")
    assert (tmp_path / "again.toml").read_text() == text
    moved = points.set_geometry([Point(0, 51), Point(0.02, 51)], crs=4326)
    other = Scenario("c").add_line("c", moved, departures=[("06:00", "07:00", "1 h")], kmh=20)
    with pytest.raises(ArgumentError, match="stop 'N2' is at two places"):
        write_plan([*lines, other], tmp_path / "bad.toml")


def test_days_are_named_or_a_service_of_the_feed() -> None:
    def line(days: str) -> dict[str, object]:
        way = Scenario("s").add_line("T", ["A", "B"], departures=[("6:00", "7:00", "1 h")], kmh=20, days=days)
        return {key: value for key, value in way.actions[0].items() if key in ("days", "service")}

    assert line("weekdays") == {"days": "weekdays"}
    assert line("monday tuesday") == {"days": ["monday", "tuesday"]}
    assert line("school") == {"service": "school"}


def test_what_says_nothing_or_too_much_is_refused() -> None:
    base, times = Scenario("s"), [("06:00", "07:00", "1 h")]
    wrongs: list[Callable[[], object]] = [
        lambda: Scenario(""),
        lambda: base.remove_routes(),
        lambda: base.remove_modes("horse"),  # type: ignore[arg-type]
        lambda: base.change_speed("10"),
        lambda: base.cut_route("10"),
        lambda: base.cut_route("10", after="A", before="B"),
        lambda: base.add_line("T", ["A", "B"], departures=times),
        lambda: base.add_line("T", ["A", "B"], departures=times, kmh=20, run_times=["5 min"]),
        lambda: base.add_line("T", ["A", "B"], departures=[], kmh=20),
        lambda: base.set_headway("10", every="5", start="06:00", end="07:00"),
        lambda: base.set_headway("10", every="5 min", start="6", end="07:00"),
        lambda: base.shift_route("10", "0.5 s"),
    ]
    for wrong in wrongs:
        with pytest.raises(ArgumentError):
            wrong()
