"""`ttm-tools explore STUDY`: options next to the file take the place of its values, and what is not shown is said."""

from pathlib import Path
from typing import Any

import pytest

from exploring import village
from ttm_tools.cli import parser_of
from ttm_tools.cli.explore import options_of
from ttm_tools.core.errors import ArgumentError, InputError
from ttm_tools.web.options import ExploreOptions

STUDY = """\
title = "The study"
[feed]
files = ["village"]
ready = true
[run]
dates = [2026-05-04, 2026-05-09]
windows = [{ name = "peak", from = "08:05", to = "08:20" }, { name = "evening", from = "18:00", to = "18:59" }]
trips = 2
walk = 300
back = 0
shares = [25, 50]
[opportunities]
files = ["jobs.csv"]
[scenarios]
plan = "plan.toml"
[walks]
"""
PLAN = '[[scenario]]\nname = "%s"\n[[scenario.action]]\ndo = "remove_route"\nroute = "Q"\n'


@pytest.fixture
def study(tmp_path: Path) -> Path:
    village(tmp_path)
    path = tmp_path / "study.toml"
    path.write_text(STUDY + "none = true\n")
    (tmp_path / "plan.toml").write_text(PLAN % "cut")
    return path


def options(*words: str) -> ExploreOptions:
    args, _ = parser_of().parse_known_args(["explore", *words])
    return options_of(args)


def values(found: ExploreOptions) -> list[Any]:
    names = "title window trips walk back ahead shares".split()
    return [found.date.isoformat(), *(getattr(found, name) for name in names)]


def test_the_values_of_the_file_hold_where_no_option_is_given(study: Path) -> None:
    found = options(str(study))
    assert values(found) == ["2026-05-04", "The study", ("08:05", "08:20"), 2, 300, 0, 1, (25, 50)]
    assert found.plan == str(study.parent / "plan.toml") and found.footpaths is None
    assert found.opportunities == [str(study.parent / "jobs.csv")]


def test_each_option_takes_the_place_of_the_value_of_the_file(study: Path) -> None:
    """Also an option whose value is that of its default: 4 trips, 600 seconds, one day before."""
    for name in ("other.toml", "walks.csv", "schools.csv"):
        (study.parent / name).touch()
    own = {name: str(study.parent / name) for name in ("other.toml", "walks.csv", "schools.csv")}
    words = "--date 2026-05-06 --from 08:10 --to 09:00 --trips 4 --walk 600 --back 1 --ahead 2 --title T".split()
    words += ["--plan", own["other.toml"], "--footpaths", own["walks.csv"], "--opportunities", own["schools.csv"]]
    found = options(str(study), *words)
    assert values(found) == ["2026-05-06", "T", ("08:10", "09:00"), 4, 600, 1, 2, (25, 50)]
    assert (found.plan, found.footpaths) == (own["other.toml"], own["walks.csv"])
    assert found.opportunities == [own["schools.csv"]]
    assert options(str(study), "--wal=600").walk == 600
    assert options(str(study), "--to", "08:30").window == ("08:05", "08:30")
    with pytest.raises(ArgumentError, match="--to is before --from"):
        options(str(study), "--to", "08:00")


def test_what_is_not_shown_is_said(study: Path, capsys: pytest.CaptureFixture[str]) -> None:
    options(str(study))
    assert capsys.readouterr().err.splitlines() == [
        "dates: the page shows 2026-05-04, not 2026-05-09: name another with --date",
        "windows: the page begins with peak, 08:05 to 08:20, not with evening, 18:00 to 18:59: name another with "
        "--from and --to, or move its sliders",
    ]
    options(str(study), "--date", "2026-05-09", "--from", "18:00", "--to", "18:59")
    assert capsys.readouterr().err == ""
    study.write_text(study.read_text().replace('plan = "plan.toml"', 'files = ["cut.csv"]'))
    (study.parent / "cut.csv").touch()
    options(str(study), "--date", "2026-05-09", "--from", "08:06")
    said = "scenarios: the page does not show the scenario files cut.csv: name a plan with --plan\n"
    assert capsys.readouterr().err == said


def test_walks_that_an_option_names_need_none_in_the_file(study: Path) -> None:
    study.write_text(STUDY.replace("[walks]\n", ""))
    with pytest.raises(InputError, match="walks must be computed first"):
        options(str(study))
    (study.parent / "walks.csv").touch()
    for words in (["--footpaths", str(study.parent / "walks.csv")], ["--grid", "250"], ["--streets", "town.osm"]):
        assert options(str(study), *words).walk == 300
