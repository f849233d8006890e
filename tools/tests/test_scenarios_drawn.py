"""Drawn plans over drawn feeds, compared with the built program; `tests/program/drawn_trials.py` tries more of them."""

from pathlib import Path

import pytest

from drawn_plans import plan_differs


@pytest.mark.parametrize("seed", range(20))
def test_rows_are_those_of_the_feed_in_which_the_actions_alone_were_carried_out(
    program: str, tmp_path: Path, seed: int
) -> None:
    assert plan_differs(program, seed, tmp_path) == ""
