"""Hostile use of the built program (tests/program/hostile.py): whatever the system refuses, the answer is the whole
right text, or a line and the status that belong to what was refused.
"""

from __future__ import annotations

from pathlib import Path

import pytest

import hostile


@pytest.fixture
def trial(one_build: str, tmp_path: Path, study: hostile.Study) -> hostile.Trial:
    return hostile.Trial(one_build, str(tmp_path), study.files)


@pytest.mark.parametrize("what", hostile.TOLD)
@pytest.mark.parametrize("study", hostile.STUDIES, ids=range(1, len(hostile.STUDIES) + 1))
def test_each_call_refused_in_turn(trial: hostile.Trial, study: hostile.Study, what: str, repeated: int) -> None:
    refused = trial.refuse_each(study.arguments, what)
    assert refused > 0 or what == "start"
    assert trial.failed == 0


@pytest.mark.parametrize("what", ["read", "write"])
@pytest.mark.parametrize("study", hostile.STUDIES, ids=range(1, len(hostile.STUDIES) + 1))
def test_one_byte_at_a_time(trial: hostile.Trial, study: hostile.Study, what: str) -> None:
    assert trial.refuse_each(study.arguments, what, slow=True) > 0
    assert trial.failed == 0


@pytest.mark.parametrize("what", hostile.TOLD)
def test_each_call_of_a_conversation_refused_in_turn(one_build: str, tmp_path: Path, what: str, repeated: int) -> None:
    talk = hostile.Talk(one_build, str(tmp_path))
    assert talk.refuse_each(hostile.TALK.split(), what) > 0
    assert talk.failed == 0


@pytest.mark.parametrize("what", ["read", "write"])
def test_a_conversation_by_one_byte_at_a_time(one_build: str, tmp_path: Path, what: str) -> None:
    talk = hostile.Talk(one_build, str(tmp_path))
    assert talk.refuse_each(hostile.TALK.split(), what, slow=True) > 0
    assert talk.failed == 0


@pytest.mark.parametrize("study", hostile.CUT, ids=["own files", "the small feed"])
def test_each_file_cut_short_after_every_byte(trial: hostile.Trial, study: hostile.Study) -> None:
    tried, accepted = trial.cut_each(study.arguments)
    assert 0 < accepted < tried
    assert trial.failed == 0


def test_each_call_that_takes_memory_refused_each_growth(one_build: str, tmp_path: Path, trials: Path) -> None:
    trial = hostile.Trial(one_build, str(tmp_path))
    trial.refuse_calls(str(trials))
    assert trial.passed > 0
    assert trial.failed == 0
