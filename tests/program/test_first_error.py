"""The second program's first errors (`first_error.py`) against those that were found by hand."""

from __future__ import annotations

from operator import attrgetter
from pathlib import Path

import pytest

import fault_cases
import study_cases
from first_error import first_error
from study_cases import Case
from test_studies import lay_out

# the second program doesn't count walks and stop times of networks
TOO_LARGE = ("ttm: too many footpaths\n", "ttm: scenario base: network too large\n")
CASES = [case for case in [*study_cases.CASES, *fault_cases.CASES] if case.tells not in TOO_LARGE]


@pytest.mark.parametrize("case", CASES, ids=attrgetter("name"))
def test_the_first_error_is_the_one_found_by_hand(tmp_path: Path, monkeypatch: pytest.MonkeyPatch, case: Case) -> None:
    arguments = lay_out(case, tmp_path)
    monkeypatch.chdir(tmp_path)
    assert first_error(arguments) == (case.tells or None)
