"""What `tools_checks` counts, and which tests that fail are run again."""

from __future__ import annotations

import os
from pathlib import Path

import pytest

import tools_checks
from repository import Count

TOOLS = Path(__file__).resolve().parent.parent / "tools"
TESTS = """\
from pathlib import Path
import pytest

def is_there(name):
    seen = Path(__file__).parent / name
    was_there = seen.exists()
    seen.touch()
    return was_there

@pytest.fixture(scope="module")
def browser():
    assert is_there("browser"), "no browser"

def test_with_a_browser_that_starts_later(browser):
    pass

def test_with_a_browser_that_answers_later(browser):
    assert is_there("answer"), "no answer"

def test_fails_once():
    assert is_there("once")

def test_passes():
    pass

def test_is_skipped():
    pytest.skip("nothing to run")
"""


def test_only_tests_in_a_browser_are_run_again(
    tmp_path: Path, monkeypatch: pytest.MonkeyPatch, capsys: pytest.CaptureFixture[str]
) -> None:
    (tmp_path / "conftest.py").write_text((TOOLS / "tests/conftest.py").read_text())
    (tmp_path / "test_late.py").write_text(TESTS)
    monkeypatch.setenv("PYTHONPATH", os.pathsep.join([str(TOOLS / "tests"), str(TOOLS / "src")]))
    monkeypatch.setattr(tools_checks, "ROOT", tmp_path)
    assert tools_checks.tested(".") == Count(3, 1, 1)
    lines = [line for line in capsys.readouterr().out.splitlines() if line.startswith("run again: ")]
    assert lines == [
        "run again: test_late.py::test_with_a_browser_that_starts_later (setup): AssertionError: no browser",
        "run again: test_late.py::test_with_a_browser_that_answers_later (call): AssertionError: no answer",
    ]


def test_a_folder_without_a_report_fails(tmp_path: Path, monkeypatch: pytest.MonkeyPatch) -> None:
    monkeypatch.setattr(tools_checks, "ROOT", tmp_path)
    assert tools_checks.tested(".", "--no-such-option") == Count(0, 1, 0)


@pytest.mark.parametrize(
    "script, absent, count",
    [("exit 0", [], Count(1)), ("exit 1", [], Count(0, 1)), ("exit 1", ["r-base-core"], Count(skipped=1))],
)
def test_the_r_package_is_one_check_or_skipped(
    script: str, absent: list[str], count: Count, tmp_path: Path, monkeypatch: pytest.MonkeyPatch
) -> None:
    (tmp_path / "r").mkdir()
    (tmp_path / "r/check.sh").write_text(f'#!/bin/sh\n[ "$*" = ttm ] && {script}\n')
    (tmp_path / "r/check.sh").chmod(0o755)
    monkeypatch.setattr(tools_checks, "ROOT", tmp_path)
    monkeypatch.setattr(tools_checks, "lacking", lambda group: absent)
    assert tools_checks.check_r_package(Path("ttm")) == count
