"""The programs are found, checked, and run without what QGIS sets for itself."""

from __future__ import annotations

import os
from pathlib import Path
from typing import Any

import pytest

from ttm_processing import programs


def script(folder: Path, name: str, version: str) -> str:
    """Writes a program that prints its version, and the names of its variables on standard error."""
    folder.mkdir(parents=True, exist_ok=True)
    path = folder / name
    path.write_text(f'#!/bin/sh\necho "{name} {version}"\n')
    path.chmod(0o755)
    return str(path)


@pytest.fixture(autouse=True)
def no_programs(monkeypatch: pytest.MonkeyPatch, tmp_path: Path) -> None:
    for variable in ("TTM_TOOLS", "TTM_PROGRAM"):
        monkeypatch.delenv(variable, raising=False)
    monkeypatch.setattr(programs, "folders", lambda: [str(tmp_path / "empty"), str(tmp_path / "path")])


def test_a_setting_comes_before_the_variable_and_the_path(monkeypatch: pytest.MonkeyPatch, tmp_path: Path) -> None:
    paths = [script(tmp_path / folder, "ttm-tools", "2.1.0") for folder in ("set", "variable", "path")]
    assert programs.find("ttm-tools") == paths[2]
    monkeypatch.setenv("TTM_TOOLS", paths[1])
    assert programs.find("ttm-tools") == paths[1]
    assert programs.find("ttm-tools", paths[0]) == paths[0]
    with pytest.raises(programs.MissingProgram, match="nowhere is not a program"):
        programs.find("ttm-tools", str(tmp_path / "nowhere"))


def test_the_engine_is_looked_for_next_to_the_tools(tmp_path: Path) -> None:
    tools = script(tmp_path / "path", "ttm-tools", "2.1.0")
    engine = script(tmp_path / "path", "ttm", "2.1.3")
    other = script(tmp_path / "empty", "ttm", "2.1.0")
    assert other and programs.find_programs() == programs.Programs(tools, engine)


def test_an_older_program_is_refused(tmp_path: Path) -> None:
    path = script(tmp_path / "path", "ttm-tools", "2.0.9")
    script(tmp_path / "path", "ttm", "2.1.0")
    with pytest.raises(programs.MissingProgram, match=f"{path} has version 2.0.9, this plugin needs 2.1.0 or later"):
        programs.find_programs()


def test_a_program_that_fails_is_refused(tmp_path: Path) -> None:
    path = Path(script(tmp_path / "path", "ttm-tools", "2.1.0"))
    script(tmp_path / "path", "ttm", "2.1.0")
    path.write_text("#!/bin/sh\necho no numpy >&2; exit 1\n")
    with pytest.raises(programs.MissingProgram, match="does not run: no numpy"):
        programs.find_programs()


def test_a_child_inherits_nothing_that_qgis_sets(monkeypatch: pytest.MonkeyPatch) -> None:
    for name in programs.OF_QGIS:
        monkeypatch.setenv(name, "/nowhere")
    found = programs.environment({"TTM_PROGRAM": "x"})
    assert not set(programs.OF_QGIS) & set(found)
    assert found["TTM_PROGRAM"] == "x" and found["HOME"] == os.environ["HOME"]


def test_without_programs_algorithms_stay_and_say_what_to_install(qgis: Any) -> None:
    from qgis.core import QgsApplication

    algorithm = QgsApplication.processingRegistry().createAlgorithmById("ttm:traveltimes")
    can, message = algorithm.canExecute()
    assert not can
    assert "no program ttm-tools is installed. Install the wheel (pip install --user" in message


def test_the_setting_of_the_provider_counts(qgis: Any, tmp_path: Path) -> None:
    from processing.core.ProcessingConfig import ProcessingConfig
    from ttm_processing import provider

    tools, engine = (script(tmp_path / "set", name, "2.1.0") for name in ("ttm-tools", "ttm"))
    ProcessingConfig.setSettingValue(provider.TOOLS, tools)
    try:
        assert provider.programs() == programs.Programs(tools, engine)
        ProcessingConfig.setSettingValue(provider.THREADS, 3)
        assert provider.threads() == 3
    finally:
        ProcessingConfig.setSettingValue(provider.TOOLS, "")
        ProcessingConfig.setSettingValue(provider.THREADS, 0)
    assert 1 <= provider.threads() <= 64
