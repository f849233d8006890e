"""`run_study`: the study's folder, and errors of the study file."""

from pathlib import Path
from typing import Any

import pytest

import ttm_tools
from ttm_tools.study import from_python

for package in ("pandas", "h5py", "pyproj"):
    pytest.importorskip(package)


def test_a_study_is_made_in_the_folder_of_its_name(tmp_path: Path, monkeypatch: pytest.MonkeyPatch) -> None:
    made = list[tuple[Any, ...]]()
    monkeypatch.setattr(from_python, "read_study", lambda path: type("Study", (), {"path": Path(path)})())
    monkeypatch.setattr(from_python, "make_study", lambda *given: made.append(given))
    path = tmp_path / "town.toml"
    assert ttm_tools.run_study(path) == tmp_path / "town"
    assert ttm_tools.run_study(str(path), tmp_path / "own", threads=3) == tmp_path / "own"
    assert [(str(study.path), folder, means.workers) for study, folder, means in made] == [
        (str(path), tmp_path / "town", None),
        (str(path), tmp_path / "own", 3),
    ]


def test_an_error_of_a_study_names_file_and_line(tmp_path: Path) -> None:
    path = tmp_path / "town.toml"
    path.write_text("[feed]\nfolder = 1\nsize = 2\n")
    with pytest.raises(ttm_tools.InputError, match=r"town\.toml: line [0-9]+: "):
        ttm_tools.run_study(path)
