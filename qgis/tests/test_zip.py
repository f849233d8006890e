"""The zip file of the plugin: what QGIS's plugin manager asks of it, and the same bytes each time."""

from __future__ import annotations

import configparser
import subprocess
import sys
import zipfile
from pathlib import Path

from helpers import ROOT


def packed(folder: Path) -> Path:
    """Writes the zip file to a new folder."""
    folder.mkdir()
    ran = subprocess.run(
        [sys.executable, str(ROOT / "packaging/plugin.py"), str(folder)], capture_output=True, text=True
    )
    assert ran.returncode == 0, ran.stderr
    return Path(ran.stdout.strip())


def test_the_zip_file_has_one_folder_with_its_metadata(tmp_path: Path) -> None:
    path = packed(tmp_path / "one")
    with zipfile.ZipFile(path) as file:
        names = file.namelist()
        metadata = configparser.ConfigParser(interpolation=None)
        metadata.read_string(file.read("ttm_processing/metadata.txt").decode())
    general = metadata["general"]
    assert path.name == f"ttm_processing-{general['version']}.zip"
    assert {name.split("/")[0] for name in names} == {"ttm_processing"}
    assert not [name for name in names if "test" in name or name.endswith((".pyc", ".so"))]
    needed = (
        "name",
        "qgisMinimumVersion",
        "description",
        "version",
        "author",
        "email",
        "about",
        "tracker",
        "repository",
    )
    assert all(general.get(name) for name in needed) and general["name"].isascii()
    assert general["hasProcessingProvider"] == "yes" and f"ttm_processing/{general['icon']}" in names
    icons = {f"ttm_processing/icons/{Path(name).stem}.svg" for name in names if "/algorithms/" in name}
    assert icons - set(names) == {"ttm_processing/icons/__init__.svg", "ttm_processing/icons/base.svg"}


def test_the_same_sources_give_the_same_bytes(tmp_path: Path) -> None:
    assert packed(tmp_path / "one").read_bytes() == packed(tmp_path / "two").read_bytes()
