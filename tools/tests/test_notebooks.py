"""The notebooks of docs/notebooks: one page each, of public names; they run, and show what their files show."""

import ast
import os
import sys
from pathlib import Path
from typing import Any

import pytest

nbformat = pytest.importorskip("nbformat")
FOLDER = Path(__file__).resolve().parents[2] / "docs" / "notebooks"
if not FOLDER.is_dir():
    pytest.skip("without docs/notebooks", allow_module_level=True)
NAMES = sorted(path.stem for path in FOLDER.glob("*.ipynb"))
MOST_LINES = 75  # of a notebook, its texts and blank lines counted
PACKAGES = ("geopandas", "osmium", "scipy", "h5py", "jinja2", "matplotlib", "rtree")


def stored(name: str) -> Any:
    return nbformat.read(FOLDER / f"{name}.ipynb", as_version=4)


def texts_of(notebook: Any) -> list[list[str]]:
    """What each cell of code prints or returns, as text; a picture by its kind alone, since fonts differ."""
    return [
        [
            "picture" if "image/png" in output.get("data", {}) else output.get("text") or output["data"]["text/plain"]
            for output in cell.outputs
        ]
        for cell in notebook.cells
        if cell.cell_type == "code"
    ]


def test_there_are_five() -> None:
    assert NAMES == [
        "a-plan",
        "access-and-equity",
        "coming-from-r5py",
        "first-matrix",
        "who-can-reach-this-place",
    ]


@pytest.mark.parametrize("name", NAMES)
def test_each_is_a_page_of_public_names_with_a_picture(name: str) -> None:
    notebook = stored(name)
    assert notebook.cells[0].source.startswith("# ")
    assert sum(cell.source.count("\n") + 2 for cell in notebook.cells) <= MOST_LINES
    code = "\n".join(cell.source for cell in notebook.cells if cell.cell_type == "code")
    imported = [node for node in ast.walk(ast.parse(code)) if isinstance(node, (ast.Import, ast.ImportFrom))]
    modules = {getattr(node, "module", None) or node.names[0].name for node in imported}
    assert modules <= {"ttm_tools", "datetime"} and "._" not in code
    assert sum(shown.count("picture") for shown in texts_of(notebook)) == 1


@pytest.mark.parametrize("name", NAMES)
def test_each_runs_and_shows_what_its_file_shows(
    name: str, program: str, tmp_path: Path, monkeypatch: pytest.MonkeyPatch
) -> None:
    for package in ("nbclient", "ipykernel", *PACKAGES):
        pytest.importorskip(package)
    from nbclient.client import NotebookClient

    monkeypatch.setenv("TTM_PROGRAM", program)
    monkeypatch.setenv("TTM_CACHE", str(tmp_path / "cache"))
    monkeypatch.setenv("PYTHONPATH", os.pathsep.join(sys.path))
    notebook = stored(name)
    expected = texts_of(notebook)
    room = tmp_path / "room"
    room.mkdir()
    NotebookClient(notebook, timeout=600, kernel_name="python3", resources={"metadata": {"path": str(room)}}).execute()
    assert texts_of(notebook) == expected
