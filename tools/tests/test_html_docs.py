"""`ttm-tools docs`: where the documentation is found, and what opens."""

import webbrowser
from pathlib import Path

import pytest

from helpers import Room
from ttm_tools.cli import docs


@pytest.fixture
def folder(room: Room, monkeypatch: pytest.MonkeyPatch) -> Path:
    """A folder with the documentation, after one without it."""
    folder = room.folder / "html"
    (folder / "docs").mkdir(parents=True)
    monkeypatch.setattr(docs, "places", lambda: iter([room.folder / "none", folder]))
    return folder


@pytest.fixture
def opened(monkeypatch: pytest.MonkeyPatch) -> list[str]:
    """The addresses that a browser opens."""
    addresses: list[str] = []
    monkeypatch.setattr(webbrowser, "open", addresses.append)
    return addresses


def test_the_documentation_opens_in_a_browser(room: Room, folder: Path, opened: list[str]) -> None:
    index = folder / "docs" / "README.html"
    index.touch()
    assert room.ran("docs") == (f"{index}\n", "", 0)
    assert opened == [index.as_uri()]


def test_the_path_alone_opens_nothing(room: Room, folder: Path, opened: list[str]) -> None:
    (folder / "docs" / "README.html").touch()
    assert room.ran("docs", "--path") == (f"{folder}/docs/README.html\n", "", 0)
    assert opened == []


def test_a_missing_documentation_is_one_line(room: Room, folder: Path, opened: list[str]) -> None:
    out, error, status = room.ran("docs")
    assert (out, status, opened) == ("", 1, [])
    assert error.startswith("ttm-tools docs: the documentation isn't installed: ") and error.count("\n") == 1


def test_a_wheel_a_package_and_a_clone_have_their_places() -> None:
    package = Path(docs.__file__).parents[1]
    html = ["data/html", f"{package.parents[3]}/share/doc/ttm/html", f"{package.parents[2]}/packaging/out/html"]
    assert [str(place) for place in docs.places()] == [str(package / place) for place in html]


def test_the_sample_is_written_where_it_is_wanted(
    room: Room, monkeypatch: pytest.MonkeyPatch, opened: list[str]
) -> None:
    monkeypatch.setattr(docs, "DATA", room.folder / "data")
    out, error, status = room.ran("docs", "--sample", str(room.folder / "there"))
    assert (out, status) == ("", 1) and error.startswith("ttm-tools docs: the sample isn't installed: ")
    (room.folder / "data" / "sample").mkdir(parents=True)
    for name in ("town.zip", "jobs.csv"):
        (room.folder / "data" / "sample" / name).write_text(f"bytes of {name}")
    out, error, status = room.ran("docs", "--sample", str(room.folder / "there"))
    assert (out.split(), error, status) == ([f"{room.folder}/there/{name}" for name in docs.SAMPLE], "", 0)
    assert [(room.folder / "there" / name).read_text() for name in docs.SAMPLE] == [
        f"bytes of {name}" for name in docs.SAMPLE
    ]
    assert opened == []


def test_the_sample_replaces_nobody_elses_file(room: Room, monkeypatch: pytest.MonkeyPatch) -> None:
    monkeypatch.setattr(docs, "DATA", room.folder / "data")
    (room.folder / "data" / "sample").mkdir(parents=True)
    for name in ("town.zip", "jobs.csv"):
        (room.folder / "data" / "sample" / name).write_text("new")
    (room.folder / "jobs.csv").write_text("own jobs")
    out, error, status = room.ran("docs", "--sample", str(room.folder))
    assert (out, status) == ("", 1) and "did not write this file" in error, error
    assert (room.folder / "jobs.csv").read_text() == "own jobs" and not (room.folder / "town.zip").exists()
