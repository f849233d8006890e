"""One QGIS for all tests, without a display, with a profile of its own that is removed at the end.

`pytest --program=PATH` also runs the tests that need the built `ttm`. Without QGIS all tests are skipped.
"""

from __future__ import annotations

import importlib.util
import os
import shutil
import sys
import tempfile
from collections.abc import Iterator
from pathlib import Path
from typing import Any

import pytest

PLUGINS = "/usr/share/qgis/python/plugins"
HAS_QGIS = importlib.util.find_spec("qgis") is not None and importlib.util.find_spec("qgis.core") is not None
ROOT = Path(__file__).resolve().parents[2]
PROFILE = tempfile.mkdtemp(prefix="ttm-qgis-")

os.environ.update(QT_QPA_PLATFORM="offscreen", HOME=PROFILE, XDG_RUNTIME_DIR=PROFILE, TTM_CACHE=f"{PROFILE}/cache")
sys.path.append(PLUGINS)
collect_ignore_glob = [] if HAS_QGIS else ["test_*.py"]


def pytest_addoption(parser: pytest.Parser) -> None:
    parser.addoption("--program", default=None, help="the built ttm (without it, tests that run it are skipped)")


def pytest_collection_modifyitems(items: list[pytest.Item]) -> None:
    """Marks the tests that run the program."""
    for item in items:
        if "program" in getattr(item, "fixturenames", ()):
            item.add_marker("program")


def pytest_unconfigure() -> None:
    """Removes the profile."""
    shutil.rmtree(PROFILE, ignore_errors=True)


@pytest.fixture(scope="session")
def program(request: pytest.FixtureRequest) -> str:
    path = request.config.getoption("--program")
    if path is None:
        pytest.skip("without the program")
    return str(Path(str(path)).resolve())


@pytest.fixture(scope="session")
def tools(tmp_path_factory: pytest.TempPathFactory) -> str:
    """The program `ttm-tools` of this repository, by the Python that has its packages."""
    path = tmp_path_factory.mktemp("bin") / "ttm-tools"
    path.write_text(
        f'#!/bin/sh\nexec /usr/bin/python3 {os.environ.get("TTM_TOOLS_TESTED", ROOT / "tools/ttm-tools")} "$@"\n'
    )
    path.chmod(0o755)
    return str(path)


@pytest.fixture(scope="session")
def qgis(tools: str) -> Iterator[Any]:
    """QGIS with the provider."""
    from qgis.core import QgsApplication

    application = QgsApplication([], False)
    application.initQgis()
    from processing.core.Processing import Processing

    Processing.initialize()
    from ttm_processing.provider import Provider

    provider = Provider()
    os.environ["TTM_TOOLS"] = tools
    QgsApplication.processingRegistry().addProvider(provider)
    yield application


@pytest.fixture
def with_program(qgis: Any, program: str, monkeypatch: pytest.MonkeyPatch) -> str:
    """QGIS with the provider and the program."""
    monkeypatch.setenv("TTM_PROGRAM", program)
    return program
