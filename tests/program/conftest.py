"""Runs of the built program: `pytest tests/program --program=PATH`, with `--trials=PATH` of the built `growth_trials`
for refusals call by call; `-k hostile --repeat=20` hunts for races in runs with several threads.

The other compiler's build, PATH.by-rattle, is run too where it is there.
"""

from __future__ import annotations

import os
import shutil
import tempfile
from collections.abc import Iterator
from pathlib import Path

import pytest


def pytest_addoption(parser: pytest.Parser) -> None:
    parser.addoption("--program", required=True, help="the built ttm")
    parser.addoption("--trials", help="the built growth_trials")
    parser.addoption("--repeat", type=int, default=1, help="how many times each hostile run of threads is made")


def pytest_generate_tests(metafunc: pytest.Metafunc) -> None:
    if "program" in metafunc.fixturenames:
        named = str(metafunc.config.getoption("--program"))
        built = [named] + [item for item in [f"{named}.by-rattle"] if os.path.isfile(item)]
        metafunc.parametrize("program", built, ids=os.path.basename, indirect=True, scope="session")
    if "repeated" in metafunc.fixturenames:
        metafunc.parametrize("repeated", range(metafunc.config.getoption("--repeat")))


@pytest.fixture(scope="session")
def program(request: pytest.FixtureRequest) -> Iterator[str]:
    """A copy of a build that everybody may run."""
    with tempfile.TemporaryDirectory(prefix="ttm-program-") as room:
        os.chmod(room, 0o755)
        copied = shutil.copy(str(request.param), room)
        os.chmod(copied, 0o755)
        yield str(copied)


@pytest.fixture(scope="session")
def one_build(request: pytest.FixtureRequest) -> str:
    """The build of one compiler, where what is tried doesn't depend on it."""
    return os.path.abspath(str(request.config.getoption("--program")))


@pytest.fixture(scope="session")
def trials(request: pytest.FixtureRequest) -> Path:
    named = request.config.getoption("--trials")
    if named is None:
        pytest.skip("without growth_trials")
    return Path(str(named)).resolve()


@pytest.fixture
def open_room() -> Iterator[Path]:
    """A folder that everybody may look into."""
    with tempfile.TemporaryDirectory(prefix="ttm-study-") as folder:
        Path(folder).chmod(0o755)
        yield Path(folder)
