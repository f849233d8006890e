"""Each test has a room of its own.

`pytest --program=PATH`: with the built `ttm`, that it takes what the tools write, and they what it prints. `-m program`
chooses the tests that run it. If several processes share the tests (pytest-xdist), only one runs those in the browser.
A test in a browser that fails is run once more (pytest-rerunfailures), since Chromium may start or answer late; no
other test is.
"""

from pathlib import Path

import pytest
from _pytest.terminal import TerminalReporter

from helpers import Room, Town

LONGEST = ("test_page.py", "test_pages.py", "test_study.py")


def pytest_addoption(parser: pytest.Parser) -> None:
    parser.addoption("--program", default=None, help="the built ttm (without it, tests that run it are skipped)")


def pytest_collection_modifyitems(items: list[pytest.Item]) -> None:
    """Marks the tests that run the program, and those in a browser; the files whose tests take longest come first."""
    for item in items:
        fixtures = getattr(item, "fixturenames", ())
        if "program" in fixtures:
            item.add_marker("program")
        if "browser" in fixtures:
            item.add_marker(pytest.mark.xdist_group("browser"))
            item.add_marker(pytest.mark.flaky(reruns=1))
    items.sort(key=lambda item: item.path.name not in LONGEST)


def pytest_terminal_summary(terminalreporter: TerminalReporter) -> None:
    """Lists each test that was run again, and why."""
    for report in terminalreporter.stats.get("rerun", []):
        crash = getattr(report.longrepr, "reprcrash", None)
        reason = (crash.message if crash else report.longreprtext).strip().split("\n")[0]
        terminalreporter.write_line(f"run again: {report.nodeid} ({report.when}): {reason}")


@pytest.fixture
def program(request: pytest.FixtureRequest) -> str:
    path = request.config.getoption("--program")
    if path is None:
        pytest.skip("without the program")
    return str(Path(str(path)).resolve())


@pytest.fixture
def room(tmp_path: Path, capsysbinary: pytest.CaptureFixture[bytes]) -> Room:
    return Room(tmp_path, capsysbinary)


@pytest.fixture
def town(tmp_path: Path, capsysbinary: pytest.CaptureFixture[bytes]) -> Town:
    return Town(tmp_path, capsysbinary)
