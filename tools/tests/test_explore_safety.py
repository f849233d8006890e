"""Who may ask the server of `ttm-tools explore`, what it refuses, how it ends, and how names are shown."""

import contextlib
import json
import re
import signal
import socket
from concurrent.futures import ThreadPoolExecutor
from pathlib import Path
from typing import Any, Iterator

import pytest

from asking import script
from browser import Browser
from exploring import Explored, canned, explored, village
from helpers import LONGEST_WAIT, launched, wait_until

pytest.importorskip("flask")
pytest.importorskip("jinja2")
pytest.importorskip("pandas")

from ttm_tools.web.guard import Guard  # noqa: E402

TIMES = "times?origin=0&first=08:00&last=08:00&trips=4&tab=a&turn=1&version=1"
OF_TAB = {"version": 1, "tab": "a"}
HOSTILE = [
    '<script>document.title = "run"</script>',
    '"><img src=x onerror="document.title=1">',
    "</script><b>x",
    "&amp;",
]


@pytest.fixture(scope="module")
def served(tmp_path_factory: pytest.TempPathFactory) -> Iterator[Explored]:
    folder = tmp_path_factory.mktemp("served")
    with explored(village(folder), canned(folder), "--out", str(folder / "saved")) as started:
        yield started


@pytest.fixture(scope="module")
def browser() -> Iterator[Browser]:
    driver = Browser()
    yield driver
    driver.close()


def test_the_page_and_its_questions_are_answered(served: Explored) -> None:
    assert [served.status(), served.status(TIMES), served.status("routes")] == [200, 200, 200]


def test_another_host_is_refused(served: Explored) -> None:
    port = served.origin.rsplit(":", 1)[1]
    for host in (f"localhost:{port}", "127.0.0.1", f"evil.example:{port}", f"127.0.0.1:{port}.evil.example", ""):
        assert served.status(Host=host) == 421
        assert served.status(TIMES, Host=host) == 421


def test_without_the_token_nothing_is_there(served: Explored) -> None:
    token = served.address.split("/")[3]
    for path in ("", "/", "/times", f"/{token[:-1]}/", f"/{token}x/", f"/{token.swapcase()}/", "/%00/", "/\u00e9/"):
        assert served.status(served.origin + path.encode("ascii", "replace").decode()) == 404
    assert len(token) >= 43 and Guard(1).token != Guard(1).token  # 32 random bytes


def test_another_page_is_refused(served: Explored) -> None:
    for origin in ("http://evil.example", "null", served.origin.replace("http", "https"), served.origin + "0"):
        assert served.status(Origin=origin) == served.status(TIMES, Origin=origin) == 403
    for site in ("cross-site", "same-site", "x"):
        assert served.status(TIMES, Sec_Fetch_Site=site) == 403
    body = json.dumps({"actions": [], "walk": 600, "tab": "a"}).encode()
    kind = {"Content_Type": "application/json"}
    assert served.status("changes", body, **kind) == 403  # no browser sends this without its origin
    assert served.status("changes", body, Origin="http://evil.example", **kind) == 403
    assert served.status("changes", body, Origin=served.origin, **kind) == 200
    assert served.status("study", b"{}") == 403


@pytest.mark.parametrize(
    "path",
    [
        "style.css",
        "static/x",
        "assets/live.js",
        "../../etc/passwd",
        "..%2f..%2fetc%2fpasswd",
        "%2e%2e/%2e%2e/etc/passwd",
        "stops.txt",
        "changes",
        "study",
    ],
)
def test_no_file_and_nothing_else_is_served(served: Explored, path: str) -> None:
    assert served.status(path) in (404, 405)


@pytest.mark.parametrize(
    "change",
    [
        "origin=4",
        "origin=-1",
        "origin=A",
        "origin=1e3",
        "first=8:00",
        "first=24:00",
        "first=09:00",
        "last=../etc",
        "trips=9",
        "trips=0",
        "tab=",
        "tab=%2Fetc",
        "turn=x",
        "version=2",
        "version=x",
    ],
)
def test_bad_questions_are_told(served: Explored, change: str) -> None:
    name = change.split("=")[0]
    assert served.status(re.sub(rf"{name}=[^&]*", change, TIMES)) == 422


@pytest.mark.parametrize(
    "body",
    [
        None,
        [],
        {"actions": {}, "walk": 600},
        {"actions": [{"do": "rm"}], "walk": 600},
        {"actions": [{"do": ["headway"]}], "walk": 600},
        {"actions": [{"do": "remove_route", "route": "R"}], "walk": 600},
        {"actions": [{"do": "remove_route", "route": 2}], "walk": 600},
        {"actions": [{"do": "remove_route", "route": 0, "stop": 1}], "walk": 600},
        {"actions": [{"do": "headway", "route": 0, "every": 60, "from": [], "to": "09:00"}], "walk": 600},
        {"actions": [{"do": "speed", "route": 0, "factor": "1e999"}], "walk": 600},
        {"actions": [{"do": "speed", "route": 0, "factor": "nan"}], "walk": 600},
        {"actions": [{"do": "cut", "route": 0, "way": 9, "after": 0}], "walk": 600},
        {"actions": [], "walk": 7201},
        {"actions": [], "walk": True},
        {"actions": [{"do": "remove_route", "route": 0}] * 201, "walk": 600},
    ],
)
def test_bad_changes_are_told_and_change_nothing(served: Explored, body: object) -> None:
    before = served.children()
    assert (
        served.status("changes", json.dumps(body).encode(), Origin=served.origin, Content_Type="application/json")
        == 422
    )
    assert served.children() == before


@pytest.mark.parametrize(
    "text", ["[" * 300_000, '{"a":' * 100_000, '{"actions": ' + "[" * 900 + "]" * 900 + ', "walk": 600}']
)
def test_what_is_nested_deeply_is_refused(served: Explored, text: str) -> None:
    how = {"Origin": served.origin, "Content_Type": "application/json"}
    assert [served.status(path, text.encode(), **how) for path in ("changes", "study")] == [422, 422]


def test_a_long_body_is_refused_before_it_is_read(served: Explored) -> None:
    how = {"Origin": served.origin, "Content_Type": "application/json"}
    assert served.status_of_head("changes", Content_Length=str((1 << 20) + 1), **how) == 413
    assert served.status_of_head("changes", Transfer_Encoding="chunked", **how) == 411


def test_it_listens_on_this_machine_alone(served: Explored) -> None:
    port = int(served.origin.rsplit(":", 1)[1])
    rows = [line.split() for line in Path("/proc/net/tcp").read_text().splitlines()[1:]]
    listening = [row[1] for row in rows if row[3] == "0A" and int(row[1].split(":")[1], 16) == port]
    assert listening == [f"0100007F:{port:04X}"]


def test_it_ends_with_ctrl_c_and_its_program_ends_too(tmp_path: Path) -> None:
    with explored(village(tmp_path), canned(tmp_path)) as served:
        assert served.status(TIMES) == 200
        begun = served.children()
        assert len(begun) == 1
        served.process.send_signal(signal.SIGINT)
        assert served.process.wait(LONGEST_WAIT) == 130
    wait_until(lambda: not any(Path(f"/proc/{item}").exists() for item in begun))


def test_the_browser_gets_no_token_that_other_users_can_see(tmp_path: Path, browser: Browser) -> None:
    """What the browser is called with is visible to every user of the machine: a file, which this user alone reads."""
    noted = tmp_path / "called"
    program = script(
        tmp_path / "my-browser", f"#!/bin/sh\nprintf '%s' \"$1\" > {noted}.part; mv {noted}.part {noted}\n"
    )
    with explored(village(tmp_path), canned(tmp_path), opens=f"{program} %s") as served:
        wait_until(noted.exists)
        called = noted.read_text()
        token = served.address.split("/")[3]
        assert token not in called and called.startswith("file://")
        path = Path(called.removeprefix("file://"))
        assert path.stat().st_mode & 0o077 == 0 and path.parent.stat().st_mode & 0o077 == 0
        lines = [Path(f"/proc/{item.name}/cmdline") for item in Path("/proc").glob("[0-9]*")]
        assert not any(token.encode() in cmdline(line.parent) for line in lines)
        browser.driver.get(called)
        wait_until(lambda: str(browser.driver.current_url).startswith(served.address))
        browser.settle()
        assert browser.text("heading") != "" and browser.complaints() == []
    wait_until(lambda: not path.exists())


def test_a_page_of_another_site_may_lead_here_and_ask_nothing(served: Explored) -> None:
    """A link with the token, such as that of the file, opens the page; nothing else is answered to another site."""
    leads: dict[str, Any] = {"Sec_Fetch_Site": "cross-site", "Sec_Fetch_Mode": "navigate", "Sec_Fetch_Dest": "document"}
    assert served.status(**leads) == 200
    assert [served.status(path, **leads) for path in (TIMES, "routes", "journey?origin=0")] == [403, 403, 403]
    for name, value in (("Sec_Fetch_Mode", "no-cors"), ("Sec_Fetch_Dest", "iframe"), ("Sec_Fetch_Dest", "script")):
        others: dict[str, Any] = {**leads, name: value}
        assert served.status(**others) == 403
    assert served.status_of_head("", **leads) == 403


def test_a_port_in_use_is_told_in_one_line(tmp_path: Path) -> None:
    feed, program = str(village(tmp_path)), canned(tmp_path)
    with socket.socket() as other:
        other.bind(("127.0.0.1", 0))
        other.listen()
        port = other.getsockname()[1]
        ran = launched("explore", feed, "--date", "20260504", "--program", program, "--no-browser", "--port", str(port))
    message = f"ttm-tools explore: port {port}: is in use: name another with --port, or 0 for a free one\n"
    assert (ran.returncode, ran.stdout, ran.stderr.decode()) == (1, b"", message)


def test_files_are_written_into_the_folder_that_is_named_alone(tmp_path: Path) -> None:
    with explored(village(tmp_path), canned(tmp_path), "--out", str(tmp_path / "saved")) as served:
        before = {path for path in tmp_path.rglob("*")}
        how = {"Origin": served.origin, "Content_Type": "application/json"}
        for origin in ("0", "../x", 0):
            body = {
                "first": "08:00",
                "last": "08:10",
                "trips": 4,
                "origin": origin,
                **OF_TAB,
                "out": "/tmp/other",
                "path": "../y",
            }
            assert served.status("study", json.dumps(body).encode(), **how) == (200 if origin == 0 else 422)
        written = {path.relative_to(tmp_path) for path in tmp_path.rglob("*")} - {
            item.relative_to(tmp_path) for item in before
        }
    assert {str(item) for item in written} == {"saved", "saved/1", "saved/1/study.toml", "saved/1/origins.csv"}


def test_studies_saved_at_once_by_two_servers_each_get_a_folder(tmp_path: Path) -> None:
    """Twenty studies from four threads, ten by each of two servers with the same --out, from an origin of their own."""
    feed, program, out = village(tmp_path), canned(tmp_path), str(tmp_path / "saved")
    with explored(feed, program, "--out", out) as one, explored(feed, program, "--out", out) as other:

        def save(number: int) -> dict[str, Any]:
            body = {"first": "08:00", "last": "08:10", "trips": 1 + number % 8, "origin": number % 4, **OF_TAB}
            server = (one, other)[number % 2]
            return server.sent("study", body)

        with ThreadPoolExecutor(4) as threads:
            answers = list(threads.map(save, range(20)))
    paths = [Path(str(answer["path"])) for answer in answers]
    assert len(set(paths)) == 20 and {path.parent.name for path in paths} == {str(number) for number in range(1, 21)}
    for number, path in enumerate(paths):
        assert f"trips = {1 + number % 8}\n" in path.read_text()
        assert len((path.parent / "origins.csv").read_text().split()) == 2
    assert sorted(path.name for path in (tmp_path / "saved").iterdir()) == sorted(str(n) for n in range(1, 21))


def test_names_are_text_and_nothing_else_is_fetched(tmp_path: Path, browser: Browser) -> None:
    feed = village(tmp_path, HOSTILE)
    (feed / "routes.txt").write_text(f"route_id,route_short_name,route_type\nR,{HOSTILE[2]},3\nQ,<i>q</i>,3\n")
    (tmp_path / "jobs.csv").write_text("stop_id,<u>jobs</u>\nB,5\n")
    arguments = ["--title", HOSTILE[0], "--opportunities", str(tmp_path / "jobs.csv")]
    with explored(feed, canned(tmp_path), *arguments) as served:
        browser.visit(served.address)
        browser.click("A")
        assert browser.driver.title == HOSTILE[0]
        assert browser.text("heading") == f"Travel times from {HOSTILE[0]} (A)"
        browser.awaited("await routes.read_")
        options = browser.run("return [...document.querySelectorAll('#route option')].map((it) => it.textContent)")
        assert options[1:] == [f"{HOSTILE[2]} (R)", "<i>q</i> (Q)"]
        assert browser.run("return document.querySelectorAll('img, b, i, u').length") == 0
        fetched = browser.run("return performance.getEntriesByType('resource').map((it) => it.name)")
        assert fetched and all(item.startswith(served.address) for item in fetched)
        assert browser.complaints() == []


def test_a_hundred_clicks_do_not_queue_up_and_the_latest_wins(tmp_path: Path, browser: Browser) -> None:
    """Each answer takes a tenth of a second, so in the second that the clicks take about ten are given, not a hundred;
    and behind the last one nothing is asked but its own question.
    """
    feed = village(tmp_path)
    with explored(feed, canned(tmp_path)) as served:
        browser.visit(served.address)
        (feed / "questions").touch()
        seconds, count = browser.awaited(
            "const begin = performance.now();"
            "for (let n = 0; n < 100; n++) {"
            "  live.trips = 1 + (n % 8); live.last = clockOf(480 + n); set({ place: n % 3 });"
            "  await new Promise((it) => setTimeout(it, 5));"
            "}"
            "const last = performance.now(), asked = live.turn; await set({ place: 3 });"
            "return [(last - begin) / 1000, live.turn - asked];"
        )
        last = browser.run("return head.identifiers[3]")
        assert browser.run("return [head.identifiers[state.place], current.now !== null]") == [last, True]
    questions = (feed / "questions").read_text().split()
    assert questions[-1] == last and 2 <= len(questions) <= 10 * seconds + 3
    assert count == 1


def test_of_questions_that_wait_in_a_tab_the_server_answers_the_latest(tmp_path: Path) -> None:
    """A page that doesn't wait sends nineteen questions during the answer to the first."""
    feed = village(tmp_path)
    log, hold = feed / "questions", feed / "hold"
    with explored(feed, canned(tmp_path)) as served, contextlib.ExitStack() as stack:
        log.touch()
        hold.touch()
        sent = [stack.enter_context(served.requested(TIMES, None))]
        wait_until(lambda: log.read_text() != "")  # the program is answering the first
        for turn in range(2, 21):
            sent.append(stack.enter_context(served.requested(TIMES.replace("turn=1", f"turn={turn}"), None)))
        served.wait_for_threads(20)
        hold.unlink()
        statuses = [item.getresponse().status for item in sent]
    assert statuses == [200, *[204] * 18, 200]
    assert len(log.read_text().split()) == 2


def test_a_study_stands_in_place_of_the_feed(tmp_path: Path) -> None:
    village(tmp_path)
    tables = (
        '[feed]\nfiles = ["village"]\nready = true\n[run]\ndate = 2026-05-04\nfrom = "08:05"\nto = "08:20"\ntrips = 2\n'
    )
    path = tmp_path / "study.toml"
    path.write_text(tables + "[walks]\nnone = true\n")
    with explored(path, canned(tmp_path)) as served:
        assert served.status(TIMES.replace("08:00", "08:05")) == 200
    path.write_text(tables)
    ran = launched("explore", str(path), "--no-browser", "--program", canned(tmp_path))
    assert ran.returncode == 1 and ran.stderr.decode().count("\n") == 1
    assert "walks must be computed first: run ttm-tools walks" in ran.stderr.decode()
    ran = launched("explore", str(tmp_path / "village"), "--no-browser")
    assert (ran.returncode, ran.stderr) == (2, b"ttm-tools explore: --date is needed where no study is named\n")


def test_faults_at_the_start_are_one_line_and_leave_no_process(tmp_path: Path) -> None:
    feed, arguments = village(tmp_path), ["--date", "20260504", "--no-browser", "--program", canned(tmp_path)]
    (tmp_path / "bad.csv").write_text("stop_id,jobs\nZ,1\n")
    ran = launched("explore", str(feed), *arguments, "--opportunities", str(tmp_path / "bad.csv"))
    message = f"ttm-tools explore: {tmp_path}/bad.csv: record 2: no stop of the feed is called Z\n"
    assert (ran.returncode, ran.stdout, ran.stderr.decode()) == (1, b"", message)
    (feed / "stops.txt").write_text("stop_id,stop_lat,stop_lon\nA,,\nB,,\nC,,\nD,,\n")
    ran = launched("explore", str(feed), *arguments)
    message = f"ttm-tools explore: {feed}/stops.txt: none of the stops has coordinates, so there is nothing to show\n"
    assert (ran.returncode, ran.stdout, ran.stderr.decode()) == (1, b"", message)
    left = [path.name for path in Path("/proc").glob("[0-9]*") if str(feed).encode() in cmdline(path)]
    assert left == []


def cmdline(process: Path) -> bytes:
    try:
        return (process / "cmdline").read_bytes()
    except OSError:
        return b""
