"""Pages of `ttm-tools page`, and `ttm-tools explore`, in headless Chromium: clicks, sliders, changes, memory."""

import contextlib
import json
import os
import random
import statistics
import subprocess
import sys
import threading
from collections.abc import Iterator
from pathlib import Path

from record import ROOT
from setting import Setting
from shared import DATE, PYTHON, TOOLS, Study, first_origins, kilobytes, run, run_into, write_origins

sys.path[:0] = [str(ROOT / "tools" / "tests"), str(ROOT / "tools" / "src")]
from browser import Browser  # noqa: E402

CHANGES = {
    "a route every five minutes": "{ do: 'headway', route: 1, every: 300, from: '06:00', to: '20:00' }",
    "a route taken out": "{ do: 'remove_route', route: 2 }",
    "a route faster": "{ do: 'speed', route: 3, factor: '0.80' }",
}
JOURNEY = (  # to another place, from the question to the list of its legs
    "const begin = performance.now(); journey.end = numbers.columns[Math.floor(head.columns / 2)]; await show();"
    "while (journey.key === '' || journey.found === null) await new Promise((it) => setTimeout(it, 5));"
    "return performance.now() - begin;"
)
LONGEST = 170  # seconds of an answer, on a busy machine
PAINTED = "await new Promise((it) => requestAnimationFrame(() => requestAnimationFrame(it)));"
TIMED = f"const begin = performance.now(); await %s; {PAINTED} return performance.now() - begin;"


CLICK = """
const frame = () => new Promise(requestAnimationFrame);
await frame();
const begin = performance.now(), place = page.placeAt(page.pixelOf(head.identifiers.indexOf(%s)));
await set({ view: "times", place });
await frame();
await new Promise((drawn) => setTimeout(drawn));
return performance.now() - begin;
"""


@contextlib.contextmanager
def served(feed: Path, program: str | None, *more: str) -> Iterator["tuple[subprocess.Popen[str], str]"]:
    """A server of a feed while the block runs, and its address."""
    tables = ["--footpaths", str(feed / "footpaths.csv"), "--opportunities", str(feed / "opportunities.csv")]
    words = [str(feed), "--date", DATE, *tables, *(["--program", program] if program else []), "--no-browser", *more]
    process = subprocess.Popen([sys.executable, TOOLS, "explore", *words], stdout=subprocess.PIPE, text=True)
    try:
        assert process.stdout is not None
        yield process, process.stdout.readline().strip()
    finally:
        process.terminate()
        process.wait(30)


def megabytes(process: int, what: str = "VmHWM", file: str = "status") -> int:
    """The peak memory in MB of a process and of those that it started, or another figure of a file of /proc."""
    own = kilobytes(process, what, file) // 1000
    return own + sum(megabytes(child, what, file) for child in children(process))


def children(process: int) -> list[int]:
    tasks = Path(f"/proc/{process}/task").iterdir()
    return [int(child) for task in tasks for child in (task / "children").read_text().split()]


def run_like(server: int, feed: Path) -> int:
    """MB of a run of the program with the arguments of the conversation that answers now, and those of a click."""
    commands = [Path(f"/proc/{child}/cmdline").read_text().split("\0")[:-1] for child in children(server)]
    words = next([item for item in some if item not in ("--report", "--ask")] for some in commands if "--ask" in some)
    for name, value in {"--from": "07:00", "--to": "08:59", "--share": "10,25,50,75,90"}.items():
        words[words.index(name) + 1] = value
    path = str(feed / "one_origin.csv")
    write_origins(path, first_origins(str(feed), 1))
    return run([*words, "--origins", path], stdout=subprocess.DEVNULL, stderr=subprocess.DEVNULL).kilobytes // 1000


def clicks(browser: Browser, count: int) -> list[float]:
    """Milliseconds from a click on another place to the painted picture."""
    step = int(browser.run("return head.columns")) // (count + 1)
    return [
        float(browser.awaited(TIMED % f"set({{ place: numbers.columns[{step * (n + 1)}] }})")) for n in range(count)
    ]


def rushed(browser: Browser) -> float:
    """Milliseconds from the last of a hundred clicks within a second to its picture."""
    script = (
        "const wait = (it) => new Promise((end) => setTimeout(end, it));"
        "for (let n = 0; n < 100; n++) { set({ place: numbers.columns[7 * n + 1] }); await wait(10); }"
        "const begin = performance.now();"
        f"await set({{ place: numbers.columns[5] }}); {PAINTED}"
        "return [performance.now() - begin, state.place === numbers.columns[5]];"
    )
    millis, is_last = browser.awaited(script)
    assert is_last
    return float(millis)


def slides(browser: Browser) -> list[float]:
    """Milliseconds of sliders that need no new search: minutes, percentile, bands."""
    changes = [f"set({{ minutes: {20 + n} }})" for n in range(10)] + [f"set({{ share: {n % 5} }})" for n in range(10)]
    changes += [f"sliders.paintWith({{ step: {5 + 5 * (n % 5)} }})" for n in range(10)]
    return [float(browser.awaited(TIMED % change)) for change in changes]


@contextlib.contextmanager
def watched(server: int) -> Iterator[list[int]]:
    """MB of a process and of those that it started, each page of memory once, at each moment of the block."""
    seen, is_over = [0], threading.Event()

    def watch() -> None:
        while not is_over.wait(0.05):
            with contextlib.suppress(OSError):  # of a process that ends
                seen.append(megabytes(server, "Pss", "smaps_rollup"))

    watcher = threading.Thread(target=watch)
    watcher.start()
    try:
        yield seen
    finally:
        is_over.set()
        watcher.join()


def explore(setting: Setting, feed: str, browser: Browser, server: int) -> Iterator[tuple[str, float, str]]:
    """Each figure with its unit."""
    folder, count = setting.feeds.folder(feed), setting.choose(5, 20)
    clicks(browser, 3)
    found = clicks(browser, count)
    yield "click to picture", statistics.median(found), "ms"
    yield "click to picture, the longest", max(found), "ms"
    yield "the last of a hundred clicks a second", rushed(browser), "ms"
    yield "a slider", statistics.median(slides(browser)), "ms"
    browser.awaited("await routes.read_;")
    yield "memory above a run", megabytes(server) - run_like(server, folder), "MB"
    for name, action in CHANGES.items():
        yield name, browser.awaited(TIMED % f"routes.add({action})") / 1000, "s"
    yield "a slider in a difference", statistics.median(slides(browser)), "ms"
    with watched(server) as seen:
        browser.awaited("await routes.undo();")
    yield "memory above a run while a second network starts", max(seen) - run_like(server, folder), "MB"
    for name, change in (("with changes", ""), ("as it is", "await routes.change({ actions: [], walk: live.walk });")):
        script = f"{change} await set({{ place: numbers.columns[5] }}); {JOURNEY}"
        yield f"a journey, network {name}", browser.awaited(script) / 1000, "s"
    yield "memory above a run, with journeys", megabytes(server) - run_like(server, folder), "MB"


def page(setting: Setting, feed: str, origins: int) -> Iterator[tuple[str, float, str]]:
    """What it takes to write a page, and how soon it is shown and answers a click; each figure with its unit."""
    folder, matrix, path = setting.feeds.folder(feed), setting.room / "matrix.csv", setting.room / "page.html"
    study = Study(more=[str(folder / "cut.csv")]).arguments(str(folder), setting.origins(feed, origins), 4)
    run_into([setting.ttm, *study], str(matrix))
    ran = run_into([PYTHON, TOOLS, "page", "--feed", str(folder), str(matrix), "--out", str(path)], os.devnull)
    yield "writing, processor time", ran.busy, "s"
    yield "writing, memory", ran.kilobytes / 1000, "MB"
    yield "size", path.stat().st_size / 1e6, "MB"
    with contextlib.closing(Browser()) as browser:
        browser.open(path)
        browser.open(path)
        shown = "return performance.getEntriesByName('shown')[0].startTime"
        yield "opening", float(browser.run(shown)) / 1000, "s"
        names = browser.run("return Array.from(numbers.rows).filter(isPlaced).map((it) => head.identifiers[it])")
        drawn = random.Random(1).sample(names, min(50, len(names)))
        found = [float(browser.awaited(CLICK % json.dumps(stop_id))) for stop_id in drawn]
    yield "a click", statistics.median(found), "ms"
    yield "a click, the longest", max(found), "ms"


def measure(setting: Setting) -> None:
    """A page of a city's origins; then clicks that ask for 120 departures, in the metropolis on one service day."""
    count = setting.choose(100, 4936)
    for name, figure, unit in page(setting, "city", count):
        setting.recorder.add("page", f"city, {count:,} origins", "ttm-tools", name, figure, unit)
    for feed in ("city",) if setting.quick else ("city", "metropolis"):
        days = ["--back", "0", "--ahead", "0"] if feed == "metropolis" else []
        server = served(setting.feeds.folder(feed), setting.ttm, "--from", "07:00", "--to", "08:59", *days)
        with server as (process, address), contextlib.closing(Browser()) as browser:
            browser.driver.set_script_timeout(LONGEST)
            browser.visit(address)
            for name, figure, unit in explore(setting, feed, browser, process.pid):
                setting.recorder.add("explore", feed, "ttm-tools", name, figure, unit)
