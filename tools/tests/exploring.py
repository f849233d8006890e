"""A village, `ttm-tools explore` of it as a process of its own, and a canned program that answers its page."""

import contextlib
import csv
import http.client
import json
import os
import signal
import subprocess
import sys
from pathlib import Path
from typing import Any, Iterator, Sequence
from urllib.parse import urlsplit

from asking import script
from helpers import LAUNCHER, LONGEST_WAIT, as_in_a_terminal, wait_until

DATE = "20260504"
STOPS = [["A", "Alpha", 47.0, 8.0], ["B", "Beta", 47.0, 8.02], ["C", "Gamma", 47.0, 8.04], ["D", "Delta", 47.02, 8.04]]

# Answers each question by a matrix in which the stop with the number n is n times 300 seconds from everywhere, and
# what a scenario takes out makes the last stop unreachable. A file `questions` in the feed has it note them, a tenth of
# a second for each; a file `hold` has it wait.
CANNED = """\
#!/usr/bin/python3
import csv, os, sys, time
words = sys.argv[1:]
if "--ask" not in words:
    sys.exit("canned")
feed = words[words.index("--feed") + 1]
stops = [row["stop_id"] for row in csv.DictReader(open(os.path.join(feed, "stops.txt")))]
files = [word for word in words if word.endswith(".csv") and not word.endswith("footpaths.csv")]
names = ["base", *(os.path.basename(path)[:-4] for path in files)]
asked = {}
for line in sys.stdin:
    if line != "\\n":
        asked.setdefault("words", []).append(line.rstrip("\\n"))
        continue
    block = asked.pop("words", [])
    question = dict(zip(block[::2], block[1::2]))
    origin = open(question["--origins"]).read().split()[-1]
    log = os.path.join(feed, "questions")
    if os.path.exists(log):
        open(log, "a").write(origin + "\\n")
        time.sleep(0.1)
    while os.path.exists(os.path.join(feed, "hold")):
        time.sleep(0.01)
    rows = [["scenario", "origin", "share", "access_1800", *stops]]
    for name in names:
        for share in question["--share"].split(","):
            cells = [300 * place + int(share) - 50 if place else 0 for place in range(len(stops))]
            rows.append([name, origin, share, 1, *cells])
    text = "".join(",".join(map(str, row)) + "\\n" for row in rows).encode()
    sys.stdout.buffer.write(b"answer 0 %d\\n" % len(text) + text)
    sys.stdout.buffer.flush()
"""


def canned(folder: Path) -> str:
    return script(folder / "canned", CANNED)


def village(folder: Path, names: Sequence[str] = ("Alpha", "Beta", "Gamma", "Delta")) -> Path:
    """Route R from A by B to C every ten minutes from 08:00 to 09:50, five minutes from stop to stop; route Q from C to
    D every half an hour from 08:15 on, ten minutes long.
    """
    feed = folder / "village"
    feed.mkdir()
    stops = [[own, name, *place] for (own, _, *place), name in zip(STOPS, names)]
    write(feed / "stops.txt", ["stop_id", "stop_name", "stop_lat", "stop_lon"], stops)
    write(feed / "routes.txt", ["route_id", "route_short_name", "route_type"], [["R", "1", 3], ["Q", "2", 3]])
    days = "monday tuesday wednesday thursday friday saturday sunday".split()
    write(feed / "calendar.txt", ["service_id", *days, "start_date", "end_date"], [["S", *[1] * 7, 20260101, 20261231]])
    trips, times = [], []
    for route, minute, calls in [("R", 480 + 10 * n, "ABC") for n in range(12)] + [
        ("Q", 495 + 30 * n, "CD") for n in range(4)
    ]:
        trip = f"{route}{minute}"
        trips.append([route, "S", trip])
        for place, stop in enumerate(calls):
            at = minute + place * (5 if route == "R" else 10)
            times.append([trip, f"{at // 60:02}:{at % 60:02}:00", f"{at // 60:02}:{at % 60:02}:00", stop, place])
    write(feed / "trips.txt", ["route_id", "service_id", "trip_id"], trips)
    write(feed / "stop_times.txt", ["trip_id", "arrival_time", "departure_time", "stop_id", "stop_sequence"], times)
    write(folder / "jobs.csv", ["stop_id", "jobs"], [["A", 1], ["B", 20], ["C", 300], ["D", 4000]])
    return feed


def write(path: Path, header: Sequence[str], rows: Sequence[Sequence[object]]) -> None:
    with open(path, "w", newline="", encoding="utf-8") as file:
        csv.writer(file, lineterminator="\n").writerows([header, *rows])


class Explored:
    """A server that runs, and its address."""

    def __init__(self, process: "subprocess.Popen[bytes]", address: str) -> None:
        self.process, self.address = process, address

    @property
    def origin(self) -> str:
        """Where it is served, without the token."""
        return "/".join(self.address.split("/")[:3])

    def status(self, path: str = "", body: bytes | None = None, **headers: str) -> int:
        """The status of a request, with the given headers instead of a browser's."""
        with self.requested(path, body, **headers) as connection:
            return connection.getresponse().status

    def status_of_head(self, path: str, **headers: str) -> int:
        """The status of a request whose body never comes."""
        with self.requested(path, None, method="POST", **headers) as connection:
            return connection.getresponse().status

    def sent(self, path: str, body: object) -> dict[str, Any]:
        """The answer in JSON to what the page sends."""
        how = {"Origin": self.origin, "Content_Type": "application/json"}
        with self.requested(path, json.dumps(body).encode(), **how) as connection:
            response = connection.getresponse()
            return {"status": response.status, **json.loads(response.read())}

    @contextlib.contextmanager
    def requested(
        self, path: str, body: bytes | None, method: str = "", **headers: str
    ) -> Iterator[http.client.HTTPConnection]:
        """A connection on which the request has been sent, all of it or as much as the server took."""
        named = {"Connection": "close"} | {name.replace("_", "-"): value for name, value in headers.items()}
        parts = urlsplit(path if path.startswith("http") else self.address + path)
        connection = http.client.HTTPConnection(parts.netloc, timeout=LONGEST_WAIT)
        try:
            # A server that refuses by the head alone may close before the body has come: its answer is there to read.
            with contextlib.suppress(BrokenPipeError, ConnectionResetError):
                connection.request(
                    method or ("GET" if body is None else "POST"),
                    parts.path + ("?" + parts.query if parts.query else ""),
                    body,
                    named,
                )
            yield connection
        finally:
            connection.close()

    def wait_for_threads(self, count: int) -> None:
        """Waits until the server has at least this number of threads, all of which are waiting."""
        quiet = [0]

        def is_quiet() -> bool:
            paths = list(Path(f"/proc/{self.process.pid}/task").iterdir())
            states = [state_of(path) for path in paths]
            quiet[0] = quiet[0] + 1 if len(states) >= count and set(states) <= {"S", ""} else 0
            return quiet[0] == 5

        wait_until(is_quiet)

    def children(self) -> list[int]:
        """The processes that it has begun."""
        found = subprocess.run(["ps", "-o", "pid=", "--ppid", str(self.process.pid)], capture_output=True, text=True)
        return [int(item) for item in found.stdout.split()]


def state_of(thread: Path) -> str:
    """The state of a thread as a letter of the system: S if it waits; empty if it has ended."""
    try:
        return (thread / "stat").read_text().rsplit(")", 1)[1].split()[0]
    except FileNotFoundError:
        return ""


@contextlib.contextmanager
def explored(feed: Path, program: str, *words: str, opens: str | None = None) -> Iterator[Explored]:
    """Serves the page of a feed while the block runs, and opens it by a browser's command, if given."""
    arguments = [str(feed), "--date", DATE, "--from", "08:00", "--to", "08:00", "--program", program]
    process = subprocess.Popen(
        [sys.executable, LAUNCHER, "explore", *arguments, *words, *(["--no-browser"] if opens is None else [])],
        env=os.environ if opens is None else {**os.environ, "BROWSER": opens},
        stdout=subprocess.PIPE,
        stderr=subprocess.PIPE,
        preexec_fn=as_in_a_terminal,
    )
    assert process.stdout is not None and process.stderr is not None
    try:
        address = process.stdout.readline().decode().strip()
        assert address.startswith("http://127.0.0.1:"), process.stderr.read()
        yield Explored(process, address)
    finally:
        process.send_signal(signal.SIGINT)
        process.wait(LONGEST_WAIT)
        process.stdout.close()
        process.stderr.close()
