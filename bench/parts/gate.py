"""How long the gate takes: `.ci/run`, which proves, tests and tries everything, or with --quick its first answer."""

import re
import subprocess
import time
import os

from record import ROOT
from setting import Setting, stop

CLOSING = re.compile(r"(\d+) passed, (\d+) failed(?:, (\d+) skipped)?")


def measure(setting: Setting) -> None:
    """Runs the gate once, with nothing kept of earlier runs, and records its clock and processor time."""
    flag, name = ("--quick", "quick gate") if setting.quick else ("--anew", "gate")
    begin, last = time.monotonic(), ""
    with subprocess.Popen([str(ROOT / ".ci" / "run"), flag], stdout=subprocess.PIPE, text=True) as process:
        assert process.stdout is not None
        for line in process.stdout:
            print(line, end="", flush=True)
            last = line if CLOSING.fullmatch(line.strip()) else last
        _, status, usage = os.wait4(process.pid, 0)
        process.returncode = os.waitstatus_to_exitcode(status)
    found = CLOSING.fullmatch(last.strip())
    if found is None or process.returncode != 0:
        stop(f"the gate failed: status {process.returncode}")
    minutes = {"clock": time.monotonic() - begin, "processor time": usage.ru_utime + usage.ru_stime}
    for what, seconds in minutes.items():
        setting.recorder.add("gate", "repository", name, what, seconds / 60, "min")
    for what, count in zip(("passed", "failed", "skipped"), found.groups(default="0")):
        setting.recorder.add("gate", "repository", name, what, int(count), "checks")
