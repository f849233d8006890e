"""Debian packages that the checks need (`packages.txt`), installed where root runs the checks on Debian."""

from __future__ import annotations

import fcntl
import os
import shutil
import subprocess
import tempfile
import time
from pathlib import Path

PYTHON = "/usr/bin/python3"  # that of Debian's packages
PATH = os.environ.get("PATH", os.defpath) + ":/usr/sbin"
LISTED = Path(__file__).with_name("packages.txt")
LOCK = Path(tempfile.gettempdir()) / "ttm-installing.lock"
SECONDS = 300
FIND = "import importlib.util, sys; print(*[it for it in sys.argv[1:] if importlib.util.find_spec(it) is None])"


def lacking(group: str) -> list[str]:
    """The Debian packages of a group that this machine lacks."""
    lines = [line.split() for line in LISTED.read_text().splitlines() if line.split()[0] == group]
    modules = [name for _, kind, name, _ in lines if kind == "module"]
    found = subprocess.run([PYTHON, "-c", FIND, *modules], capture_output=True, text=True)
    absent = set(found.stdout.split() if found.returncode == 0 else modules)
    for _, kind, name, _ in lines:
        if kind == "command" and shutil.which(name, path=PATH) is None or kind == "file" and not Path(name).is_file():
            absent.add(name)
    return [package for _, _, name, package in lines if name in absent]


def install(*groups: str) -> None:
    """Installs what this machine lacks of some groups, one group after another. Each command gets what is left of five
    minutes. Where nothing is lacking nothing is asked of the network.
    """
    wanted = [packages for packages in map(lacking, groups) if packages]
    if not wanted or os.geteuid() != 0 or shutil.which("apt-get") is None:
        return
    environment = {**os.environ, "DEBIAN_FRONTEND": "noninteractive"}
    # what an earlier call left half done when its time was up makes later ones fail
    calls = [["dpkg", "--configure", "-a"], ["apt-get", "update", "-q"]]
    calls += [["apt-get", "install", "-q", "-y", "--no-install-recommends", *packages] for packages in wanted]
    with LOCK.open("w") as lock:
        fcntl.flock(lock, fcntl.LOCK_EX)  # scripts run side by side, and one at a time installs
        end = time.monotonic() + SECONDS
        for command in calls:
            try:
                left = max(1.0, end - time.monotonic())
                subprocess.run(command, env=environment, timeout=left, capture_output=True)
            except subprocess.TimeoutExpired:
                print(f"{' '.join(command[:2])}: not done in {SECONDS} seconds", flush=True)
