"""The programs `ttm-tools` and `ttm`: where they are, which version they have, and what a child process inherits."""

from __future__ import annotations

import configparser
import os
import re
import site
import subprocess
import sys
import sysconfig
from dataclasses import dataclass
from functools import lru_cache
from pathlib import Path

TOOLS, ENGINE = "ttm-tools", "ttm"
VARIABLES = {TOOLS: "TTM_TOOLS", ENGINE: "TTM_PROGRAM"}
SECONDS = 30  # for `--version`
INSTALL = (
    "Install the wheel (pip install --user ttm_tools-*.whl) or the packages (apt install ./ttm_*.deb ./python3-*.deb)"
)
# Set by QGIS for its own libraries; a child that inherits them loads the wrong ones.
OF_QGIS = (
    "PYTHONHOME",
    "PYTHONPATH",
    "LD_LIBRARY_PATH",
    "PROJ_LIB",
    "PROJ_DATA",
    "GDAL_DATA",
    "GDAL_DRIVER_PATH",
    "QT_PLUGIN_PATH",
)


class MissingProgram(Exception):
    """A program that is not installed, is too old, or does not run here; the message says what to do."""


@dataclass(frozen=True)
class Programs:
    """The paths of both programs."""

    tools: str
    engine: str


def plugin_version() -> str:
    """Return the version of this plugin, which is that of the programs it was made for."""
    metadata = configparser.ConfigParser(interpolation=None)
    metadata.read(Path(__file__).with_name("metadata.txt"), encoding="utf-8")
    return metadata["general"]["version"]


def environment(extra: dict[str, str] | None = None) -> dict[str, str]:
    """Return the environment of a child process: that of QGIS without what QGIS sets for its own libraries."""
    inherited = {name: value for name, value in os.environ.items() if name not in OF_QGIS}
    return {**inherited, **(extra or {})}


def folders() -> list[str]:
    """Return the folders that are searched, first those where pip puts a wheel's commands."""
    named = [sysconfig.get_path("scripts"), os.path.join(site.USER_BASE or os.path.expanduser("~/.local"), "bin")]
    path = os.environ.get("PATH", os.defpath).split(os.pathsep)
    return [*named, *path, os.path.expanduser("~/.local/bin"), "/usr/bin"]


def candidates(name: str, setting: str, near: str | None = None) -> list[str]:
    """Return the paths to try for a program, in order: its setting, its variable, then the folders."""
    first = [setting, os.environ.get(VARIABLES[name], "")]
    named = [path for path in first if path]
    if named:
        return named[:1]  # a path that the user named is never replaced by another one
    places = [*([near] if near else []), *folders()]
    return [os.path.join(folder, name) for folder in places if folder]


def find(name: str, setting: str = "", near: str | None = None) -> str:
    """Return the path of a program.

    Raises
    ------
    MissingProgram
        No candidate is an executable file.
    """
    tried = candidates(name, setting, near)
    for path in tried:
        if os.path.isfile(path) and os.access(path, os.X_OK):
            return path
    where = f"{tried[0]} is not a program" if len(tried) == 1 else f"no program {name} is installed"
    raise MissingProgram(f"{where}. {INSTALL}, or name it under Settings, Options, Processing, Providers.")


def find_programs(tools_setting: str = "", engine_setting: str = "") -> Programs:
    """Return both programs, checked.

    Raises
    ------
    MissingProgram
        One is missing, does not run, or is older than this plugin.
    """
    if not sys.platform.startswith("linux"):
        raise MissingProgram("ttm runs on Linux only: on this system use QGIS in a Linux machine or container.")
    tools = find(TOOLS, tools_setting)
    engine = find(ENGINE, engine_setting, near=os.path.dirname(os.path.realpath(tools)))
    for name, path in ((TOOLS, tools), (ENGINE, engine)):
        check_version(name, path)
    return Programs(tools, engine)


def check_version(name: str, path: str) -> None:
    """Refuse a program that is older than this plugin."""
    found, needed = version_of(path, os.stat(path).st_mtime_ns), plugin_version()
    if numbers(found) < numbers(needed):
        raise MissingProgram(f"{path} has version {found}, this plugin needs {needed} or later. {INSTALL}.")


def numbers(version: str) -> list[int]:
    """Return a version as numbers, which compare as versions do."""
    return [int(part) for part in re.findall(r"\d+", version)[:3]]


@lru_cache(maxsize=64)
def version_of(path: str, changed: int) -> str:
    """Return what `--version` prints, without the program's name; asked once for each time of change.

    Raises
    ------
    MissingProgram
        It does not start, or prints no version.
    """
    try:
        ran = subprocess.run(
            [path, "--version"], capture_output=True, text=True, timeout=SECONDS, env=environment(), check=False
        )
    except (OSError, subprocess.TimeoutExpired) as error:
        raise MissingProgram(f"{path} does not start: {error}") from None
    found = re.search(r"\d+\.\d+\.\d+\S*", ran.stdout)
    if ran.returncode or found is None:
        last = (ran.stderr.strip().splitlines() or ["it prints no version"])[-1]
        raise MissingProgram(f"{path} does not run: {last}")
    return found[0]
