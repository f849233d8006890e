#!/usr/bin/env python3
"""Writes the plugin for QGIS as a zip file that its plugin manager installs: the same bytes for the same sources.

    plugin.py FOLDER     writes FOLDER/ttm_processing-VERSION.zip, and prints its path
"""

from __future__ import annotations

import re
import sys
import zipfile
from pathlib import Path

ROOT = Path(__file__).resolve().parent.parent
PLUGIN = ROOT / "qgis/ttm_processing"
TOOLS = ROOT / "tools/src/ttm_tools/__init__.py"
KINDS = (".py", ".svg", ".json", ".txt")
DATE = (2000, 1, 1, 0, 0, 0)


def version() -> str:
    """Returns the version of the plugin, which must be that of the tools."""
    own = re.search(r"(?m)^version=(.+)$", (PLUGIN / "metadata.txt").read_text())
    of_tools = re.search(r'(?m)^__version__ = "(.+)"$', TOOLS.read_text())
    assert own and of_tools
    if own[1] != of_tools[1]:
        sys.exit(f"{PLUGIN}/metadata.txt: version {own[1]}, but that of ttm-tools is {of_tools[1]}")
    return own[1]


def write(path: Path) -> None:
    """Writes the zip file, without caches."""
    files = sorted(file for file in PLUGIN.rglob("*") if file.suffix in KINDS and "__pycache__" not in file.parts)
    with zipfile.ZipFile(path, "w") as packed:
        for file in files:
            entry = zipfile.ZipInfo(file.relative_to(PLUGIN.parent).as_posix(), DATE)
            entry.external_attr, entry.compress_type = 0o100644 << 16, zipfile.ZIP_DEFLATED
            packed.writestr(entry, file.read_bytes(), compresslevel=9)


def main() -> None:
    if len(sys.argv) != 2:
        sys.exit("usage: plugin.py FOLDER")
    path = Path(sys.argv[1]) / f"ttm_processing-{version()}.zip"
    write(path)
    print(path)


if __name__ == "__main__":
    main()
