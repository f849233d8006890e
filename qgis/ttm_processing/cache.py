"""Prepared feeds, kept under the checksum of their files and options, so the second run of an algorithm is fast."""

from __future__ import annotations

import hashlib
import json
import os
import shutil
import tempfile
from pathlib import Path
from typing import Any, Callable

BLOCK = 1 << 20
RESULT, FEED = "result.json", "feed"  # of an entry


def cache_folder(setting: str) -> Path:
    """Return the folder of the cache: the setting, else TTM_CACHE, else `ttm-tools` of the user's cache folder."""
    home = os.environ.get("XDG_CACHE_HOME") or os.path.join(os.path.expanduser("~"), ".cache")
    return Path(setting or os.environ.get("TTM_CACHE") or os.path.join(home, "ttm-tools")) / "qgis"


def checksum(path: str, *options: object) -> str:
    """Return the checksum of a file, or of all files of a folder with their names, and of some options."""
    digest = hashlib.sha256(repr(options).encode("utf-8", "surrogateescape"))
    root = Path(path)
    for file in [root] if root.is_file() else sorted(item for item in root.rglob("*") if item.is_file()):
        name = str(file.relative_to(root)) if file != root else file.name
        digest.update(b"\0" + name.encode("utf-8", "surrogateescape") + b"\0")
        with file.open("rb") as opened:
            while block := opened.read(BLOCK):
                digest.update(block)
    return digest.hexdigest()[:32]


def cached(folder: Path, key: str, make: Callable[[Path], dict[str, Any]]) -> tuple[Path, dict[str, Any]]:
    """Return the prepared feed of a key, and the object that `make` returned for it.

    A missing entry is written under a temporary name and renamed when it is complete, so two runs that write it at
    the same time both succeed.
    """
    entry = folder / key
    if not (entry / RESULT).is_file():
        folder.mkdir(parents=True, exist_ok=True)
        aside = Path(tempfile.mkdtemp(prefix=f"{key}-", dir=folder))
        try:
            result = make(aside / FEED)
            (aside / RESULT).write_text(json.dumps(result), encoding="utf-8")
            try:
                os.rename(aside, entry)
            except OSError:
                if not (entry / RESULT).is_file():  # else another run made it in the meantime
                    raise
        finally:
            shutil.rmtree(aside, ignore_errors=True)
    return entry / FEED, json.loads((entry / RESULT).read_text(encoding="utf-8"))
