"""The user's cache: prepared feeds, streets, and walks between points and stops.

It is in the folder `settings.cache`: that of TTM_CACHE, else `ttm-tools` of XDG_CACHE_HOME or ~/.cache. Each entry is a
folder named by the checksum of everything it depends on. Entries may be removed at any time.
"""

import hashlib
import os
import threading
from pathlib import Path
from typing import Callable, Iterable

from .. import __version__
from .files import aside_name, remove, remove_leavings, sha256_of_file
from .locks import lock_file, locked
from .logs import logger
from .reading import regular
from .settings import settings

FORM = "1"  # part of every key: increase it when the format of entries changes
MAKING = threading.RLock()  # a process makes one entry at a time


def key_of(*parts: object) -> str:
    """Return the checksum of what an entry depends on."""
    digest = hashlib.sha256()
    for part in (FORM, __version__, *parts):
        text = part if isinstance(part, bytes) else str(part).encode("utf-8", "surrogateescape")
        digest.update(str(len(text)).encode() + b":" + text)
    return digest.hexdigest()[:32]


def sum_of_source(path: str) -> str:
    """Return the checksum of a file, or of the names and contents of a folder's files."""
    if not os.path.isdir(path):
        regular(path)
        return sha256_of_file(path)
    files: Iterable[Path] = sorted(file for file in Path(path).rglob("*") if file.is_file())
    return key_of(*[text for file in files for text in (file.relative_to(path), sha256_of_file(file))])


def cached_entry(kind: str, key: str, make: Callable[[Path], None]) -> Path:
    """Return the entry of a key. A missing entry is written in a temporary folder, renamed when it is complete."""
    room = settings.cache / kind
    entry = room / key
    if entry.is_dir():
        return entry
    room.mkdir(parents=True, exist_ok=True)
    with MAKING, locked(entry, lock_file(entry, entry.name), waits=True) as has_lock:
        if entry.is_dir():  # another process made it in the meantime
            return entry
        if has_lock:
            remove_leavings(entry)
        aside = aside_name(entry)
        try:
            remove(aside)
            aside.mkdir()
            logger.info("writing the cache entry %s", entry)
            make(aside)
            try:
                os.replace(aside, entry)
            except OSError:
                if not entry.is_dir():  # on a disk without locks another process may have made it
                    raise
        finally:
            remove(aside)
    return entry
