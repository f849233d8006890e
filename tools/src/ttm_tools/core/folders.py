"""Folders that no other process uses: temporary folders, and numbered ones."""

import contextlib
import errno
import itertools
import os
import secrets
import tempfile
import time
from dataclasses import dataclass
from pathlib import Path
from typing import Iterator

from .files import remove, writing_to
from .locks import is_locked, locked

TAKEN = (errno.ENOTEMPTY, errno.EEXIST, errno.ENOTDIR)  # another process was first
LOCK = "lock"  # lock file of a temporary folder
YOUNG = 60  # seconds in which a process may not have locked its new folder yet


@contextlib.contextmanager
def scratch(what: str) -> Iterator[Path]:
    """Yield a temporary folder, locked as long as it exists.

    Unlocked ones of this user are removed first, unless they are new: a killed run left them. The lock also protects
    folders of other machines that share the disk.
    """
    for other in Path(tempfile.gettempdir()).glob("ttm-tools-*"):
        with contextlib.suppress(OSError):
            lock = other / LOCK
            found = other.stat()
            is_left = found.st_uid == os.getuid() and time.time() - found.st_mtime > YOUNG and lock.is_file()
            if is_left and not is_locked(lock):
                remove(other)
    with tempfile.TemporaryDirectory(prefix=f"ttm-tools-{what}.") as folder:
        room = Path(folder) / "room"
        with locked(room, Path(folder) / LOCK):
            room.mkdir(0o700)
            yield room


@dataclass
class NewFolder:
    """A folder that is being written: its temporary name, and its final one once it is complete."""

    aside: Path
    folder: Path


@contextlib.contextmanager
def numbered_folder(parent: str | Path) -> Iterator[NewFolder]:
    """Yield a new folder inside `parent`; when the block ends well, its name becomes the first free number from 1 on.

    Several threads, processes and hosts may do so at once; each gets a number of its own.
    """
    out = Path(parent)
    out.mkdir(parents=True, exist_ok=True)
    aside = out / f".part.{os.getpid()}.{secrets.token_hex(8)}"
    new = NewFolder(aside, aside)
    try:
        aside.mkdir()
        with writing_to(out):
            yield new
        new.folder = rename_to_free_number(aside, out)
    finally:
        remove(aside)


def rename_to_free_number(aside: Path, out: Path) -> Path:
    """Rename a folder that is not empty, relying on the system to refuse a name that is taken."""
    for number in itertools.count(1):
        folder = out / str(number)
        if not os.path.lexists(folder):
            try:
                os.rename(aside, folder)
            except OSError as fault:
                if fault.errno not in TAKEN:
                    raise
            else:
                return folder
    raise AssertionError("numbers do not end")
