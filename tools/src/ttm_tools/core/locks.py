"""Locks: one process at a time writes an output, among all machines that share the disk."""

import contextlib
import errno
import fcntl
import os
import threading
from pathlib import Path
from typing import Iterator

from .errors import InputError

BUSY = (errno.EWOULDBLOCK, errno.EACCES)
_own: set[Path] = set()  # paths that this process has locked
_changing = threading.Lock()  # guards `_own`


def lock_file(path: Path, name: str) -> Path:
    """Return the lock file of `path`, next to it; `name` is the name of `path`, shortened if it is long."""
    return path.with_name(f".part.lock.{name}")


@contextlib.contextmanager
def locked(path: Path, lock: Path, waits: bool = False) -> Iterator[bool]:
    """Lock `path` while the block runs, and yield whether it is locked: some disks support no locks.

    Blocks of one process may be nested.

    Raises
    ------
    InputError
        Another process has the lock, and `waits` is false.
    """
    with _changing:
        nested = path in _own
        _own.add(path)
    handle = None
    try:
        handle = None if nested else acquired(path, lock, waits)
        yield nested or handle is not None
    finally:
        if handle is not None:
            with contextlib.suppress(OSError):
                os.unlink(lock)
            os.close(handle)
        if not nested:
            with _changing:
                _own.discard(path)


def acquired(path: Path, lock: Path, waits: bool) -> int | None:
    """Return an open file that holds the lock; None if the disk has no locks, or no file can be created."""
    while True:
        try:
            handle = os.open(lock, os.O_RDWR | os.O_CREAT | os.O_CLOEXEC | os.O_NOFOLLOW, 0o666)
        except OSError:
            return None  # the caller writes next, and gets the same error
        try:
            fcntl.flock(handle, fcntl.LOCK_EX if waits else fcntl.LOCK_EX | fcntl.LOCK_NB)
            with contextlib.suppress(OSError):
                if os.path.samestat(os.fstat(handle), os.stat(lock)):
                    return handle
        except OSError as fault:
            os.close(handle)
            if fault.errno in BUSY:
                raise InputError(path, "another command writes it at the moment") from None
            with contextlib.suppress(OSError):
                os.unlink(lock)
            return None
        os.close(handle)  # the previous holder removed this file while we waited: try again with the new one


def is_locked(lock: Path) -> bool:
    """Return whether a process holds a lock file, or may hold it."""
    try:
        handle = os.open(lock, os.O_RDWR | os.O_CLOEXEC | os.O_NOFOLLOW)
    except FileNotFoundError:
        return False
    except OSError:
        return True
    try:
        fcntl.flock(handle, fcntl.LOCK_EX | fcntl.LOCK_NB)
        return False
    except OSError:
        return True
    finally:
        os.close(handle)
