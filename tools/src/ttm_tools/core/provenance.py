"""Which files a command may replace: those that it wrote itself and that have not changed since.

Each file that a command writes carries a note in an extended attribute: the command, and the file's size and time. On
a disk without such attributes, a file counts as the command's own if it begins like the new one.
"""

import contextlib
import errno
import os
import stat
from enum import Enum, auto
from pathlib import Path
from typing import Iterator, Sequence

from .errors import InputError

NOTE = "user.ttm-tools"  # Linux requires the prefix
SECONDS = 2  # that a file's time may differ from its note: some disks round times
LONGEST_LINE = 1 << 16  # bytes of a first line to compare
MAGIC = 8  # bytes that identify formats such as PNG, HDF5 and SQLite
NO_NOTES = (errno.ENOTSUP, errno.EOPNOTSUPP, errno.ENOSYS)
IS_INPUT = "is an input as well: name another output"
_inputs: set[tuple[int, int]] | None = None  # device and inode of each file that the command read
_command, _forces = "", False
_named: Sequence[str] = ()


class Writer(Enum):
    """The last writer of a file."""

    THIS_COMMAND = auto()
    OTHER = auto()  # another program, or the file changed since
    UNKNOWN = auto()  # the disk has no extended attributes


@contextlib.contextmanager
def command_runs(name: str, forces: bool = False, named: Sequence[str] = ()) -> Iterator[None]:
    """While a command runs, protect its inputs and, unless `forces`, all files that it did not write.

    `named` are the paths among its arguments that are no outputs.
    """
    global _inputs, _command, _forces, _named
    before = _inputs, _command, _forces, _named
    _inputs, _command, _forces, _named = set(), name, forces, named
    try:
        yield
    finally:
        _inputs, _command, _forces, _named = before


def is_command() -> bool:
    """Return whether files are protected."""
    return _inputs is not None


def note_input(found: os.stat_result) -> None:
    """Register a file that is opened for reading."""
    if _inputs is not None:
        _inputs.add((found.st_dev, found.st_ino))


def is_named(found: os.stat_result) -> bool:
    """Return whether a file is among the command's arguments, or is a table in a folder among them."""
    tables = [str(table) for name in _named if os.path.isdir(name) for table in Path(name).glob("*.txt")]
    return any(os.path.samestat(os.stat(path), found) for path in (*_named, *tables) if os.path.isfile(path))


def refuse_input(path: Path) -> None:
    """Raise an `InputError` if an output is also an input of the command."""
    with contextlib.suppress(OSError):
        found = os.stat(path)
        if _inputs is not None and (found.st_dev, found.st_ino) in _inputs:
            raise InputError(path, IS_INPUT)


def note_output(path: Path) -> None:
    """Write the command's note to a file, if the disk supports it."""
    if is_command():
        with contextlib.suppress(OSError, AttributeError):
            found = os.stat(path)
            os.setxattr(path, NOTE, f"{_command} {found.st_size} {int(found.st_mtime)}".encode())


def writer_of(path: Path) -> Writer:
    """Return the writer of a file according to its note."""
    try:
        command, size, seconds = os.getxattr(path, NOTE).decode().split()
        found = os.stat(path)
        is_same = found.st_size == int(size) and abs(int(found.st_mtime) - int(seconds)) <= SECONDS
    except AttributeError:
        return Writer.UNKNOWN
    except OSError as fault:
        return Writer.UNKNOWN if fault.errno in NO_NOTES else Writer.OTHER
    except ValueError:
        return Writer.OTHER
    return Writer.THIS_COMMAND if is_same and command == _command else Writer.OTHER


def refuse_foreign(path: Path, new: Path | None = None) -> None:
    """Raise an `InputError` if the command must not replace a file: it did not write it, and it is not empty.

    Without extended attributes, `new`, the file that would replace it, decides: the two must begin alike.
    """
    if _inputs is None or _forces or not os.path.exists(path):
        return
    found = os.stat(path)
    if not stat.S_ISREG(found.st_mode) or found.st_size == 0:
        return
    writer = writer_of(path)
    if writer is Writer.OTHER or writer is Writer.UNKNOWN and new is not None and not begins_alike(path, new):
        if is_named(found):
            raise InputError(path, IS_INPUT)
        message = f"ttm-tools {_command} did not write this file, or it was changed since: "
        raise InputError(path, f"{message}name another output, or add --force to replace it")


def begins_alike(path: Path, other: Path) -> bool:
    """Return whether two files have the same first line or, for binary files, the same first bytes."""
    heads = list[bytes]()
    for file in (path, other):
        with open(file, "rb") as opened:
            line = opened.readline(LONGEST_LINE)
        heads.append(line[:MAGIC] if b"\0" in line or line[:1] == b"\x89" else line)
    return heads[0] == heads[1]
