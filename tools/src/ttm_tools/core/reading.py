"""Files from outside: their kind and size are checked before they are read, and errors become one line.

Only regular files are opened. An exception of a library becomes an `InputError` that names the file.
"""

import contextlib
import csv
import json
import os
import stat
import threading
import tomllib
from decimal import Decimal
from functools import lru_cache
from pathlib import Path
from typing import Any, Iterable, Iterator

from .errors import ArgumentError, InputError, MissingDependencyError
from .files import is_full
from .limits import MOST_JSON, MOST_TOML
from .provenance import note_input

KINDS = (
    (stat.S_ISFIFO, "a pipe"),
    (stat.S_ISSOCK, "a socket"),
    (stat.S_ISCHR, "a device"),
    (stat.S_ISBLK, "a device"),
    (stat.S_ISDIR, "a folder"),
)
MOST_REPORTED = 300  # characters of a library's message
MOST_LINE = 1 << 20  # bytes of a table's line
MOST_COLUMNS = 10_000
UTF_16 = (b"\xff\xfe", b"\xfe\xff")  # byte order marks
LIMIT = threading.Lock()  # guards the field size limit of the csv module, which is global


def regular(path: str | Path) -> os.stat_result:
    """Return the status of a regular file, and register it as an input of the command.

    Raises
    ------
    InputError
        The file does not exist, or is a folder, pipe, socket or device.
    """
    try:
        found = os.stat(path)
    except OSError as fault:
        raise InputError(path, fault.strerror) from None
    except ValueError:
        raise InputError(repr(path), "is not a path") from None
    for is_kind, name in KINDS:
        if is_kind(found.st_mode):
            raise InputError(path, f"is not a file but {name}")
    note_input(found)
    return found


def sized(path: str | Path, most: int, what: str) -> int:
    """Return the size of a file in bytes, or raise an `InputError` if it is larger than `most`."""
    size = regular(path).st_size
    if size > most:
        raise InputError(path, f"has {size:,} bytes; {what} has at most {most:,}", limit=most)
    return size


def inside(folder: Path, file: Path) -> Path:
    """Return a file of a folder, or raise an `InputError` if it is a link that leads out of the folder."""
    if not file.resolve().is_relative_to(folder.resolve()):
        raise InputError(file, "is a link that leads out of the folder")
    return file


@contextlib.contextmanager
def as_one_line(path: str | Path, what: str) -> Iterator[None]:
    """Turn what a library raises about a file into an `InputError`; `what` says what failed.

    Errors of the tools, out of memory and a full disk pass unchanged.
    """
    try:
        yield
    except (InputError, MissingDependencyError, ArgumentError, MemoryError):
        raise
    except Exception as fault:
        if isinstance(fault, OSError) and is_full(fault):
            raise
        message = str(fault) or type(fault).__name__
        raise InputError(path, f"{what}: {message[:MOST_REPORTED]}") from fault


def read_text(path: str | Path, most: int, what: str) -> str:
    """Read a text file of at most `most` bytes; `what` names its kind in errors."""
    sized(path, most, what)
    with as_one_line(path, f"is not {what}"):
        return Path(path).read_text(encoding="utf-8-sig")


def read_bytes(path: str | Path, most: int, what: str) -> bytes:
    """Read a file of at most `most` bytes; `what` names its kind in errors."""
    sized(path, most, what)
    with as_one_line(path, f"is not {what}"):
        return Path(path).read_bytes()


def read_toml(path: str | Path) -> tuple[str, dict[str, Any]]:
    """Read a TOML file; returns its text and its contents."""
    text = read_text(path, MOST_TOML, "a TOML file")
    with as_one_line(path, "is not a TOML file"):
        return text, tomllib.loads(text, parse_float=Decimal)


def read_json(path: str | Path, what: str) -> Any:
    """Read a JSON file; `what` names its kind in errors."""
    text = read_text(path, MOST_JSON, what)
    with as_one_line(path, f"is not {what}"):
        return json.loads(text)


def csv_records(file: Iterable[str]) -> Iterator[list[str]]:
    """Yield the records of a CSV file, whose fields may be as long as a line.

    The limit of the csv module is raised only while a record is read, so other readers keep theirs.
    """
    reader = csv.reader(file)
    while True:
        with LIMIT:
            before = csv.field_size_limit(MOST_LINE)
            try:
                fields = next(reader, None)
            finally:
                csv.field_size_limit(before)
        if fields is None:
            return
        yield fields


def checked_table(path: str | Path) -> str | Path:
    """Return the path of a table after checking its kind, its encoding and the length of its lines."""
    found = regular(path)
    check_lines(os.path.abspath(path), found.st_ino, found.st_size, found.st_mtime_ns, str(path))
    return path


@lru_cache(maxsize=64)
def check_lines(path: str, inode: int, size: int, changed: int, named: str) -> None:
    """Check the bytes of a table, once for each version of the file.

    Raises
    ------
    InputError
        The file is UTF-16, or has a line that is too long.
    """
    length = 0  # of the current line, over several blocks
    with open(path, "rb") as file:
        if file.read(2) in UTF_16:
            raise InputError(named, "is UTF-16, and tables are UTF-8: save it as UTF-8")
        file.seek(0)
        while block := file.read(MOST_LINE):
            first = min((place for place in (block.find(b"\n"), block.find(b"\r")) if place >= 0), default=-1)
            if length + (first if first >= 0 else len(block)) > MOST_LINE:
                raise InputError(named, f"a line of more than {MOST_LINE:,} bytes")
            last = max(block.rfind(b"\n"), block.rfind(b"\r"))
            length = length + len(block) if last < 0 else len(block) - last - 1
