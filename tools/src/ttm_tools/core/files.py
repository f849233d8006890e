"""Outputs that appear only when they are complete.

`output` and `atomic_path` write a file, `atomic_folder` a folder. Until the block ends well, what is written has a
temporary name next to the output; after an error or a signal nothing is left of it.
"""

import contextlib
import errno
import hashlib
import os
import re
import shutil
import socket
import stat
import sys
import tempfile
from functools import cache
from pathlib import Path
from typing import BinaryIO, Callable, Iterator, Sequence

from .errors import InputError
from .locks import lock_file, locked
from .provenance import is_command, note_output, refuse_foreign, refuse_input
from .signals import no_signals

FULL = (errno.ENOSPC, errno.EDQUOT, errno.EFBIG)
LONGEST_NAME = 200  # bytes of a file's name that appear in its temporary name
Note = Callable[[Sequence[Path]], None]
_outputs: Note | None = None


@contextlib.contextmanager
def outputs_noted(note: Note) -> Iterator[None]:
    """Call `note` with the files of each folder that the block writes, before they get their names."""
    global _outputs
    before, _outputs = _outputs, note
    try:
        yield
    finally:
        _outputs = before


def all_in(path: Path) -> list[Path]:
    """Return all files below a folder, or the path itself if it exists and is no folder. Links are not followed."""
    if path.is_symlink() or not path.is_dir():
        return [path] if os.path.lexists(path) else []
    return sorted(path for path in path.rglob("*") if path.is_symlink() or not path.is_dir())


def is_full(fault: OSError) -> bool:
    """Return whether the disk is full, or the file reached its size limit."""
    return fault.errno in FULL


@contextlib.contextmanager
def writing_to(path: str | Path) -> Iterator[None]:
    """Let errors about a full disk name the output; when a file is copied, Python names the source."""
    try:
        yield
    except OSError as fault:
        if is_full(fault) and (fault.filename is None or fault.filename2 is not None):
            fault.filename, fault.filename2 = str(path), None
        raise


def copy_file(source: str | Path, target: str | Path) -> None:
    """Copy the bytes of a file."""
    with writing_to(target):
        shutil.copyfile(source, target)


def short_name(name: str) -> str:
    """Return a file name for use inside another one; a long name is replaced by its checksum."""
    written = os.fsencode(name)
    return name if len(written) <= LONGEST_NAME else hashlib.sha256(written).hexdigest()


@cache
def this_machine() -> str:
    """Return eight digits that identify this machine, its boot, and the process namespace of a container."""
    facts = [socket.gethostname()]
    with contextlib.suppress(OSError):
        facts.append(Path("/proc/sys/kernel/random/boot_id").read_text(encoding="ascii"))
        facts.append(str(os.stat("/proc/self/ns/pid").st_ino))
    return hashlib.sha256(" ".join(facts).encode()).hexdigest()[:8]


def aside_name(path: Path) -> Path:
    """Return the temporary name of an output: next to it, with this process and machine in it."""
    return path.with_name(f".part.{os.getpid()}-{this_machine()}.{short_name(path.name)}")


def place_of(path: Path) -> Path:
    """Return the path of an output in the nearest folder above it that exists; its lock file lies there, too."""
    whole = Path(os.path.abspath(path))
    return next((parent for parent in whole.parents if parent.is_dir()), whole) / (whole.name or "files")


@contextlib.contextmanager
def outputs_locked(paths: Sequence[str]) -> Iterator[None]:
    """Lock the outputs of a command while it runs, and refuse those that it must not replace."""
    with contextlib.ExitStack() as locks:
        for path in map(target_of, paths):
            if not is_stream(path):
                locks.enter_context(output_locked(path))
                refuse_foreign(path)
        yield


def output_locked(path: Path) -> contextlib.AbstractContextManager[bool]:
    """Lock an output. If another process has the lock, a command is refused; a study waits."""
    place = place_of(path)
    return locked(place, lock_file(place, short_name(place.name)), waits=not is_command())


def target_of(path: str | Path) -> Path:
    """Return the file that an output replaces. A command follows links, so the link itself stays."""
    return Path(path) if not is_command() or is_stream(path) else Path(os.path.realpath(path))


def is_stream(path: str | Path) -> bool:
    """Return whether a command's output is a pipe or a device such as /dev/null, which it must not replace."""
    with contextlib.suppress(OSError):
        kind = os.stat(path).st_mode
        return is_command() and (stat.S_ISFIFO(kind) or stat.S_ISCHR(kind))
    return False


@contextlib.contextmanager
def written_to_stream(path: Path) -> Iterator[Path]:
    """Yield a temporary path; when the block ends well, what it wrote there is copied to a pipe or device."""
    with tempfile.TemporaryDirectory(prefix="ttm-tools-out.") as folder:
        aside = Path(folder) / path.name
        yield aside
        with writing_to(path), open(aside, "rb") as file, open(path, "wb") as stream:
            shutil.copyfileobj(file, stream)


def is_running(process: int) -> bool:
    """Return whether a process of this machine is running."""
    try:
        os.kill(process, 0)
    except ProcessLookupError:
        return False
    except PermissionError:
        pass
    return True


def remove(path: Path) -> None:
    """Remove a file or folder, if it exists."""
    if path.is_dir() and not path.is_symlink():
        shutil.rmtree(path, ignore_errors=True)
    else:
        path.unlink(missing_ok=True)


def remove_leavings(path: Path) -> None:
    """Remove temporary files that killed runs (SIGKILL, a power cut) left next to an output.

    The caller has locked the output, so no other process is writing it.
    """
    form = re.compile(r"\.part\.[0-9]+(-[0-9a-f]{8})?\." + re.escape(short_name(path.name)))
    for other in path.parent.iterdir() if path.parent.is_dir() else ():
        if form.fullmatch(other.name) and other != aside_name(path):
            remove(other)


@contextlib.contextmanager
def atomic_path(path: str | Path) -> Iterator[Path]:
    """Yield a temporary path to write to; the file is renamed to `path` when the block ends well.

    Raises
    ------
    InputError
        `path` is an input of the command, or a file that the command must not replace.
    """
    whole = target_of(path)
    if is_stream(whole):
        with written_to_stream(whole) as aside:
            yield aside
        return
    refuse_input(whole)
    refuse_foreign(whole)
    with output_locked(whole) as has_lock:
        if has_lock:
            remove_leavings(whole)
        aside = aside_name(whole)
        try:
            with writing_to(whole):
                yield aside
            refuse_input(whole)
            refuse_foreign(whole, aside)
            note_output(aside)
            with no_signals():
                os.replace(aside, whole)
        finally:
            remove(aside)


@contextlib.contextmanager
def atomic_folder(folder: str | Path) -> Iterator[Path]:
    """Yield an empty temporary folder; its files are all moved to `folder` when the block ends well."""
    whole = Path(folder)
    found = next(parent for parent in (whole, *whole.parents) if parent.exists())
    aside = aside_name(found / (whole.name or "files"))
    with output_locked(whole) as has_lock:
        if has_lock:
            remove_leavings(found / (whole.name or "files"))
        try:
            aside.mkdir()
            with writing_to(whole):
                yield aside
            move_all(aside, whole)
        finally:
            remove(aside)


def move_all(aside: Path, whole: Path) -> None:
    """Move the files of a folder to another one, or none of them if one must not be replaced."""
    files = sorted(aside.iterdir())
    for file in files:
        refuse_input(whole / file.name)
        refuse_foreign(whole / file.name, file)
    for file in all_in(aside):
        note_output(file)
    if _outputs is not None:
        _outputs([whole / path.relative_to(aside) for path in all_in(aside)])
    with no_signals():
        whole.mkdir(parents=True, exist_ok=True)
        for file in files:
            os.replace(file, whole / file.name)


def require_empty(out: Path) -> None:
    """Raise an `InputError` unless an output folder is empty or does not exist."""
    if out.exists() and (not out.is_dir() or any(out.iterdir())):
        raise InputError(out, "already exists, and isn't empty")


@contextlib.contextmanager
def output(path: str | None) -> Iterator[BinaryIO]:
    """Yield a file that appears at `path` when the block ends well, or standard output if `path` is None."""
    if path is None:
        yield sys.stdout.buffer
        sys.stdout.buffer.flush()
        return
    with atomic_path(path) as aside:
        with open(aside, "wb") as file:
            yield file


def sha256_of_file(path: str | Path) -> str:
    """Return the SHA-256 checksum of a file's bytes, in hexadecimal digits."""
    with open(path, "rb") as file:
        return hashlib.file_digest(file, "sha256").hexdigest()
