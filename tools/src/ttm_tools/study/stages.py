"""Stages of a study, each done once: it counts as done when its record is there, has the checksum of all that its
outputs depend on, and these have the sums that it states. Whatever else is found is removed, never taken.
"""

import contextlib
import fcntl
import hashlib
import json
import os
import time
from dataclasses import dataclass, field
from functools import cache
from pathlib import Path
from typing import Any, Callable, Iterator, Sequence

from .. import __version__
from ..core.console import say
from ..core.errors import InputError
from ..core.files import all_in, atomic_path, outputs_noted, remove, sha256_of_file
from ..core.shipped import DATA

RECORDS = "stages"
LOCK, MARK = ".lock", "a folder of ttm-tools study\n"
LOG = "stages/log.jsonl"
FACTS: dict[str, type | tuple[type, ...]] = {"at": str, "kind": str, "name": str, "seconds": (int, float)}  # of a log
TASK = "parts/run.json"  # what other machines compute, until an input changes
PACKAGE = Path(__file__).resolve().parents[1]


@dataclass(frozen=True)
class Stage:
    name: str
    depends: dict[str, Any]  # all that its outputs depend on: arguments, and sums of files
    outputs: Sequence[str]  # files, by names with a suffix, and folders, from the study's folder on
    make: Callable[[], list[str]]  # writes them, a folder by `atomic_folder`, and says what was done
    of_tools: bool = True  # whether the outputs depend on the tools: other tools repeat the stage
    keeps_task: bool = False  # whether other machines still compute what is needed
    refuse_changed: Callable[[], None] = lambda: None  # says what isn't as it was when its sum was taken
    stated: dict[str, str] = field(default_factory=dict)  # sums of files from outside, by the study's file's paths

    @property
    def key(self) -> str:
        """The sum of all that the outputs depend on."""
        tools = sum_of_tools() if self.of_tools else ""
        return key_of({"stage": self.name, "tools": tools, "depends": self.depends})


@dataclass(frozen=True)
class Record:
    """What is known of a stage that was done."""

    key: str
    outputs: dict[str, str]  # files from the study's folder on, with their sums
    lines: list[str]  # what was reported
    seconds: float


def key_of(facts: Any) -> str:
    return hashlib.sha256(json.dumps(facts, sort_keys=True, ensure_ascii=True).encode()).hexdigest()


@cache
def sum_of_tools() -> str:
    """The sum of the tools themselves, by their version and their files; of a wheel without what else it has."""
    found = (path for path in PACKAGE.rglob("*") if path.is_file() and "__pycache__" not in path.parts)
    files = sorted(path for path in found if DATA not in path.parents)
    return key_of([__version__, [[str(path.relative_to(PACKAGE)), sha256_of_file(path)] for path in files]])


def files_in(path: Path) -> list[Path]:
    """A file, or all files of a folder."""
    return sorted(path for path in path.rglob("*") if path.is_file()) if path.is_dir() else [path]


def fsync(path: Path) -> None:
    """Has the disk hold a file or folder, so that no power cut loses it."""
    handle = os.open(path, os.O_RDONLY)
    try:
        os.fsync(handle)
    finally:
        os.close(handle)


def write_durably(path: Path, text: str) -> None:
    """Writes a text that is whole under its name even after a power cut."""
    with atomic_path(path) as aside:
        aside.write_text(text, encoding="utf-8")
        fsync(aside)
    fsync(path.parent)


def as_text(facts: Any) -> str:
    return json.dumps(facts, indent=2, ensure_ascii=False) + "\n"


def facts_in(path: Path) -> dict[str, Any]:
    """What was written in a study's folder by `as_text`; nothing where it isn't there, or isn't whole."""
    try:
        return dict(json.loads(path.read_text(encoding="utf-8")))
    except (OSError, ValueError, TypeError):
        return {}


class Folder:
    """The folder of a study: what is in it, and which of its stages are done."""

    def __init__(self, path: Path, sources: Path | None = None) -> None:
        self.path, self.sources = path, sources  # the folder, and that of the study's file

    def at(self, name: str) -> Path:
        return self.path / name

    def shown(self, text: str) -> str:
        """A text whose paths inside the folder begin there, as those of the study do wherever it lies."""
        return text.replace(f"{self.path.absolute()}{os.sep}", "")

    def recorded(self, line: str) -> str:
        """A line of a stage, whose paths begin in the study's folder or next to the study's file, as that has them."""
        line = self.shown(line)
        return line if self.sources is None else line.replace(f"{self.sources.absolute()}{os.sep}", "")

    @contextlib.contextmanager
    def shown_in_faults(self) -> Iterator[None]:
        """Has faults of the block name files of the folder from there on."""
        try:
            yield
        except InputError as fault:
            fault.file, fault.what = self.shown(fault.file), self.shown(fault.what)
            fault.args = tuple(self.shown(str(text)) for text in fault.args)
            raise
        except OSError as fault:
            if isinstance(fault.filename, str):
                fault.filename = self.shown(fault.filename)
            raise

    def record(self, name: str) -> Record | None:
        """What is known of a stage; nothing where it wasn't done to its end."""
        try:
            return Record(**facts_in(self.path / RECORDS / f"{name}.json"))
        except TypeError:
            return None

    def is_done(self, stage: Stage, record: Record) -> bool:
        """Whether nothing was changed since a stage was done."""
        there = {str(file.relative_to(self.path)) for name in stage.outputs for file in files_in(self.at(name))}
        return there == set(record.outputs) and all(
            self.at(name).is_file() and sha256_of_file(self.at(name)) == was for name, was in record.outputs.items()
        )

    def owned(self) -> set[str]:
        """The files that stages wrote, and those that were begun may have written."""
        known = [self.record(path.stem) for path in self.at(RECORDS).glob("*.json")]
        names = {name for record in known if record is not None for name in record.outputs}
        for path in self.at(RECORDS).glob("*.begun"):
            with contextlib.suppress(ValueError):
                names.update(json.loads(path.read_text(encoding="utf-8")))
        return names

    def there(self, stage: Stage) -> list[str]:
        """The files that are there in the places of a stage's outputs."""
        return [os.path.relpath(file, self.path) for name in stage.outputs for file in all_in(self.at(name))]

    def refuse_foreign(self, stage: Stage) -> None:
        """Refuses to replace what no stage wrote."""
        owned = self.owned()
        for name in self.there(stage):
            if name not in owned:
                raise InputError(
                    self.at(name), "doesn't belong to this study, which would replace it: move it elsewhere"
                )

    def make_anew(self, stage: Stage) -> list[str]:
        """Removes what was there, and writes the outputs. At any moment the files that a kill would leave are noted:
        those that are removed; then files under their names, and folders file by file, as soon as they are whole.
        """
        begun = self.at(f"{RECORDS}/{stage.name}.begun")
        files = [name for name in stage.outputs if Path(name).suffix]

        def note(more: Sequence[Path | str]) -> None:
            write_durably(begun, as_text([*files, *(os.path.relpath(path, self.path) for path in more)]))

        note([self.at(name) for name in self.there(stage)])
        self.at(f"{RECORDS}/{stage.name}.json").unlink(missing_ok=True)
        if not stage.keeps_task:
            self.at(TASK).unlink(missing_ok=True)
        for name in stage.outputs:
            remove(self.at(name))
            self.at(name).parent.mkdir(parents=True, exist_ok=True)
        note([])
        with outputs_noted(note):
            return [self.recorded(line) for line in stage.make()]

    def do(self, stage: Stage) -> Record:
        """Does a stage, unless it was done."""
        key = stage.key
        found = self.record(stage.name)
        if found is not None and found.key == key and self.is_done(stage, found):
            return found
        say(f"{stage.name} ..")
        self.refuse_foreign(stage)
        begin = time.monotonic()
        lines = self.make_anew(stage)
        stage.refuse_changed()
        files = [file for name in stage.outputs for file in files_in(self.at(name)) if file.is_file()]
        for file in files:
            fsync(file)
        sums = {str(file.relative_to(self.path)): sha256_of_file(file) for file in files}
        record = Record(key, sums, lines, round(time.monotonic() - begin, 3))
        write_durably(self.path / RECORDS / f"{stage.name}.json", as_text(vars(record)))
        self.at(f"{RECORDS}/{stage.name}.begun").unlink()
        log(self.path, "stage", stage.name, record.seconds)
        for line in lines:
            say(f"  {line}")
        return record


@contextlib.contextmanager
def room(study: Path) -> Iterator[Path]:
    """A temporary folder in that of the study; if this command is killed, the next one removes it."""
    folder = study / f".part.{os.getpid()}.room"
    remove(folder)
    folder.mkdir()
    try:
        yield folder
    finally:
        remove(folder)


def log(study: Path, kind: str, name: str, seconds: float) -> None:
    """Notes what was done in a study's folder, when, and how long it took, behind what was noted before."""
    facts = {"at": time.strftime("%Y-%m-%dT%H:%M:%SZ", time.gmtime()), "kind": kind, "name": name, "seconds": seconds}
    with open(study / LOG, "a", encoding="utf-8") as file:
        file.write(json.dumps(facts) + "\n")


def logged(study: Path) -> list[dict[str, Any]]:
    """What was noted; a line that a kill cut short isn't."""
    entries, path = list[dict[str, Any]](), study / LOG
    text = path.read_text(encoding="utf-8", errors="replace") if path.is_file() else ""
    for line in text.splitlines():
        with contextlib.suppress(ValueError, RecursionError):
            facts = json.loads(line)
            if isinstance(facts, dict) and all(isinstance(facts.get(name), kind) for name, kind in FACTS.items()):
                entries.append(facts)
    return entries


@contextlib.contextmanager
def locked_folder(folder: Path) -> Iterator[None]:
    """Holds a study's folder, so that no two commands work in it at once."""
    refuse_folder(folder)
    folder.mkdir(parents=True, exist_ok=True)
    with open(folder / LOCK, "a") as file:
        try:
            fcntl.flock(file, fcntl.LOCK_EX | fcntl.LOCK_NB)
        except OSError:
            raise InputError(folder, "another ttm-tools study works in this folder") from None
        if not os.fstat(file.fileno()).st_size:
            file.write(MARK)
            file.flush()
        yield


def refuse_folder(folder: Path) -> None:
    """Refuses a folder that isn't empty and no study's: what is in it is the person's."""
    if not os.path.lexists(folder):
        return
    if not folder.is_dir():
        raise InputError(folder, "is not a folder")
    names, lock = {path.name for path in folder.iterdir()}, folder / LOCK
    of_a_study = lock.is_file() and (lock.read_bytes() == MARK.encode() or (folder / LOG).is_file())
    if not of_a_study and names - {LOCK}:
        raise InputError(folder, "isn't empty, and isn't the folder of a study: name a new one with --out")
