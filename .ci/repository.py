"""The repository as the gate sees it: its crates, their files, their must-fail edits and planted bugs."""

from __future__ import annotations

import re
import subprocess
from collections.abc import Iterator
from dataclasses import dataclass
from pathlib import Path
from typing import Any

PROMISE_NOTHING = re.compile(r"_tests$|_trials$|^measure$")  # crates that only test or measure
# how a command runs whose output is read as one text
PIPED: dict[str, Any] = {
    "stdin": subprocess.DEVNULL,
    "stdout": subprocess.PIPE,
    "stderr": subprocess.STDOUT,
    "text": True,
    "errors": "replace",
}


@dataclass(frozen=True)
class Count:
    """How many checks passed, failed, and were skipped."""

    passed: int = 0
    failed: int = 0
    skipped: int = 0

    def __add__(self, other: Count) -> Count:
        return Count(self.passed + other.passed, self.failed + other.failed, self.skipped + other.skipped)

    def __str__(self) -> str:
        return f"{self.passed} passed, {self.failed} failed" + (f", {self.skipped} skipped" if self.skipped else "")


@dataclass(frozen=True)
class Crate:
    """A crate of crates.txt: its line there, and the crates of this repository right below it."""

    line: str
    right_below: list[str]


Crates = dict[str, Crate]


def name_in(line: str) -> str:
    """The crate that a line of crates.txt lists; of a comment or an empty line none."""
    names = line.split("#")[0].split(":")[0].split()
    return names[0] if names else ""


def crates_of(root: Path) -> Crates:
    listed = (root / "crates.txt").read_text().splitlines()
    lines = {name_in(line): line for line in listed if name_in(line)}
    lower = {name: line.split(":")[1].split() for name, line in lines.items()}
    return {name: Crate(line, [text for text in lower[name] if text in lines]) for name, line in lines.items()}


def below(crates: Crates, name: str) -> list[str]:
    """All crates that a crate stands on, in the order of their names."""
    found: set[str] = set()
    left = list(crates[name].right_below)
    while left:
        crate = left.pop()
        if crate not in found:
            found.add(crate)
            left += crates[crate].right_below
    return sorted(found)


def edits_of(root: Path, name: str, folder: str = "must-fail") -> list[Path]:
    return sorted((root / "crates" / name / folder).glob("*.edit"))


def files_of(folder: Path) -> list[Path]:
    return sorted(path for path in folder.rglob("*") if path.is_file()) if folder.is_dir() else []


def sources_of(root: Path, crate: str) -> list[Path]:
    return [path for path in files_of(root / "crates" / crate / "src") if path.suffix == ".rt"]


def source_of(root: Path, crate: str) -> str:
    return "\n".join(path.read_text() for path in sources_of(root, crate))


def begins_a_body(line: str, indent: str) -> bool:
    heads = tuple(indent + name for name in (")", "pub", "fn", "const", "struct", "enum"))
    return line.endswith(("{}", ";")) or line == indent + "{" or line.startswith(heads) and line.endswith(" {")


def head_of(line: str, lines: Iterator[str], indent: str) -> list[str]:
    """An item's lines up to that with which its body begins: a function's signature and clauses. Those of a clause may
    end as a body begins, so they are found by its braces.
    """
    head, depth = [line], 0
    while depth or not begins_a_body(line, indent):
        depth += line.count("{") - line.count("}")
        if not depth and line.endswith(";"):
            break
        line = next(lines, indent + "{}")
        head.append(line)
    return head


def test_modules(folder: Path) -> set[str]:
    """The files of a crate that are read for its tests alone."""
    root = "\n".join(item.read_text() for item in [folder / "lib.rt", folder / "main.rt"] if item.is_file())
    return {f"{name}.rt" for name in re.findall(r"#\[cfg\(test\)\]\s*(?:pub )?mod (\w+);", root)}
