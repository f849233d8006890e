"""Tries planted bugs, many by one check: those that change different functions are planted together.

A function is proved from its own body and the contracts of what it calls, so whether the prover refuses it has nothing
to do with what was planted in other bodies. An edit is refused where the check says of its function that it is not
proved. Where it says that a function has no proof, since one that it calls isn't proved, the edit waits for the next
check; so does one whose function or text another edit has taken. What can't be decided so (an edit of a constant or a
definition, or of one of two functions of one name) is tried alone: then the crate must not be proved. An edit that the
prover can't read is not refused, and no edit is where the crate isn't proved without any. Where a proof only names a
goal that the edit took away, such as one that has an operator in its name, the refusal says little, and this is said.

Standard library only.
"""

from __future__ import annotations

import re
import subprocess
from collections.abc import Callable
from dataclasses import dataclass, field
from pathlib import Path

import repository

PROVED, REFUSED, WAITS, UNKNOWN = "proved", "refused", "waits", "unknown"
HEAD = re.compile(r" *(?:pub(?:\([a-z]+\))? )?(?:(?:const|unsafe|final) )*fn (\w+)")
VERDICT = re.compile(r"(fn|impl) (\S+): (proved|not proved|no proof: expected answers|no proof: it calls)\b")
LOGIC = re.compile(r"logic=(proved|not-proved)\b")
ERROR = re.compile(r"(?:\./)?(?:src|specs)/\S+:\d+:\d+: error(\[[\w-]+\])?: (?:(`[^`]*`): )?(.*)")
OF_PROOF = re.compile(r"(?:note: )?(?:\./)?proofs/(\S+)/\w+\.antt:\d+:\d+: (.*)")
UNPROVED = re.compile(r"note: (?:\./)?(src/\S+?):(\d+):\d+: it is not proved")
NAMES_ONLY = re.compile(r"has no field|is not in scope|has no `|was not admitted")
UNREADABLE = re.compile(r"is not in scope|has no field|is no name|operand is missing|expected the end|cannot continue")

Texts = Callable[[str], str]


def lines_of(command: list[str], folder: Path) -> list[str]:
    """What a command prints, line by line."""
    lines: list[str] = subprocess.run(command, cwd=folder, **repository.PIPED).stdout.split("\n")
    return lines


class Edit:
    """A planted bug: what of which file is replaced by what, and the function that it changes, if its name says it."""

    def __init__(self, path: Path) -> None:
        self.path, self.name = path, path.name
        self.replacements: list[tuple[str, str, str]] = []
        file = old = ""
        for line in path.read_text().split("\n"):
            word, _, text = line.partition(" ")
            if word == "file:":
                file = text.strip()
            elif word == "old:":
                old = text
            elif word == "new:":
                self.replacements.append((file, old, text))
        parts = self.name.split(".")
        module = re.fullmatch(r"src/(.+)\.rt", self.replacements[0][0]) if self.replacements else None
        known = len(parts) == 4 and module
        self.function: tuple[str, str] | None = (module[1].replace("/", "::"), parts[1]) if known and module else None

    def applied(self, texts: Texts) -> dict[str, str] | None:
        """The texts of the files that it changes, replacement by replacement; nothing where a text isn't there once."""
        texts_changed: dict[str, str] = {}
        for file, old, new in self.replacements:
            text = texts_changed.get(file, texts(file))
            if text.count(old) != 1:
                return None
            texts_changed[file] = text.replace(old, new)
        return texts_changed


def choose(edits: list[Edit], texts: Texts) -> tuple[list[Edit], dict[str, str]]:
    """The edits of the next check, one for each function, no two in one text; and the texts that they change."""
    chosen: dict[tuple[str, str], Edit] = {}
    changed: dict[str, str] = {}
    for edit in edits:
        if edit.function and edit.function not in chosen and edit.applied(texts):
            own = edit.applied(lambda file: changed.get(file, texts(file)))
            if own:
                chosen[edit.function] = edit
                changed |= own
    return list(chosen.values()), changed


def unread(lines: list[str]) -> str:
    """What says that the prover could not read a text, which it can where an edit only makes a statement false."""
    for line in lines:
        found = ERROR.match(line)
        if found and (found[1] or not found[2] or UNREADABLE.search(re.sub(r"`[^`]*`", "", found[3]))):
            return line[:200]
    return ""


def verdict_of(crate: str, edit: Edit, lines: list[str]) -> str:
    """What a check says of the function that an edit changes."""
    module, function = edit.function or ("", "")
    of_module = re.escape("::".join([crate] + ([] if module in ("lib", "main") else [module])))
    named = re.compile(of_module + r"(::\w+)?::" + re.escape(function))
    verdicts = [match[3] for match in map(VERDICT.match, lines) if match and named.fullmatch(match[2])]
    if len(verdicts) != 1:
        return UNKNOWN
    return {"proved": PROVED, "no proof: it calls": WAITS}.get(verdicts[0], REFUSED)


def is_by_name(edit: Edit, lines: list[str], source: str) -> bool:
    """Whether all that a check finds wrong with the edit's function are names in its proofs that the edit took away: it
    leaves no goal of the function open in this source.
    """
    module, function = edit.function or ("", "")
    of_module = "" if module in ("lib", "main") else re.escape(module.replace("::", "/")) + "/"
    folder = re.compile(of_module + r"(\w+/)?" + re.escape(function))
    found = [match[2] for match in map(OF_PROOF.match, lines) if match and folder.fullmatch(match[1])]
    goals = [int(match[2]) for match in map(UNPROVED.match, lines) if match and match[1] == edit.replacements[0][0]]
    is_open = any(line in lines_of_function(source, function) for line in goals)
    return bool(found) and not is_open and all(NAMES_ONLY.search(text) for text in found)


def lines_of_function(source: str, function: str) -> range:
    """The numbers of the lines of a function, up to the next one."""
    heads = [(at, match[1]) for at, line in enumerate(source.split("\n"), 1) if (match := HEAD.match(line))]
    starts = [at for at, name in heads if name == function]
    ends = [at for at, _ in heads if starts and at > starts[0]]
    return range(starts[0], ends[0] if ends else source.count("\n") + 2) if starts else range(0)


def logic_of(lines: list[str]) -> str | None:
    """The logic's verdict on the crate; none where the check came to none."""
    found = [match[1] for match in map(LOGIC.match, lines) if match]
    return found[-1] if found else None


@dataclass
class Outcome:
    """The names of a crate's edits that were refused, those by a missing name alone, and why others weren't."""

    crate: str
    refused: list[str] = field(default_factory=list)
    by_name: list[str] = field(default_factory=list)
    others: dict[str, str] = field(default_factory=dict)

    def tell(self) -> None:
        sentences = [f"{self.crate}/{name}: NOT REFUSED: {why}" for name, why in self.others.items()]
        why = "refused only because a proof names what it took away: change a value and keep the names"
        sentences += [f"{self.crate}/{name}: {why}" for name in self.by_name]
        count = len(self.refused) + len(self.others)
        print("\n".join([*sentences, f"{self.crate}: {len(self.refused)} of {count} edits refused"]), flush=True)


class Trial:
    """The edits of a crate, tried in a copy of it by a command that checks it."""

    def __init__(self, folder: Path, command: list[str]) -> None:
        self.folder, self.crate, self.command = folder, folder.name, command
        self.base: dict[str, str] = {}
        self.by_name: list[str] = []

    def texts(self, file: str) -> str:
        if file not in self.base:
            self.base[file] = (self.folder / file).read_text()
        return self.base[file]

    def check(self, changed: dict[str, str]) -> list[str]:
        """The lines that a check prints with these texts of files."""
        for file, text in changed.items():
            (self.folder / file).write_text(text)
        try:
            return lines_of(self.command, self.folder)
        finally:
            for file in changed:
                (self.folder / file).write_text(self.base[file])

    def alone(self, edit: Edit) -> str:
        """Why the prover doesn't refuse this edit alone; nothing where it does."""
        changed = edit.applied(self.texts)
        if not changed:
            return "what it replaces isn't there once"
        lines = self.check(changed)
        logic = logic_of(lines)
        if unread(lines):
            return f"the prover can't read it: {unread(lines)}"
        if logic == "not-proved" and any(match[3] != "proved" for match in map(VERDICT.match, lines) if match):
            return ""
        if logic == "proved":
            return "the crate is still proved with it"
        return f"it did not reach the prover: {' '.join(lines[-3:])[:200]}"

    def together(self, edits: list[Edit]) -> list[Edit]:
        """Tries edits by one check, and gives those that were refused.

        Where the check comes to no verdict on any, half as many are tried.
        """
        chosen, changed = choose(edits, self.texts)
        if not chosen:
            return []
        lines = self.check(changed)
        verdicts = {edit: UNKNOWN if unread(lines) else verdict_of(self.crate, edit, lines) for edit in chosen}
        if len(chosen) > 1 and all(verdict == UNKNOWN for verdict in verdicts.values()):
            half = len(chosen) // 2
            return self.together(chosen[:half]) + self.together(chosen[half:])
        for edit, verdict in verdicts.items():
            if verdict == REFUSED and is_by_name(edit, lines, self.texts(edit.replacements[0][0])):
                self.by_name.append(edit.name)
            if verdict in (PROVED, UNKNOWN):
                edit.function = None
        return [edit for edit, verdict in verdicts.items() if verdict == REFUSED]

    def run_joint(self, edits: list[Edit], outcome: Outcome) -> list[Edit]:
        """Notes those that checks of many refuse, and gives those that are to be tried alone."""
        left = list(edits)
        while any(edit.function for edit in left):
            before = len(left), sum(edit.function is None for edit in left)
            refused = self.together(left)
            outcome.refused += [edit.name for edit in refused]
            left = [edit for edit in left if edit not in refused]
            if before == (len(left), sum(edit.function is None for edit in left)):
                break
        return left

    def run(self, edits: list[Edit]) -> Outcome:
        outcome = Outcome(self.crate)
        if logic_of(self.check({})) != "proved":
            outcome.others = {edit.name: "the crate isn't proved without it" for edit in edits}
            return outcome
        whys = {edit.name: self.alone(edit) for edit in self.run_joint(edits, outcome)}
        outcome.refused += [name for name, why in whys.items() if not why]
        outcome.others = {name: why for name, why in whys.items() if why}
        outcome.by_name = self.by_name
        return outcome
