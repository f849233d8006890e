"""The public functions of the crates, and which of them a test or a planted bug names; and whether each planted bug can
be planted: `rt ci` passes over one that can't.

An edit's name has its function's. A test names what it is of in the first line of its doc comment, as `Type::function`
or `function`. It goes by the layout of `rt fmt`.
"""

from __future__ import annotations

import re
from collections.abc import Iterator
from pathlib import Path

import calls
import repository
from edits import Edit

TEST = re.compile(r"((?:[ \t]*///.*\n)*)(?:[ \t]*#\[.*\]\n)*[ \t]*#\[test\]\n")
NAME = re.compile(r"`((?:\w+::)?\w+)`")
LAWS = "laws"  # modules whose functions have nothing but a contract, which is a theorem
MOST_MUST_FAIL = 150  # edits that `rt ci` tries one at a time
NOTHING = {"known", "none"}  # they show an invariant, and make what stands before anything is read


def functions_of(root: Path, crate: str) -> Iterator[tuple[str, str]]:
    """Each public function that computes something, as its module and `Type::function` or `function`. What a trait asks
    for is named where it is called by the trait.
    """
    folder = root / "crates" / crate / "src"
    shown = shown_by(folder)
    for file in repository.sources_of(root, crate):
        if file.name in repository.test_modules(folder) or file.stem == LAWS:
            continue
        for item in calls.items_of(crate, file):
            owner, name = item.function.owner, item.function.name
            is_shown = item.is_public and not item.function.of_trait and (owner or name) in shown
            if is_shown and name not in NOTHING and not item.head[-1].endswith("{}"):
                yield file.stem, f"{owner}::{name}" if owner else name


def shown_by(folder: Path) -> set[str]:
    """The names that a crate's root shows to other crates."""
    texts = [(folder / name).read_text() for name in ("lib.rt", "main.rt") if (folder / name).is_file()]
    used = [re.findall(r"\w+", match) for text in texts for match in re.findall(r"(?m)^pub use ([^;]+);", text)]
    return {name for names in used for name in names}.union(*(re.findall(r"(?m)^pub fn (\w+)", text) for text in texts))


def named_by_tests(root: Path, crates: repository.Crates) -> set[str]:
    """The names in the first lines of the doc comments of all tests."""
    texts = [repository.source_of(root, crate) for crate in crates]
    firsts = [match.split("\n")[0] for text in texts for match in TEST.findall(text)]
    return {name for line in firsts for name in NAME.findall(line)}


def can_be_planted(path: Path) -> bool:
    """Whether each text that an edit replaces stands in its file once, when those before it are replaced."""
    edit = Edit(path)
    crate = path.parent.parent
    files = {file for file, _, _ in edit.replacements}
    texts = {file: (crate / file).read_text() for file in files if (crate / file).is_file()}
    return bool(edit.replacements) and len(texts) == len(files) and edit.applied(texts.__getitem__) is not None


def judged(root: Path) -> Iterator[tuple[str, bool]]:
    """Each public function, and whether something names it; and each test, whether it names one."""
    crates = repository.crates_of(root)
    one_by_one = sum(len(repository.edits_of(root, crate)) for crate in crates)
    yield f"{one_by_one} must-fail edits are more than {MOST_MUST_FAIL}", one_by_one <= MOST_MUST_FAIL
    tests = named_by_tests(root, crates)
    for crate in crates:
        if repository.PROMISE_NOTHING.search(crate):
            continue
        paths = repository.edits_of(root, crate) + repository.edits_of(root, crate, "planted")
        edits = {tuple(path.name.split(".")[:2]) for path in paths}
        for path in paths:
            yield f"{crate}: what {path.parent.name}/{path.name} replaces isn't there once", can_be_planted(path)
        for module, name in functions_of(root, crate):
            known = name in tests or (module, name.split("::")[-1]) in edits
            yield f"{crate}: no test and no planted bug names {name}", known
