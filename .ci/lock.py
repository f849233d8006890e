"""Which planted bugs need another trial: a digest for each crate over all that decides what the prover says of them.

A function is proved from its own body and the contracts of what it calls. So a digest covers a crate's sources, specs,
proofs and planted bugs whole, but of the crates below only what those above see: specs, types, constants and contracts.
A new body in `timetable` asks for a trial of `timetable` alone, a new contract there for one of each crate above. The
toolchain counts, too.

`planted.lock` has the digest at which all planted bugs of a crate were last refused: `.ci/run --planted` writes it, and
the gate reads it. `-` stands for a crate whose bugs weren't tried together yet: the gate names it, and tries none of
its bugs until `.ci/run --planted` has. What any of the two tried on this machine is also kept in the user's cache.
Standard library only.
"""

from __future__ import annotations

import hashlib
import os
import re
import subprocess
from pathlib import Path

import repository

FILE = "planted.lock"
PENDING = "-"
HEADER = (
    "# Digests of crates whose planted bugs were all refused; `.ci/run --planted` writes them.\n"
    f"# {PENDING}: the gate tries no bug of this crate until `.ci/run --planted` has tried them all.\n"
)
FUNCTION = re.compile(r"( *)(?:pub(?:\([a-z]+\))? )?(?:(?:const|unsafe|final) )*fn \w+")


def without_bodies(source: str) -> str:
    """A source without comments and without the bodies of its functions. It relies on the layout of `rt fmt`."""
    lines = (line for line in source.splitlines() if not line.lstrip().startswith("//"))
    left = []
    for line in lines:
        function = FUNCTION.match(line)
        left += repository.head_of(line, lines, function[1]) if function else [line]
        if function and left[-1].endswith("{"):
            end = function[1] + "}"
            while next(lines, end) != end:
                pass
    return "\n".join(left)


def digest_of(texts: list[str]) -> str:
    """The digest of some texts, which differs where they are divided in another way."""
    return hashlib.sha256("\0".join(f"{len(text)} {text}" for text in texts).encode()).hexdigest()[:32]


def seen_from_above(root: Path, crate: str) -> str:
    """The digest of what a crate shows those above it."""
    specs = [path.read_text() for path in repository.files_of(root / "crates" / crate / "specs")]
    return digest_of([*specs, *(without_bodies(path.read_text()) for path in repository.sources_of(root, crate))])


def own_texts(root: Path, crate: str, *more: str) -> list[str]:
    """The names and texts of a crate's sources, specs and proofs, and of the files in more of its folders."""
    folder = root / "crates" / crate
    paths = [path for name in ("src", "specs", "proofs", *more) for path in repository.files_of(folder / name)]
    return [text for path in paths for text in (str(path.relative_to(folder)), path.read_text())]


def digests(root: Path) -> dict[str, str]:
    """The digest of each crate that has planted bugs."""
    crates = repository.crates_of(root)
    toolchain = subprocess.run(["rt", "version"], cwd=root, **repository.PIPED).stdout
    seen = {crate: seen_from_above(root, crate) for crate in crates}
    found = {}
    for crate in crates:
        if repository.edits_of(root, crate, "planted"):
            own = own_texts(root, crate, "planted")
            below = [seen[name] for name in repository.below(crates, crate)]
            found[crate] = digest_of([toolchain, crates[crate].line, *own, *below])
    return found


def locked(root: Path) -> dict[str, str]:
    """The digests that the lock file has, by crate."""
    file = root / FILE
    lines = file.read_text().splitlines() if file.is_file() else []
    return dict(line.split() for line in lines if line and not line.startswith("#"))


def lock(root: Path, refused: dict[str, str]) -> None:
    """Writes these digests into the lock file, beside those of other crates; a crate that is gone leaves it."""
    found = {**locked(root), **refused}
    lines = [f"{crate} {found[crate]}\n" for crate in repository.crates_of(root) if crate in found]
    (root / FILE).write_text(HEADER + "".join(lines))


def cache() -> Path:
    """The file of digests that were tried on this machine."""
    folder = os.environ.get("XDG_CACHE_HOME") or Path.home() / ".cache"
    return Path(folder) / "ttm" / "planted-refused"


def kept() -> set[str]:
    return set(cache().read_text().split()) if cache().is_file() else set()


def keep(digest: str) -> None:
    cache().parent.mkdir(parents=True, exist_ok=True)
    with cache().open("a") as file:
        file.write(digest + "\n")
