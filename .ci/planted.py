"""Tries the planted bugs of crates: all of a crate that is named, or in the gate those of the crates that changed.

Each crate is tried in a copy of its own. Where `rt ci` built the libraries below it at the root, and their files are
still the same, the prover reads these; else `rt check` proves them first, which takes longer. Standard library only.
"""

from __future__ import annotations

import shutil
import subprocess
import tempfile
from concurrent.futures import ThreadPoolExecutor
from pathlib import Path

import edits
import lock
import repository
from repository import Count

BUILT = "built-of"  # the name of a file next to a library: the digest of the files that it was built from


def note_built(root: Path) -> None:
    """Notes of which files `rt ci` built the libraries that it left at the root."""
    for crate in repository.crates_of(root):
        if (root / "crates" / crate / "out").is_dir():
            (root / "crates" / crate / "out" / BUILT).write_text(lock.digest_of(lock.own_texts(root, crate)))


def library(root: Path, crate: str) -> Path | None:
    """A crate's library at the root; none where `rt ci` didn't build it, or of other files."""
    out = root / "crates" / crate / "out"
    note, built = out / BUILT, out / "rlib" / f"{crate}.rlib"
    is_fresh = note.is_file() and note.read_text() == lock.digest_of(lock.own_texts(root, crate))
    return built if is_fresh and built.is_dir() else None


def check_of(root: Path, room: Path, crate: str) -> list[str]:
    """The command that checks the copy of a crate."""
    crates = repository.crates_of(root)
    page = subprocess.run(["rt", "doc"], cwd=root, **repository.PIPED).stdout.strip()
    kit, below = Path(page).parent, {name: library(root, name) for name in repository.below(crates, crate)}
    if not (kit / "bin/rattle").is_file() or not all(below.values()):
        return ["rt", "check"]
    main = "src/main.rt" if (room / "crates" / crate / "src/main.rt").is_file() else "src/lib.rt"
    command = [str(kit / "bin/rattle"), "check", "--crate-name", crate, main, "-L", f"dependency={kit}/rlibs"]
    for name in ["std", *crates[crate].line.split(":")[1].split("#")[0].split()]:
        command += ["--extern", f"{name}={below.get(name) or kit / 'rlibs' / f'{name}.rlib'}"]
    for path in filter(None, below.values()):
        command += ["-L", f"dependency={path.parent}"]
    (room / "kept").mkdir()
    command += ["--antt-project", f"{kit}/rattle/logic/antt-project.json", "--logic-built", f"{kit}/logic_built"]
    return [*command, "--links", f"{crate}=", "--incremental", str(room / "kept")]


def lay_out(root: Path, room: Path, crate: str) -> Path:
    """Copies a crate and those below it; the folder of the crate's copy."""
    crates = repository.crates_of(root)
    names = [crate, *repository.below(crates, crate)]
    (room / "crates").mkdir(parents=True)
    shutil.copy(root / "HANDLES", room)
    (room / "crates.txt").write_text("".join(crates[name].line + "\n" for name in names))
    for name in names:
        ignored = shutil.ignore_patterns("out", "must-fail", "planted")
        shutil.copytree(root / "crates" / name, room / "crates" / name, ignore=ignored)
    return room / "crates" / crate


def try_crate(root: Path, crate: str, jobs: int) -> edits.Outcome:
    """Tries the planted bugs of a crate, and prints what came of them."""
    with tempfile.TemporaryDirectory(prefix=f"ttm-planted-{crate}-") as room:
        folder = lay_out(root, Path(room) / "copy", crate)
        trial = edits.Trial(folder, [*check_of(root, Path(room) / "copy", crate), "--jobs", str(jobs)])
        outcome = trial.run([edits.Edit(path) for path in repository.edits_of(root, crate, "planted")])
    outcome.tell()
    return outcome


def try_crates(root: Path, digests: dict[str, str], jobs: int) -> Count:
    """Tries the planted bugs of these crates, several at once, and keeps the digests of those that have all refused."""
    each = max(1, jobs // max(1, len(digests)))
    count = Count()
    with ThreadPoolExecutor(max(1, min(jobs, len(digests)))) as pool:
        for outcome in pool.map(lambda crate: try_crate(root, crate, each), digests):
            count += Count(len(outcome.refused), len(outcome.others))
            if not outcome.others:
                lock.keep(digests[outcome.crate])
    return count


def try_named(root: Path, names: list[str], jobs: int) -> Count:
    """Tries the planted bugs of these crates, or of all, and notes in the lock file those of which all were refused."""
    digests = {crate: digest for crate, digest in lock.digests(root).items() if crate in names or not names}
    count = try_crates(root, digests, jobs)
    note_kept(root, digests)
    return count


def note_kept(root: Path, digests: dict[str, str]) -> None:
    """Notes in the lock file those of these crates whose planted bugs were all refused on this machine."""
    lock.lock(root, {crate: digest for crate, digest in digests.items() if digest in lock.kept()})


def try_changed(root: Path, is_anew: bool, jobs: int) -> Count:
    """Tries the planted bugs of each crate that changed since they were all refused, and of one that did not, which the
    commit's hash draws; but none that passed on this machine as they are, unless all is to be tried anew.
    """
    digests, locked = lock.digests(root), lock.locked(root)
    pending = [crate for crate in digests if locked.get(crate) == lock.PENDING]
    changed = [crate for crate in digests if crate not in pending and digests[crate] != locked.get(crate)]
    drawn = drawn_by(commit_of(root), [crate for crate in digests if crate not in [*changed, *pending]])
    passed = set() if is_anew else lock.kept()
    left = {crate: digests[crate] for crate in [*changed, *drawn] if digests[crate] not in passed}
    if pending:
        print(f"skipped until `.ci/run --planted` has tried them, the planted bugs of {', '.join(pending)}")
    print(f"changed since all their planted bugs were refused: {', '.join(changed) or 'no crate'}")
    print(f"drawn from the others: {', '.join(drawn) or 'none'}; to be tried: {', '.join(left) or 'none'}", flush=True)
    count = try_crates(root, left, jobs) + Count(skipped=len(pending))
    if changed and not count.failed:
        print(f"commit {lock.FILE} after `.ci/run --lock`: else each gate tries these again: {', '.join(changed)}")
    return count


def commit_of(root: Path) -> str:
    """The hash of the commit that is checked out, as far as there is one."""
    asked = subprocess.run(["git", "rev-parse", "--verify", "HEAD"], cwd=root, capture_output=True, text=True)
    return asked.stdout.strip()


def drawn_by(commit: str, crates: list[str]) -> list[str]:
    """One of these crates, by a commit's hash; none of no crates."""
    return [crates[int(commit or "0", 16) % len(crates)]] if crates else []
