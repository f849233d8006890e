"""A repository of a few crates for tests of the gate."""

from __future__ import annotations

import subprocess
from pathlib import Path

LOWER = """//! Counts.
#![tactic(auto)]

ghost use Rattle.std.specs.Prelude.{◌≡◌, ◌+◌, ◌<◌};

/// One more.
pub fn bump(count: u32) -> u32
    requires { count < 1000 }
    ensures { result ≡ count + 1 }
{
    count + 1
}
"""
TWO_MORE = "file: src/lib.rt\nold:     count + 1\nnew:     count + 2\n"


class Repository:
    """A small repository, with a bug planted in each crate."""

    def __init__(self, root: Path, crates: dict[str, str]) -> None:
        self.root = root
        self.write("crates.txt", "".join(f"{name}: {below}".rstrip() + "\n" for name, below in crates.items()))
        self.write("HANDLES", "Handles allowed: none.\n")
        for name in crates:
            self.write(f"crates/{name}/src/lib.rt", LOWER)
            self.write(f"crates/{name}/must-fail/lib.bump.two_more.edit", TWO_MORE)
            self.write(f"crates/{name}/planted/lib.bump.three_more.edit", TWO_MORE.replace("+ 2", "+ 3"))
        subprocess.run(["git", "init", "-q"], cwd=root, check=True)

    def write(self, name: str, text: str) -> None:
        (self.root / name).parent.mkdir(parents=True, exist_ok=True)
        (self.root / name).write_text(text)
