#!/usr/bin/env python3
"""Runs the commands of documentation pages in this folder, and checks that each prints what its page says.

    pages.py PAGE ..      the pages in the order in which their commands run

A command is an indented line that begins with `$ `; its output is the indented lines after it. A block of TOML is
written to a file first: plan.toml, or the name in the comment on its first line. Lines of `ttm`'s report depend on the
machine and on time, and are not compared. Standard library only.
"""

from __future__ import annotations

import os
import re
import subprocess
import sys
from dataclasses import dataclass, field
from pathlib import Path

END = "end of the command"
FENCED = re.compile(r"^```.*?^```$", re.MULTILINE | re.DOTALL)


@dataclass
class Command:
    """A command of a page, and the lines that it prints."""

    text: str
    printed: list[str] = field(default_factory=list)

    @property
    def is_open(self) -> bool:
        """Whether its next line is still of the command."""
        return self.text.endswith("\\") and not self.printed

    def compared(self, lines: list[str]) -> list[str]:
        """The lines that are compared."""
        return [line for line in lines if not line.startswith("ttm: ")] if "ttm --feed" in self.text else lines


def commands(page: str) -> list[Command]:
    """The commands of a page."""
    found: list[Command] = []
    inside = False
    for line in FENCED.sub("", page).splitlines():
        text = line[4:]
        inside = line.startswith("    ") and (inside or text.startswith("$ "))
        if not inside:
            continue
        if text.startswith("$ "):
            found.append(Command(text[2:]))
        elif found[-1].is_open:
            found[-1].text = found[-1].text[:-1] + text.strip()
        else:
            found[-1].printed.append(text)
    return found


def write_files(page: str, folder: Path) -> None:
    """Writes the blocks of TOML of a page to their files."""
    for text in re.findall(r"^```toml\n(.*?)^```", page, re.MULTILINE | re.DOTALL):
        named = re.match(r"# (\w+\.toml)\n", text)
        (folder / (named[1] if named else "plan.toml")).write_text(text, encoding="utf-8")


def differences(page: list[Command], folder: Path, environment: dict[str, str]) -> list[str]:
    """One text for each command whose output differs from the page."""
    script = "\n".join(f"{command.text}\necho '{END}'" for command in page)
    shell = ["bash", "-c", f"exec 2>&1\n{script}"]
    ran = subprocess.run(shell, stdout=subprocess.PIPE, text=True, cwd=folder, env=environment)
    said = ran.stdout.split(f"{END}\n")
    found = []
    for command, printed in zip(page, said):
        if command.compared(printed.splitlines()) != command.compared(command.printed):
            found.append(f"$ {command.text}\n{printed}in place of\n" + "\n".join(command.printed))
    return found if len(said) == len(page) + 1 else [*found, f"{len(said) - 1} of {len(page)} commands ended"]


def main(arguments: list[str]) -> int:
    if not arguments:
        print(__doc__, file=sys.stderr)
        return 2
    texts = [Path(word).read_text(encoding="utf-8") for word in arguments]
    page = [command for text in texts for command in commands(text)]
    for text in texts:
        write_files(text, Path.cwd())
    found = differences(page, Path.cwd(), {**os.environ, "LC_ALL": "C.UTF-8"})
    for text in found:
        print(text)
    print(f"{len(page)} commands, {len(found)} with another output")
    return 1 if found or not page else 0


if __name__ == "__main__":
    sys.exit(main(sys.argv[1:]))
