"""Joins the modules of a page's scripts into one script.

Modules import names from files next to them, and nothing else: `import { a, b } from "./c.js"`. The script has each
module once, after those that it imports, so the same files always give the same bytes. All modules share one scope, in
which each name is declared once.
"""

import re
from pathlib import Path
from typing import Iterator

MODULES = Path(__file__).resolve().parent / "assets"
IMPORT = re.compile(r'^import (?:\{([^}]*)\} from )?"(\.[^"]+\.js)";\n', re.MULTILINE)
EXPORT = re.compile(r"^export (?=(?:async function|function|class|const|let) )", re.MULTILINE)
DECLARED = re.compile(
    r"^(export )?(?:async function\*?|function\*?|class|const|let) (\w+|\[[^\]]*\]|\{[^}]*\})", re.MULTILINE
)
ALSO = re.compile(r", (\w+) = ")  # further names of a line such as `const a = 1, b = 2;`
MODULE_WORDS = re.compile(r"^(import|export)\b|\bimport\(", re.MULTILINE)


class ModuleError(Exception):
    """A module that can't be joined with others, by its file."""


def declared(text: str) -> dict[str, bool]:
    """The names that a module declares at its top, and whether each is exported."""
    found = dict[str, bool]()
    for match in DECLARED.finditer(text):
        line = text[match.start() : text.find("\n", match.start())]
        names = re.findall(r"\w+", match[2])
        if match[2] == names[0] and "(" not in line and "{" not in line and "[" not in line:
            names += ALSO.findall(line)
        found |= {name: match[1] is not None for name in names}
    return found


def imports(text: str) -> Iterator[tuple[str, list[str]]]:
    """The files that a module imports, each with the names that it takes from there."""
    for match in IMPORT.finditer(text):
        yield match[2], re.findall(r"\w+", match[1] or "")


def in_order(entry: Path) -> dict[Path, str]:
    """The texts of a module and of all that it needs, each after those that it imports."""
    found, open_files = dict[Path, str](), set[Path]()

    def add(path: Path) -> None:
        if path in open_files:
            return
        open_files.add(path)
        text = path.read_text(encoding="utf-8")
        for name, _ in imports(text):
            add((path.parent / name).resolve())
        found[path] = text

    add(entry.resolve())
    return found


def checked(texts: dict[Path, str]) -> None:
    """Refuses names that two modules declare, and imports of what a module doesn't export."""
    owners, exported = dict[str, Path](), dict[Path, set[str]]()
    for path, text in texts.items():
        names = declared(text)
        exported[path] = {name for name, is_exported in names.items() if is_exported}
        for name in names:
            if name in owners:
                raise ModuleError(f"{path}: {name} is declared in {owners[name]}, too")
            owners[name] = path
    for path, text in texts.items():
        for file, wanted in imports(text):
            for name in wanted:
                if name not in exported[(path.parent / file).resolve()]:
                    raise ModuleError(f"{path}: {file} exports no {name}")


def bundled(entry: Path) -> str:
    """Returns the script of a module and of all that it imports."""
    texts = in_order(entry)
    checked(texts)
    parts = ['"use strict";\n']
    for path, text in texts.items():
        plain = EXPORT.sub("", IMPORT.sub("", text))
        other = MODULE_WORDS.search(plain)
        if other is not None:
            raise ModuleError(f"{path}: {other[0]!r} is of a form that is not joined")
        parts.append(plain.strip() + "\n")
    return "\n".join(parts)
