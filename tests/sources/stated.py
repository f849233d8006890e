"""The numbers that proofs.md states are those of the repository, to within a twentieth: lines of specs, of sources and
of proofs, and edits. So they can be rounded, and a page needs no change for each line.
"""

from __future__ import annotations

import re
from collections.abc import Iterator
from pathlib import Path

import repository
import tables

MOST_OFF = 0.05
EDITS = ("must-fail", "planted")  # the folders of a crate that have some
IMPORT = re.compile(r"^use Rattle\.(\w+)\.specs\.(\w+)\b", re.MULTILINE)
MAIN = ("studies", "Study")  # the spec that the main theorem's contract names
CRATE = re.compile(r"`(\w+)`(?:: ([A-Z]\w*(?:, [A-Z]\w*)*))?")
NUMBER = re.compile(r"\d[\d,]*")
SENTENCES = {  # what is counted by a sentence of the page, which has the number in place of the braces
    "spec files": "{} files",
    "lines of specs": "{} lines of specs",
    "lines of source": "the {} lines of source",
    "lines of proofs": "the {} lines of proofs",
    "edits": "{} edits, all of which",
    "edits in must-fail": "{} in `crates/*/must-fail`",
    "edits in planted": "{} in `crates/*/planted`",
}


def number_of(text: str) -> int:
    """The first number of a text, without its commas; 0 if it has none."""
    found = NUMBER.search(text)
    return int(found[0].replace(",", "")) if found else 0


def is_about(number: int, count: int) -> bool:
    return abs(number - count) <= MOST_OFF * count


def lines_in(paths: list[Path]) -> int:
    return sum(len(path.read_text().splitlines()) for path in paths)


def specs_below(root: Path, first: tuple[str, str]) -> dict[tuple[str, str], int]:
    """The lines of a spec, and of all that it imports, by crate and name."""
    found: dict[tuple[str, str], int] = {}
    left = [first]
    while left:
        crate, name = left.pop()
        path = root / "crates" / crate / "specs" / f"{name}.antt"
        if (crate, name) not in found and path.is_file():
            found[crate, name] = lines_in([path])
            left += IMPORT.findall(path.read_text())
    return found


def counts_of(root: Path) -> dict[str, int]:
    """What the sentences of the page count."""
    specs = specs_below(root, MAIN)
    crates = repository.crates_of(root)
    edits = {folder: sum(len(repository.edits_of(root, name, folder)) for name in crates) for folder in EDITS}
    return {
        "spec files": len(specs),
        "lines of specs": sum(specs.values()),
        "lines of source": lines_in([path for name in crates for path in repository.sources_of(root, name)]),
        "lines of proofs": lines_in(sorted((root / "crates").glob("*/proofs/**/*.antt"))),
        "edits": sum(edits.values()),
        **{f"edits in {folder}": count for folder, count in edits.items()},
    }


def judged_sentences(root: Path, page: str) -> Iterator[tuple[str, bool]]:
    text = " ".join(page.split())
    for what, count in counts_of(root).items():
        before, after = SENTENCES[what].split("{}")
        numbers = re.findall(re.escape(before) + r"(\d[\d,]*)" + re.escape(after), text)
        right = bool(numbers) and all(is_about(number_of(number), count) for number in numbers)
        yield f"proofs.md says {', '.join(numbers) or 'nothing'} of {count} {what}", right


def judged_specs(root: Path, page: str) -> Iterator[tuple[str, bool]]:
    """The table of specs: the lines of each row's files, and that all files are in some row."""
    specs = specs_below(root, MAIN)
    left = dict(specs)
    for what, files, stated, *_ in tables.rows_of(tables.section(page, "What you have to read")):
        row = 0
        for crate, names in CRATE.findall(files):
            of_crate = [name for owner, name in specs if owner == crate]
            row += sum(left.pop((crate, name), 0) for name in (names.split(", ") if names else of_crate))
        yield f"proofs.md says {stated} lines of {row}: {what}", is_about(number_of(stated), row)
    yield f"proofs.md lists no spec {', '.join('/'.join(spec) for spec in left)}", not left


def judged_edits(root: Path, page: str) -> Iterator[tuple[str, bool]]:
    """The table of promises: the edits of the crates that keep each."""
    for promise, _, _, edits, *_ in tables.rows_of(tables.section(page, "The promises")):
        crates = [crate for crate, _ in CRATE.findall(edits)]
        count = sum(len(repository.edits_of(root, crate, folder)) for crate in crates for folder in EDITS)
        yield f"proofs.md says {edits}, which are {count}: {promise[:40]}", is_about(number_of(edits), count)


def judged(root: Path, page: str) -> Iterator[tuple[str, bool]]:
    """Each number of the page, and whether it is about right."""
    if page:
        yield from judged_sentences(root, page)
        yield from judged_specs(root, page)
        yield from judged_edits(root, page)
