"""Looks in the proofs for lemmas that nothing cites, and for those that are stated and proved twice.

A lemma is what a file of `crates/NAME/proofs` states and proves: not an answer to a goal of the prover, and no
invariant. It is cited where its name stands in another lemma of its file, in a file that imports it, or in a function's
`using`. It stands twice where its statement and proof begin with the same 4 lines as another's, whatever the names of
the two.

A promised theorem that supports no other proof is a law: a public function with an empty body, whose contract says it.
So its lemma is cited by that law's answer.
"""

from __future__ import annotations

import re
from collections.abc import Iterator
from dataclasses import dataclass, field
from pathlib import Path


LINES_ALIKE = 4
FOR_THE_PROVER = ("Answers.antt", "Invariants.antt")
NAME = r"[^\s(){};,.:=\\→λ]+"
STATED = re.compile(rf"(?P<words>(?:(?:pub|abbrev) )*)(?P<name>{NAME}) :(?:\s|$)")
RULES = re.compile(rf"(?:pub )?ruleset (?P<name>{NAME}) =")
MODULE = re.compile(r"(?:pub )?module\b")
LISTED = re.compile(r"(?:pub |ghost )?use (?P<path>[\w.]+?)\.\{(?P<names>[^}]*)\}")
RENAMED = re.compile(r"(?:pub |ghost )?use (?P<path>[\w.]+) as (?P<name>\w+)")
USING = re.compile(r"(?:crate|Rattle)(?:::|\.)[\w:.]*proofs(?:::|\.)[\w:.]+")
TOKEN = re.compile(rf"(?:{NAME}\.)*{NAME}")
OF_A_LOOP = re.compile(r"(?:invariant|decreases)-")
NO_LEMMAS = re.compile(r"(?:pub )?(?:use|mod|record|data)\b")


@dataclass
class Item:
    """A lemma with its text, or other text of a file."""

    name: str
    at: int
    is_answer: bool
    lines: list[str] = field(default_factory=list)


@dataclass
class Proof:
    path: Path
    module: str
    items: list[Item]
    imports: list[tuple[str, str, str]]  # the module of a name, the name there, and here
    renamed: dict[str, str]  # modules by the names that they have here


def imports_in(text: str) -> list[tuple[str, str, str]]:
    """The names that a text imports: the module of each, its name there, and here."""
    imports = []
    for found in LISTED.finditer(text):
        for name in filter(None, (text.strip() for text in found["names"].split(","))):
            there, _, here = name.partition(" as ")
            imports.append((found["path"], there, here or there))
    return imports


def items_in(lines: list[str], for_the_prover: bool) -> list[Item]:
    """The lemmas of a file, and its other text, by indent: what stands deeper than an item's first line is its own."""
    items: list[Item] = []
    bodies, header = [0], False
    for at, whole in enumerate(lines, 1):
        line = re.sub(r"(?:^|\s)--(?:\s.*)?$", "", whole).rstrip()  # without a comment
        if not line.strip():
            continue
        indent = len(line) - len(line.lstrip())
        while not header and indent < bodies[-1]:
            bodies.pop()
        text = line.strip()
        if not header and indent == bodies[-1]:
            header = bool(MODULE.match(text))
            begin_item(items, text, at, for_the_prover)
        items[-1].lines.append(text)
        if header and text.endswith("where"):
            bodies, header = [*bodies, bodies[-1] + 2], False
    return items


def begin_item(items: list[Item], text: str, at: int, for_the_prover: bool) -> None:
    """Begins an item, unless the line goes on with the one before: its equations stand at its own indent."""
    found = None if NO_LEMMAS.match(text) or MODULE.match(text) else STATED.match(text) or RULES.match(text)
    if found:
        is_asked = text.startswith("pub ") or OF_A_LOOP.match(found["name"])
        items.append(Item(found["name"], at, for_the_prover and bool(is_asked)))
    elif not (items and items[-1].name and text.split()[0].strip("()") in (items[-1].name, "unfolding")):
        items.append(Item("", at, False))


def proof_at(root: Path, path: Path) -> Proof:
    text = path.read_text()
    items = items_in(text.splitlines(), path.name in FOR_THE_PROVER)
    renamed = {match["name"]: match["path"] for match in RENAMED.finditer(text)}
    crate, *rest = path.relative_to(root / "crates").with_suffix("").parts
    module = ".".join(["Rattle", crate, *rest])  # as others import it
    return Proof(path, module, items, imports_in(text), renamed)


def tokens_of(item: Item) -> set[str]:
    """The names in an item, unless it is an import."""
    is_import = re.match(r"(?:pub )?(?:use|mod)\b", item.lines[0])
    return set() if is_import else {match.strip("()") for line in item.lines for match in TOKEN.findall(line)}


def cited_in(proof: Proof) -> set[tuple[str, str]]:
    """The module and the name of each lemma that a file cites."""
    cited: set[tuple[str, str]] = set()
    here = {own: (module, name) for module, name, own in proof.imports}
    for item in proof.items:
        for token in tokens_of(item):
            first, *rest = token.split(".")
            if first != item.name:
                cited.add((proof.module, first))
            if first in here:
                cited.add(here[first])
            if rest:
                cited.add((proof.renamed.get(first, proof.module), rest[0]))
    return cited | passed_on(proof)


def passed_on(proof: Proof) -> set[tuple[str, str]]:
    """What a file hands on to those that import it."""
    given = "\n".join(" ".join(item.lines) for item in proof.items if item.lines[0].startswith("pub use"))
    return {(module, name) for module, name, _ in imports_in(given)}


def cited_by_code(root: Path, path: Path) -> set[tuple[str, str]]:
    text = path.read_text()
    crate = path.relative_to(root / "crates").parts[0]
    found = {match.replace("::", ".").replace("crate.", f"Rattle.{crate}.", 1) for match in USING.findall(text)}
    named = {(module, name) for module, name, _ in imports_in(text)}
    return named | {(item.rpartition(".")[0], item.rpartition(".")[2]) for item in found}


def uncited(root: Path, proofs: list[Proof]) -> Iterator[tuple[str, bool]]:
    """Each lemma, and whether it is cited."""
    cited: set[tuple[str, str]] = set()
    for proof in proofs:
        cited |= cited_in(proof)
    for path in sorted((root / "crates").glob("*/src/**/*.rt")):
        cited |= cited_by_code(root, path)
    for proof in proofs:
        for item in proof.items:
            if item.name and not item.is_answer:
                place = f"{proof.path.relative_to(root)}:{item.at}: {item.name}"
                yield f"{place} is cited by nothing", (proof.module, item.name) in cited


def begin_of(item: Item) -> str:
    """The first lines of a lemma's statement and proof, but for its own name and who may cite it."""
    name = re.compile(rf"(?<![\w.-]){re.escape(item.name)}(?![\w-])")
    lines = [name.sub("", text) for text in item.lines[:LINES_ALIKE]]
    return re.sub(r"^(?:pub |abbrev )+", "", "\n".join(lines))


def doubled(root: Path, proofs: list[Proof]) -> Iterator[tuple[str, bool]]:
    """Each lemma of some lines, and whether none before it begins with its statement and proof."""
    seen: dict[str, str] = {}
    for proof in proofs:
        for item in proof.items:
            if item.name and not item.is_answer and len(item.lines) >= LINES_ALIKE:
                place = f"{proof.path.relative_to(root)}:{item.at}: {item.name}"
                first = seen.setdefault(begin_of(item), place)
                yield f"{place} stands at {first}, too", first == place


def judged(root: Path) -> Iterator[tuple[str, bool]]:
    """Each thing that is looked at, and whether it is as it should be."""
    paths = sorted((root / "crates").glob("*/proofs/**/*.antt"))
    proofs = [proof_at(root, path) for path in paths if path.name not in ("Goals.antt", "Lib.antt")]
    yield from uncited(root, proofs)
    yield from doubled(root, proofs)
