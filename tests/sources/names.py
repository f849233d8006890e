"""Checks that the pages name only what exists.

- architecture.md: each function that its tables name exists in its crate, and the program's `main` reaches those of
  *Where is it decided* (`calls.py` says what that walk misses); each crate is named; source files and modules exist.
- proofs.md: each promise names functions that have contracts, and each edit exists. Its numbers are right
  (`stated.py`).
- definitions.md, how-it-is-computed.md and architecture.md: each spec that they name is a file.
- The functions, types and constants on architecture.md, proofs.md, how-it-is-computed.md and the glossary exist.
- Each planted bug can be planted, and a test or a planted bug names each public function (`public.py`).
"""

from __future__ import annotations

import re
from collections.abc import Iterator
from dataclasses import dataclass
from pathlib import Path

import calls
import public
import repository
import stated
import tables

PROGRAM = "ttm"
ARCHITECTURE = "docs/explanation/architecture.md"
PROOFS = "docs/explanation/proofs.md"
WITH_SPECS = ("docs/explanation/definitions.md", "docs/explanation/how-it-is-computed.md")
WITH_NAMES = (ARCHITECTURE, PROOFS, WITH_SPECS[1], "docs/glossary.md")
NAME = re.compile(r"`((?:\w+::)*[A-Za-z]\w*)`")
EDIT = re.compile(r"`(\w+)/(\w+\.\w+\.\w+)`")
SPEC = re.compile(r"(?:\b(\w+)/)?\b([A-Z]\w*)\b")
SOURCE = re.compile(r"`((?:[\w]+/)*\w+\.rt)`")
MODULE = re.compile(r"`([\w/]+\.py)`")
OF_R5 = "(*R5*)"  # what a line of the glossary has whose words are of R5, not of the code
TOOLS = "tools/src/ttm_tools"
PYTHON = r"(?m)^(?:(?:def|class) {0}\b|{0}(?:: [^=\n]+)? = )"
VISIBLE = r"(?:pub(?:\([a-z]+\))? )?"
PART = r'^ +(?:pub(?:\([a-z]+\))? )?{0}(?::|,$| \{{|\()|"{0}"'  # a field, a variant, a column of a table
NAMED = rf"(?m)^(?: *{VISIBLE}(?:(?:const|unsafe|final) )*fn|{VISIBLE}(?:struct|enum|trait|type|const)) {{}}\b"


@dataclass(frozen=True)
class Claim:
    """A name that a page gives, the crate that it should be of, and whether the program should come to it."""

    page: str
    crate: str
    name: str
    on_way: bool = False


class Sources:
    """The sources of each crate, as one text, and what the program comes to."""

    def __init__(self, root: Path) -> None:
        crates = repository.crates_of(root)
        self.root = root
        self.names = list(crates)
        self.texts = {crate: repository.source_of(root, crate) for crate in crates}
        self.walk = calls.Walk(root, crates).start(PROGRAM, "main")
        self.specs = "\n".join(path.read_text() for path in sorted((root / "crates").glob("*/specs/*.antt")))
        files = {path.stem for crate in crates for path in repository.files_of(root / f"crates/{crate}/src")}
        folders = {path.name for path in (root / "crates").glob("*/*") if path.is_dir()}
        libraries = {name for crate in crates.values() for name in crate.line.split(":")[1].split()}
        self.others = {*crates, *files, *folders, *libraries}

    def has(self, claim: Claim) -> bool:
        """Whether the crate has a function of that name, of that type where one is named; or a type or a constant."""
        *types, last = claim.name.split("::")
        if types and types[-1][:1].isupper():
            return bool(self.walk.called(claim.crate, claim.name))
        return bool(re.search(NAMED.format(last), self.texts[claim.crate]))

    def has_contract(self, claim: Claim) -> bool:
        """Whether a function of that name says what it ensures."""
        return not self.walk.contracts.isdisjoint(self.walk.called(claim.crate, claim.name))

    def has_spec(self, claim: Claim) -> bool:
        return (self.root / "crates" / claim.crate / "specs" / f"{claim.name}.antt").is_file()

    def knows(self, path: str) -> bool:
        """Whether something is called so: in the crate that the path begins with, or in any crate, or in a spec."""
        crate, _, name = path.partition("::")
        if name and crate in self.names:
            return self.has(Claim("", crate, name))
        if path in self.others or any(self.has(Claim("", crate, path)) for crate in self.names):
            return True
        part = re.compile(PART.format(re.escape(path)), re.MULTILINE)
        in_specs = re.search(rf"^(?:\w+ )*{re.escape(path)}\b", self.specs, re.MULTILINE)
        return bool(in_specs) or any(part.search(text) for text in self.texts.values())


def text_of(root: Path, page: str) -> str:
    return (root / page).read_text() if (root / page).is_file() else ""


def judged_promises(root: Path, sources: Sources) -> Iterator[tuple[str, bool]]:
    """The rows of the promises on proofs.md: each names functions, and each of these has a contract."""
    for promise, contracts, *_ in tables.rows_of(tables.section(text_of(root, PROOFS), "The promises")):
        title = promise.split("**")[1].rstrip(".") if "**" in promise else promise
        names = NAME.findall(contracts)
        yield f"proofs.md: '{title}' names no function", bool(names)
        for name in names:
            there = any(sources.has_contract(Claim("", crate, name)) for crate in sources.names)
            yield f"proofs.md: '{title}': no function {name} has a contract", there


def claims_of_decisions(architecture: str, crates: list[str]) -> tuple[list[Claim], list[Claim], list[tuple[str, str]]]:
    """What *Where is it decided* names: functions that the program comes to, specs, and source files by their crate."""
    claims, specs, files = [], [], []
    part = tables.section(architecture, "Where is it decided")
    for crate, what, defined, functions in tables.rows_by_crate(part, crates):
        claims += [Claim("architecture.md", crate, name, True) for name in NAME.findall(functions)]
        words = re.sub(r"`[^`]*`", "", defined)
        specs += [Claim("architecture.md", crate, spec) for _, spec in SPEC.findall(words)]
        files += [(crate, file) for file in SOURCE.findall(what + defined)]
    return claims, specs, files


def claims_of_uncalled(architecture: str, crates: list[str]) -> list[Claim]:
    """The names under *What the program never calls*: laws, reference models and what they model, other calls."""
    part = tables.section(architecture, "What the program never calls")
    return [
        Claim("architecture.md", crate, name)
        for of_crates, *cells in tables.rows_of(part)
        for crate in NAME.findall(of_crates)
        for name in NAME.findall(" ".join(cells))
        if crate in crates
    ]


def specs_in(page: str, text: str, crates: list[str]) -> list[Claim]:
    """The spec files that stand in square brackets, as [crate/Name, Other]."""
    claims, crate = [], ""
    for part in re.findall(r"\[([^\]]*/[^\]]*)\](?!\()", text):
        for named, spec in SPEC.findall(part):
            crate = named or crate
            claims += [Claim(page, crate, spec)] if crate in crates else []
    return claims


def judged_sources(root: Path, named: list[tuple[str, str]]) -> Iterator[tuple[str, bool]]:
    """The source files of architecture.md: those of the tables by their crate, the others in any crate."""
    for crate, file in named:
        yield f"architecture.md: {crate} has no {file}", (root / "crates" / crate / file).is_file()
    for file in dict.fromkeys(SOURCE.findall(tables.section(text_of(root, ARCHITECTURE), "From a stop time"))):
        there = [*(root / "crates").glob(f"*/src/{file}"), *(root / "crates").glob(file)]
        yield f"architecture.md: no crate has {file}", bool(there)


def judged_names(root: Path, sources: Sources) -> Iterator[tuple[str, bool]]:
    """What pages name of any crate: functions, types, constants, crates, files and words of specs; and edits."""
    for page in WITH_NAMES:
        title = Path(page).name
        lines = [line for line in text_of(root, page).splitlines() if OF_R5 not in line]
        text = "\n".join(lines).partition("\n## The tools\n")[0]
        for name in dict.fromkeys(NAME.findall(text)):
            yield f"{title}: nothing is called {name}", sources.knows(name)
        for crate, edit in EDIT.findall(text):
            there = any(
                edit == path.stem for folder in stated.EDITS for path in repository.edits_of(root, crate, folder)
            )
            yield f"{title}: {crate} has no edit {edit}", there


def judged_tools(root: Path, architecture: str) -> Iterator[tuple[str, bool]]:
    """The modules of the tools that the table names, and what the table says that they define."""
    for cells in tables.rows_of(tables.section(architecture, "The tools")):
        modules = [root / TOOLS / name for name in MODULE.findall(cells[1])] if len(cells) == 3 else []
        yield from ((f"architecture.md: no module {module.relative_to(root)}", module.is_file()) for module in modules)
        text = "\n".join(module.read_text() for module in modules if module.is_file())
        for name in NAME.findall(cells[2]) if modules else ():
            yield f"architecture.md: {cells[1]} has no {name}", bool(re.search(PYTHON.format(name), text))


def judged(root: Path) -> Iterator[tuple[str, bool]]:
    """Each thing that is looked at, and whether it is as it should be."""
    sources = Sources(root)
    architecture = text_of(root, ARCHITECTURE)
    claims, specs, files = claims_of_decisions(architecture, sources.names)
    for claim in claims + claims_of_uncalled(architecture, sources.names):
        yield f"{claim.page}: {claim.crate} has no {claim.name}", sources.has(claim)
        if claim.on_way and sources.has(claim):
            said = f"{claim.page}: {PROGRAM} doesn't come to {claim.crate}'s {claim.name}"
            yield said, sources.walk.comes_to(claim.crate, claim.name)
    for page in WITH_SPECS:
        specs += specs_in(Path(page).name, text_of(root, page), sources.names)
    for claim in specs:
        yield f"{claim.page}: {claim.crate} has no spec {claim.name}", sources.has_spec(claim)
    listed = NAME.findall(architecture)
    yield from ((f"architecture.md names no crate {crate}", crate in listed) for crate in sources.names)
    yield from judged_sources(root, files)
    yield from judged_promises(root, sources)
    yield from judged_names(root, sources)
    yield from judged_tools(root, architecture)
    yield from stated.judged(root, text_of(root, PROOFS))
    yield from public.judged(root)
