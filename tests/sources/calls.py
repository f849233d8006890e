"""Which functions a program comes to: a walk over the sources from its `main`, by names.

It reads no types. `name(..)` is the function that the file imports by `use`, else the free function of that name in the
same crate, else in the crates below; `Type::name(..)` is that type's; `.name(..)` is the method of every type that the
walk has met, in these crates, and of every impl of a trait. So it may come to a function that no run calls, and misses
what is called only by an operator, by `?` or by a format. It relies on the layout of `rt fmt`; tests, comments and
clauses are left out.
"""

from __future__ import annotations

import itertools
import re
from collections import defaultdict
from collections.abc import Iterator
from dataclasses import dataclass
from pathlib import Path

import repository

FUNCTION = re.compile(r"( *)(pub(?:\([a-z]+\))? )?(?:(?:const|unsafe|final) )*fn (\w+)")
TRAIT = re.compile(r"(?:pub(?:\([a-z]+\))? )?trait (\w+)")
IMPL = re.compile(r"impl\b(?:<(?P<parameters>.*?)>(?= \w))? ?(?:(?P<trait>[\w:]+)(?:<.*>)? for )?(?P<type>\w+)")
STRUCT = re.compile(r"(?:pub(?:\([a-z]+\))? )?(?:struct|enum) (\w+)")
CALL = re.compile(r"(\.)?\b(?:(\w+)::)?(\w+)(?:::<[^;{}]*?>)?\(")
TYPE = re.compile(r"\b[A-Z]\w*[a-z]\w*\b")
CLAUSE = re.compile(r" *(?:requires|ensures|ghost)\b")
IMPORT = re.compile(r"^(?:pub(?:\([a-z]+\))? )?use (\w+)::([^;]*);", re.MULTILINE)


@dataclass(frozen=True)
class Function:
    """A function: its crate, the type or trait that it is of, whether it is of a trait or an impl of one, its name."""

    crate: str
    owner: str
    of_trait: bool
    name: str


@dataclass(frozen=True)
class Item:
    """A function, or a type, which is of nothing; its lines up to that with which its body begins, and the body's."""

    function: Function
    is_type: bool
    is_public: bool
    head: list[str]
    body: list[str]

    @property
    def text(self) -> str:
        """All of it without its clauses."""
        return "\n".join([*itertools.takewhile(lambda line: not CLAUSE.match(line), self.head), *self.body])


def items_of(crate: str, path: Path) -> Iterator[Item]:
    """The functions and types of a file of a crate."""
    lines = (line for line in path.read_text().splitlines() if not line.strip().startswith("//"))
    owner, of_trait = "", False
    for line in lines:
        if line == "}":
            owner, of_trait = "", False
        if named := TRAIT.match(line):
            owner, of_trait = named[1], True
        elif implemented := IMPL.match(line):
            parameter = implemented["type"] in re.findall(r"\w+", implemented["parameters"] or "")
            owner, of_trait = "" if parameter else implemented["type"], implemented["trait"] is not None
        elif kind := STRUCT.match(line):
            yield Item(Function(crate, "", False, kind[1]), True, False, *parts_of(line, lines, ""))
        elif start := FUNCTION.match(line):
            function = Function(crate, owner, of_trait, start[3])
            yield Item(function, False, start[2] == "pub ", *parts_of(line, lines, start[1]))


def imports_of(crate: str, text: str) -> dict[str, str]:
    """The names that a file of a crate imports, each with the crate that it is of."""
    return {
        name: crate if first == "crate" else first
        for first, rest in IMPORT.findall(text)
        for name in re.findall(r"\b\w+\b(?!::)", rest)
    }


def parts_of(line: str, lines: Iterator[str], indent: str) -> tuple[list[str], list[str]]:
    """The head and the body of an item that begins so."""
    head = repository.head_of(line, lines, indent)
    body = itertools.takewhile(lambda line: line != indent + "}", lines) if head[-1].endswith("{") else ()
    return head, list(body)


class Walk:
    """What is reached from a function: the functions so far, and the types that were met."""

    def __init__(self, root: Path, crates: repository.Crates) -> None:
        self.crates = crates
        self.sees = {crate: {crate, *repository.below(crates, crate)} for crate in crates}
        self.texts: dict[Function, str] = defaultdict(str)
        self.contracts: set[Function] = set()  # those that say what they ensure
        self.types: dict[str, str] = defaultdict(str)
        self.named: dict[str, list[Function]] = defaultdict(list)
        self.imports: dict[Function, dict[str, str]] = defaultdict(dict)  # those of its file
        for crate in crates:
            tests = repository.test_modules(root / "crates" / crate / "src")
            for path in [path for path in repository.sources_of(root, crate) if path.name not in tests]:
                imports = imports_of(crate, path.read_text())
                for item in items_of(crate, path):
                    self.note(item)
                    self.imports[item.function].update(imports)
        for function in self.texts:
            self.named[function.name].append(function)
        self.reached: set[Function] = set()
        self.met: set[str] = set()

    def note(self, item: Item) -> None:
        if item.is_type:
            self.types[item.function.name] += item.text
            return
        self.texts[item.function] += item.text
        if any(line.strip().startswith("ensures") for line in item.head):
            self.contracts.add(item.function)

    def start(self, crate: str, name: str) -> Walk:
        """Walks from a free function, until nothing new is found."""
        self.reached |= {function for function in self.named[name] if function.crate == crate and not function.owner}
        size = (0, 0)
        while size != (len(self.reached), len(self.met)):
            size = (len(self.reached), len(self.met))
            for function in list(self.reached):
                self.meet(self.texts[function])
                self.reached |= self.called_by(function)
        return self

    def meet(self, text: str) -> None:
        """Notes the types of a text, and those that they are made of."""
        left = set(TYPE.findall(text)) - self.met
        while left:
            self.met |= left
            left = set(TYPE.findall("\n".join(self.types[name] for name in left if name in self.types))) - self.met

    def called_by(self, function: Function) -> set[Function]:
        return {called for call in set(CALL.findall(self.texts[function])) for called in self.meant(function, *call)}

    def meant(self, caller: Function, dot: str, path: str, name: str) -> list[Function]:
        path = caller.owner if path == "Self" else path
        own = [one for one in self.named[name] if one.crate in self.sees[caller.crate]]
        if dot:
            every = [one for one in self.named[name] if one.of_trait or one in own and one.owner]
            return [one for one in every if not one.owner or one.owner in self.met]
        if path[:1].isupper():
            return [one for one in own if one.owner == path]
        free = [one for one in own if not one.owner]
        imported = [one for one in free if not path and one.crate == self.imports[caller].get(name)]
        return imported or [one for one in free if one.crate == caller.crate] or free

    def called(self, crate: str, path: str) -> list[Function]:
        """The crate's functions of this name, or of this type or trait and name."""
        *types, name = path.split("::")
        owner = types[-1] if types and types[-1][:1].isupper() else ""
        return [found for found in self.named[name] if found.crate == crate and owner in ("", found.owner)]

    def comes_to(self, crate: str, path: str) -> bool:
        """Whether a function of this name, or of this type and name, was reached; or a type or constant was named."""
        if functions := self.called(crate, path):
            return any(found in self.reached for found in functions)
        name = path.split("::")[-1]
        return any(re.search(rf"\b{name}\b", self.texts[found]) for found in self.reached)
