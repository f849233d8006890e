"""TOML files as tables whose values know their lines.

An error names the line, what is allowed, and the most similar key. tomllib reports no lines, so the statements of the
file are located here.
"""

import re
from dataclasses import dataclass, field
from typing import Any, Iterable, Iterator, Sequence

from .errors import InputError
from .reading import read_toml
from .toml_values import Kind, NAME, TEXT, TEXTS, Value, WrongItem, as_written, near, nearest_name

TOKENS = re.compile(
    r'"""(?:\\.|[^\\])*?"""|\'\'\'.*?\'\'\'|"(?:\\.|[^"\\\n])*"|\'[^\'\n]*\'|#[^\n]*|[\[\]{}\n]|[^\[\]{}\n#"\']+',
    re.DOTALL,
)


@dataclass
class LineNumbers:
    """The lines of a table, its keys, the items of its lists, and its inner tables (a list of tables has several)."""

    line: int
    keys: dict[str, int] = field(default_factory=dict)
    tables: dict[str, list["LineNumbers"]] = field(default_factory=dict)
    items: dict[str, list[int]] = field(default_factory=dict)  # of the lists

    def inner(self, key: str, number: int = 0) -> "LineNumbers":
        found = self.tables.get(key, [])
        return found[number] if number < len(found) else LineNumbers(self.keys.get(key, self.line))


@dataclass(frozen=True)
class Entry:
    """A table with its values and their lines."""

    path: str
    values: dict[str, Any]
    lines: LineNumbers

    def fault(
        self, what: str, key: str | None = None, value: str | None = None, allowed: str | None = None
    ) -> InputError:
        """Return an error about a value, or about the whole table."""
        line = self.lines.line if key is None else self.lines.keys.get(key, self.lines.line)
        fault = InputError(f"{self.path}: line {line}", what, column=key, value=value, allowed=allowed)
        return fault.noting(file=self.path, record=line)

    def fault_of_item(self, key: str, wrong: WrongItem) -> InputError:
        items, lines = self.values[key], self.lines.items.get(key, [])
        line = lines[wrong.number] if wrong.number < len(lines) else self.lines.keys.get(key, self.lines.line)
        what, value = f"{wrong.what} (item {wrong.number + 1} of {len(items)})", as_written(items[wrong.number])
        fault = InputError(f"{self.path}: line {line}", what, column=key, value=value, allowed=wrong.allowed)
        return fault.noting(file=self.path, record=line)

    def only(self, keys: Sequence[str]) -> None:
        """Raise an error for a key that is not in the list."""
        for key in self.values:
            if key not in keys:
                fault = self.fault(f"isn't known{near(key, keys)}", key, allowed=", ".join(keys))
                raise fault.noting(nearest=nearest_name(key, keys))

    def has(self, key: str) -> bool:
        return key in self.values

    def one_of(self, *keys: str) -> str:
        """Return the key that is present; exactly one of them must be."""
        found = [key for key in keys if key in self.values]
        if not found:
            raise self.fault("needed", " or ".join(keys))
        if len(found) > 1:
            raise self.fault(f"is given together with {found[0]}", found[1], allowed=f"one of {', '.join(keys)}")
        return found[0]

    def get(self, key: str) -> Any:
        if key not in self.values:
            raise self.fault("needed", key)
        return self.values[key]

    def read(self, key: str, kind: Kind[Value], default: Value | None = None) -> Value:
        """Return a value of a kind, or the default; without a default the value is needed."""
        value = self.get(key) if default is None else self.values.get(key, default)
        try:
            if kind.of_table is not None and isinstance(value, dict):
                return kind.of_table(self.table(key))
            return kind.convert(self.inner(key) if kind.of_tables else value)
        except WrongItem as fault:
            raise self.fault_of_item(key, fault) from None
        except InputError:  # of a table in the list, with its own line
            raise
        except ValueError:
            what = f"{kind.wrong}{near(str(value), kind.names)}"
            shown, allowed = as_written(value) if kind.is_shown else None, None if kind.names else kind.allowed
            nearest = nearest_name(str(value), kind.names)
            raise self.fault(what, key, shown, allowed).noting(nearest=nearest) from None

    def text(self, key: str, default: str | None = None) -> str:
        """Return a text. It may be empty only if the default is."""
        return self.read(key, TEXT if default == "" else NAME, default)

    def texts(self, key: str) -> list[str]:
        return self.read(key, TEXTS)

    def table(self, key: str) -> "Entry":
        if not isinstance(self.get(key), dict):
            raise self.fault("is not a table", key, allowed=f"[{key}] with its fields in the lines below")
        return Entry(self.path, self.values[key], self.lines.inner(key))

    def inner(self, key: str) -> list["Entry"]:
        value = self.get(key)
        if not isinstance(value, list) or not value or not all(isinstance(item, dict) for item in value):
            raise self.fault("is not a list of tables", key, allowed="[{ .. }, { .. }]")
        return [Entry(self.path, item, self.lines.inner(key, number)) for number, item in enumerate(value)]

    def known(self, key: str, value: str, names: Iterable[str], what: str) -> None:
        """Raise an error for a value that is not one of the names."""
        if value not in names:
            raise self.fault(f"{what}{near(value, names)}", key, value).noting(nearest=nearest_name(value, names))


def statements(text: str) -> Iterator[tuple[int, str]]:
    """Yield the statements of a TOML file with their first lines."""
    line, begin, depth, statement = 1, 1, 0, ""
    for token in TOKENS.findall(text):
        depth += (token in ("[", "{")) - (token in ("]", "}"))
        if token == "\n" and depth == 0:
            if statement.strip():
                yield begin, statement.strip()
            begin, statement = line + 1, ""
        elif not token.startswith("#"):
            statement += token
        line += token.count("\n")
    if statement.strip():
        yield begin, statement.strip()


def key_of(statement: str) -> str:
    return statement.split("=", 1)[0].split(".", 1)[0].strip().strip("\"'")


def lines_of_items(line: int, statement: str) -> list[int]:
    """Return the line of each item of the list that a statement assigns; the statement begins on `line`."""
    lines, depth, is_awaited = list[int](), 0, False
    for token in TOKENS.findall(statement.partition("=")[2]):
        is_closed = token in ("]", "}")
        for piece in [token] if depth != 1 or token[0] in "\"'" else re.split("(,)", token):
            if is_awaited and piece.strip() and not is_closed:
                lines.append(line)
            is_awaited = piece == "," if piece.strip() else is_awaited
            line += piece.count("\n")
        depth += (token in ("[", "{")) - is_closed
        is_awaited = is_awaited or (token == "[" and depth == 1)
    return lines


def lines_of(text: str) -> LineNumbers:
    whole = LineNumbers(1)
    table = whole
    for line, statement in statements(text):
        if not statement.startswith("["):
            table.keys.setdefault(key_of(statement), line)
            if statement.endswith("]"):
                table.items.setdefault(key_of(statement), lines_of_items(line, statement))
            continue
        table = whole
        *outer, name = statement.strip("[] \t").replace(" ", "").split(".")
        for key in outer:
            table.keys.setdefault(key, line)
            table = table.tables.setdefault(key, [LineNumbers(line)])[-1]
        table.keys.setdefault(name, line)
        inner = table.tables.setdefault(name, [])
        if statement.startswith("[[") or not inner:
            inner.append(LineNumbers(line))
        table = inner[-1]
    return whole


def read_entry(path: str) -> tuple[str, Entry]:
    """Read a file; returns its text, and its contents as a table."""
    text, values = read_toml(path)
    return text, Entry(path, values, lines_of(text))
