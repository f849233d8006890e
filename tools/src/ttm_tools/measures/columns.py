"""Tables of measures: a dataclass whose fields are the columns, each one entry with its function, what it is, and its
source. Headers, numbers and the tables of docs/reference/measures.md come from them.
"""

from dataclasses import field, fields
from typing import Any, Callable, TypeVar

from ..core.columns import TableColumn, explained

Row = TypeVar("Row")


def column(function: Callable[[Any], Any], what: str = "", source: str = "", **more: Any) -> Any:
    """A column: what gives its number, what it is, and who proposed it."""
    return field(metadata={"function": function, "what": what, "source": source, **more})


def header(kind: type[Any]) -> list[str]:
    return [own.name for own in fields(kind)]


def row_of(kind: type[Row], case: Any) -> Row:
    """The numbers of a case."""
    return kind(*(own.metadata["function"](case) for own in fields(kind)))


def markdown_table(kind: type[Any]) -> str:
    """The columns of a kind as docs/reference/measures.md lists them."""
    return explained(TableColumn(own.name, own.metadata["what"], own.metadata["source"]) for own in fields(kind))
