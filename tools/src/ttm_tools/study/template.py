"""A study's file with a comment for each field, as docs/reference/study.toml has it."""

import textwrap
from dataclasses import MISSING, Field, fields
from typing import Any, Iterator

from .settings import NAMES, TABLES, About

HEAD = """\
# A study of ttm-tools: `ttm-tools study THIS_FILE` runs all of it, in a folder of the same name.
# A line that begins with # is a comment or a default; remove the # to set another value.
"""


def default_of(field: "Field[Any]") -> str:
    """The default of a field, as the file says it."""
    if field.default is MISSING:
        return f"needed, or {field.metadata['instead']}" if field.metadata["instead"] else "needed"
    value = list(field.default) if isinstance(field.default, tuple) else field.default
    if value is None or value == [] or value == "":
        return "" if "without it" in field.metadata["meaning"] else "without it, none"
    return f"without it, {str(value).lower() if isinstance(value, bool) else value}"


def lines_of_table(kind: type[Any]) -> Iterator[str]:
    """The fields of a table: required ones as they are, the others as comments."""
    for field in fields(kind):
        ends = [field.metadata["meaning"], field.metadata["kind"].allowed, default_of(field)]
        yield from textwrap.wrap(
            "; ".join(end for end in ends if end), 110, initial_indent="# ", subsequent_indent="#   "
        )
        mark = "" if field.default is MISSING else "#"
        yield f"{mark}{NAMES.get(field.name, field.name)} = {field.metadata['example']}"


def template() -> str:
    lines = [HEAD, *lines_of_table(About)]
    for name, kind in TABLES.items():
        purpose = " ".join((kind.__doc__ or "").split())
        lines += ["", f"[{name}]", f"# {purpose}", *lines_of_table(kind)]
    return "\n".join(lines) + "\n"
