"""Plans written as TOML."""

import json
from collections.abc import Mapping, Sequence
from decimal import Decimal
from typing import Any

from ..core.errors import ArgumentError

Values = Mapping[str, Any]


def toml_value(value: Any) -> str:
    """Return a value as TOML has it."""
    if isinstance(value, bool):
        return str(value).lower()
    if isinstance(value, (int, Decimal)):
        return f"{value:f}" if isinstance(value, Decimal) else str(value)
    if isinstance(value, float):
        return repr(value)
    if isinstance(value, str):
        return json.dumps(value, ensure_ascii=False).replace("\x7f", "\\u007f")
    if isinstance(value, Mapping):
        return "{ " + ", ".join(f"{key} = {toml_value(item)}" for key, item in value.items()) + " }"
    if isinstance(value, (list, tuple)):
        return "[" + ", ".join(toml_value(item) for item in value) + "]"
    raise ArgumentError(f"{str(value)[:60]!r} is neither a text nor a number")


def table_text(name: str, values: Values) -> str:
    """Return one of a list of tables, with its values."""
    return "".join(f"{line}\n" for line in [f"[[{name}]]", *(f"{key} = {toml_value(values[key])}" for key in values)])


def scenario_text(name: str, actions: Sequence[Values]) -> str:
    """Return a scenario as a plan file has it."""
    return "\n".join([table_text("scenario", {"name": name}), *(table_text("scenario.action", one) for one in actions)])
