"""What `ttm` prints on standard error, as errors and warnings."""

import re
import warnings
from typing import Any

from ..core.console import one_line
from ..core.errors import InputError

REFUSAL = re.compile(r"ttm: (?:(?P<file>.+?): )?(?:record (?P<record>[0-9]+): )?(?P<what>[^:]*)")
# The line after a refusal explains it: a column or option, its value, and what is allowed.
EXPLAINED = re.compile(
    r'ttm: (?:column (?P<column>\S+)|(?P<option>--[a-z]+)) is "(?P<value>.*)"; (?P<allowed>.*)', re.DOTALL
)
# Lines of a report before a refusal: a fact with its number or dates, a warning, or a question that is answered.
AHEAD = re.compile(
    r"ttm: (?:warning: .*|question(?: [0-9]+)?: .*|(?!scenario name: )[^:\"]+(?:: [^:\"]+)?: [0-9].*"
    r"|[^:]+ calendars: none|nearest date [^:]+: none.*)"
)
WARNING = "ttm: warning: "


class EngineError(InputError):
    """The engine ended without a matrix.

    The attributes of `InputError` are set if the engine names them.

    Attributes
    ----------
    line
        The line that says why the engine ended.
    explanation
        The lines after it.
    status
        The exit status of the engine.
    """

    def __init__(self, message: str, status: int) -> None:
        lines = [line for line in message.split("\n") if line] or [message]
        self.line, self.explanation, self.status = lines[0], lines[1:], status
        found, more = REFUSAL.fullmatch(self.line), EXPLAINED.fullmatch(lines[1]) if len(lines) > 1 else None
        record = found["record"] if found else None
        what = found["what"] if found else self.line
        place: dict[str, Any] = {"record": int(record)} if record else {}
        if more:
            place["column"] = more["column"] or more["option"]
            place |= {"value": more["value"], "allowed": more["allowed"]}
        elif len(lines) > 1:
            what = "; ".join([what, *(line.removeprefix("ttm: ") for line in lines[1:])])
        super().__init__((found and found["file"]) or "ttm", what, **place)

    @property
    def option(self) -> str | None:
        """The option whose value is refused, such as --date."""
        return self.column if self.column and self.column.startswith("--") else None

    @property
    def ended(self) -> int:
        """The old name of `status`."""
        warnings.warn("EngineError.ended is deprecated: use status", DeprecationWarning, stacklevel=2)
        return self.status


def refusal_of(errors: bytes, status: int) -> list[str]:
    """Return the line that says why a run ended and the lines that explain it, without those of the report."""
    lines = [line for line in errors.decode("utf-8", "replace").splitlines() if line]
    if not lines:
        return [f"ttm ended with status {status} and printed nothing"]
    ahead = max((place for place, line in enumerate(lines, 1) if AHEAD.fullmatch(line)), default=0)
    return lines[ahead:] or lines[-1:]


def engine_error(errors: bytes, status: int) -> EngineError:
    """Return the error for a run that ended with an exit status other than 0."""
    return EngineError("\n".join(refusal_of(errors, status)), status)


def error_line(errors: bytes, status: int) -> str:
    """Return why a run ended, in one line."""
    return one_line("; ".join(refusal_of(errors, status)))


def warnings_in(report: bytes) -> list[str]:
    """Return the distinct warnings in a report, such as that no trip runs on the date."""
    lines = report.decode("utf-8", "replace").splitlines()
    return list(dict.fromkeys(line.removeprefix(WARNING) for line in lines if line.startswith(WARNING)))
