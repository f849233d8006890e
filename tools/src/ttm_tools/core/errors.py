"""Errors that name the file, record and column, the value found there, and what is allowed instead."""

import importlib.util
import shutil
import sys
from typing import Any, Self

DEBIAN_NAMES = {"osmium": "pyosmium"}  # Python packages that Debian names differently


class TtmError(Exception):
    """Base of all errors of the tools. It can be pickled, so a process can raise what happened in another one."""

    def __reduce__(self) -> tuple[Any, ...]:
        return restore, (type(self), self.args, vars(self))

    def noting(self, **fields: object) -> Self:
        """Set attributes of `InputError` that the message states in words of its own, and return the error."""
        vars(self).update({name: str(value) if name == "file" else value for name, value in fields.items()})
        return self


def restore(kind: type[TtmError], arguments: tuple[Any, ...], values: dict[str, Any]) -> TtmError:
    """Return an error with the given text and attributes, whatever the constructor of its class takes."""
    error = kind.__new__(kind, *arguments)
    error.args = arguments
    vars(error).update(values)
    return error


class InputError(TtmError, ValueError):
    """Something is wrong with an input file.

    Attributes
    ----------
    source
        The file, or an argument such as "origins". `file` is its older name.
    record
        The number of the record; the header is record 1.
    column
        The column, or the option.
    value
        The value found there.
    allowed
        The values that are allowed.
    what
        What is wrong, without the place.
    limit
        The limit that is exceeded, if that is the error. The message has it in its own words, as `nearest`.
    nearest
        The most similar known name, or the nearest date on which a trip runs.
    """

    exit_status = 1

    def __init__(
        self,
        file: object,
        what: str,
        *,
        record: int | None = None,
        column: str | None = None,
        value: str | None = None,
        allowed: str | None = None,
        limit: int | None = None,
        nearest: str | None = None,
    ) -> None:
        self.file, self.record, self.column, self.value, self.allowed = str(file), record, column, value, allowed
        self.what, self.limit, self.nearest = what, limit, nearest
        place = self.file if record is None else f"{self.file}: record {record}"
        found = " ".join([*([column] if column else []), *([repr(value)] if value is not None else []), what])
        super().__init__(f"{place}: {found}" + (f"; allowed: {allowed}" if allowed else ""))

    @property
    def source(self) -> str:
        """The file, or an argument such as "origins"."""
        return self.file


class MissingDependencyError(TtmError, ImportError):
    """A package or program that a command needs is not installed."""

    exit_status = 1


class ArgumentError(TtmError, ValueError):
    """An argument has a value that is not allowed, or arguments exclude each other."""

    exit_status = 2


class LimitError(InputError):
    """More stops, walks, trips or scenarios than the engine takes.

    Attributes
    ----------
    limit
        How many the engine takes. The message has it too, and says what to do.
    """

    limit: int


def needs(*packages: str) -> None:
    """Raise a `MissingDependencyError` for the given Python packages that are not installed."""
    missing = [name for name in packages if importlib.util.find_spec(name) is None]
    if missing:
        debian = " ".join(f"python3-{DEBIAN_NAMES.get(name, name)}" for name in missing)
        raise MissingDependencyError(
            f"this Python, {sys.executable}, has no {' and no '.join(missing)}: "
            f"apt-get install {debian} and use /usr/bin/python3, or pip install {' '.join(missing)}"
        )


def needs_program(program: str, package: str) -> None:
    """Raise a `MissingDependencyError` that names the Debian package if a program is not installed."""
    if shutil.which(program) is None:
        raise MissingDependencyError(f"no program {program}: apt-get install {package}")
