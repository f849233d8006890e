"""What commands print for other programs: one JSON object with `--json`, and progress with `--progress json`.

A command calls `give` with its fields. This module alone decides how results, warnings and errors become JSON;
docs/reference/json.md describes each object. With `--json`, whatever else a command prints goes to standard error.
"""

import argparse
import contextlib
import json
import os
import signal
import sys
import threading
from typing import Any, Iterator, NoReturn, Sequence

from .. import __version__
from ..core import progress
from ..core.errors import ArgumentError, InputError, MissingDependencyError
from ..core.notices import Notice, collecting
from ..core.signals import Interrupted, give_reason
from ..core.text import display_text
from .options import Parser

JSON, PROGRESS = "--json", "--progress"
NEWER, OF_EXPLAIN = ("json", "progress"), ("streets", "all_options")  # options that commands did not have before
PLACE = ("file", "record", "column", "value", "allowed", "limit", "nearest")  # of an error, as attributes
KINDS: dict[str, tuple[tuple[type[BaseException], ...], str]] = {  # of errors: classes, and what they are about
    "input": ((InputError,), "a file, a folder or what is in it"),
    "argument": ((ArgumentError,), "the arguments"),
    "dependency": ((MissingDependencyError,), "a program or package that is not installed"),
    "memory": ((MemoryError,), "there is not enough memory"),
    "interrupted": ((Interrupted, KeyboardInterrupt), "a signal, or the end of standard input with `--progress json`"),
    "file": ((OSError,), "a file or an output that cannot be read or written"),
    "internal": ((BaseException,), "an unexpected error; `line` names its log"),
}


def add_json(parser: Parser) -> None:
    """Add the options for other programs to a command."""
    what = "print one JSON object on standard output, and everything else on standard error"
    parser.add_flag(JSON, f"{what}; docs/reference/json.md describes it", "text for people")
    what = "print a JSON object on standard error for each step, and end when standard input ends"
    parser.add_choice(PROGRESS, ("json",), what, without="a bar on a terminal")


def give(args: argparse.Namespace, **fields: object) -> None:
    """Set fields of the object that the command prints at its end."""
    args.fields = {**getattr(args, "fields", {}), **fields}


def is_json(args: argparse.Namespace) -> bool:
    """Whether the command prints an object."""
    return bool(getattr(args, "json", False))


@contextlib.contextmanager
def answering(args: argparse.Namespace) -> Iterator[None]:
    """Run a command in the block; with `--json` print its object when the block ends well."""
    if not is_json(args):
        yield
        return
    with collecting() as notices:
        args.notices = notices
        with contextlib.redirect_stdout(sys.stderr):
            yield
        write(common(args.command, notices) | getattr(args, "fields", {}))


def give_error(args: argparse.Namespace, error: dict[str, Any]) -> None:
    """Print the object of a command that failed, with `--json`."""
    if is_json(args):
        write(common(args.command, getattr(args, "notices", [])) | {"error": error})


def common(command: str | None, notices: Sequence[Notice]) -> dict[str, Any]:
    """The fields that all objects have."""
    warnings = [{"kind": one.kind, "text": str(one), "affected": one.affected} for one in notices]
    return {"command": command, "version": __version__, "warnings": warnings}


def error_of(fault: BaseException, line: str, status: int) -> dict[str, Any]:
    """An error's fields; None for what is unknown."""
    kind = next(name for name, (classes, _) in KINDS.items() if isinstance(fault, classes))
    place = {name: getattr(fault, name, None) for name in PLACE}
    if isinstance(fault, OSError):
        place["file"] = None if isinstance(fault.filename, int) else fault.filename
    return {"kind": kind, "line": line, "status": status, **place}


def plain(value: object) -> object:
    """A value as JSON has it: texts in UTF-8, and numbers of numpy as Python's; NaN is None."""
    if isinstance(value, str):
        return display_text(value).encode("utf-8", "backslashreplace").decode("utf-8")
    if isinstance(value, dict):
        return {plain(key): plain(own) for key, own in value.items()}
    if isinstance(value, (list, tuple)):
        return [plain(own) for own in value]
    if isinstance(value, (bytes, os.PathLike)):
        return plain(os.fsdecode(value))
    value = value.item() if hasattr(value, "item") else value
    return None if isinstance(value, float) and value != value else value


def write(fields: dict[str, Any]) -> None:
    """Print an object on standard output."""
    text = json.dumps(plain(fields), ensure_ascii=False, allow_nan=False)
    sys.stdout.buffer.write(text.encode("utf-8") + b"\n")
    sys.stdout.buffer.flush()


class CommandParser(Parser):
    """A parser that reports wrong arguments as an object as well, if `--json` is among them."""

    def error(self, message: str) -> NoReturn:
        """Print the usage and the error, and exit with status 2."""
        if JSON in self.words:
            write(common(self.prog.partition(" ")[2] or None, []) | {"error": self.error_of(message)})
        super().error(message)

    def error_of(self, message: str) -> dict[str, Any]:
        """The fields of an error in the arguments that argparse is reporting."""
        found, parts = sys.exc_info()[1], dict[str, Any]()
        if isinstance(found, argparse.ArgumentError):
            parts["column"] = found.argument_name
            cause = found.__context__
            parts |= {name: getattr(cause, name, None) for name in ("value", "allowed")}
        return error_of(ArgumentError(message).noting(**parts), message, ArgumentError.exit_status)

    def _get_option_tuples(self, option_string: str) -> Any:
        # abbreviations that were unique before the options for programs stay so
        found = super()._get_option_tuples(option_string)
        newer = (*NEWER, *(OF_EXPLAIN if self.prog.endswith(" explain") else ()))
        return [one for one in found if one[0].dest not in newer] or found

    def _check_value(self, action: argparse.Action, value: Any) -> None:
        try:
            super()._check_value(action, value)
        except argparse.ArgumentError as fault:
            fault.__context__ = ArgumentError().noting(value=value, allowed=", ".join(map(str, action.choices or ())))
            raise


class InputWatch:
    """Ends this process by SIGTERM when its standard input ends, so that it never outlives the one that started it."""

    def __init__(self) -> None:
        self.lock, self.is_over = threading.Lock(), False
        threading.Thread(target=self.wait, daemon=True).start()

    def wait(self) -> None:
        """Read standard input to its end."""
        with contextlib.suppress(OSError):
            while os.read(0, 1 << 16):
                pass
        with self.lock:
            if not self.is_over:
                give_reason("standard input ended")
                signal.pthread_kill(threading.main_thread().ident or 0, signal.SIGTERM)

    def stop(self) -> None:
        """Let the process end by itself."""
        with self.lock:
            self.is_over = True


@contextlib.contextmanager
def progressing(args: argparse.Namespace, is_process: bool) -> Iterator[None]:
    """Print progress as the command asks while it runs. A process of its own also ends with its standard input."""
    if getattr(args, "progress", None) != "json":
        yield
        return
    progress.print_json()
    watch = InputWatch() if is_process else None
    try:
        yield
    finally:
        progress.print_json(False)
        if watch is not None:
            watch.stop()
