"""Messages on standard error, each on one line."""

import sys

from .notices import note
from .text import printed


def one_line(message: object) -> str:
    """Return a message as one line that every terminal can show."""
    return printed(" ".join(str(message).split())).encode("utf-8", "backslashreplace").decode("utf-8")


def as_line(message: object) -> str:
    """Return a message as one line that keeps its indentation."""
    line = str(message)
    return line[: len(line) - len(line.lstrip(" "))] + one_line(line)


def say(*lines: object) -> None:
    """Print messages on standard error, one line each."""
    note(*lines)
    for line in lines:
        print(as_line(line), file=sys.stderr, flush=True)
