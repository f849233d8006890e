"""Standard streams of a process that was started with one of them closed, or whose reader or disk takes no more."""

import contextlib
import errno
import os
import sys
from typing import TextIO


def fill_closed() -> None:
    """Opens the standard streams that are closed, so that no file gets their numbers. Writing to the output is an error
    then, as its descriptor only reads; messages go nowhere.
    """
    for number, kind in enumerate((os.O_RDONLY, os.O_RDONLY, os.O_WRONLY)):
        try:
            os.fstat(number)
        except OSError:
            os.open(os.devnull, kind)  # the least number that is free is this one
    sys.stdout = sys.stdout or reopened(1)
    sys.stderr = sys.stderr or reopened(2)


def reopened(number: int) -> TextIO:
    return open(number, "w", encoding="utf-8", errors="backslashreplace", closefd=False)


def give_up_output() -> None:
    """Has what is still buffered go nowhere, so that the end of the process reports no second error."""
    with contextlib.suppress(OSError, ValueError):
        os.dup2(os.open(os.devnull, os.O_WRONLY), sys.stdout.fileno())


def fault_of_output(fault: OSError) -> str:
    """What is wrong with the standard output."""
    return "standard output is closed" if fault.errno == errno.EBADF else f"output: {fault.strerror or fault}"
