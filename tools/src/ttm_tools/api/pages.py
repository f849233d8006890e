"""Pages of a matrix and of a network, which the package `notebook` makes: it is imported when it is first needed."""

import html
import threading
from collections.abc import Callable
from importlib import import_module
from pathlib import Path
from types import TracebackType
from typing import Any

PARENT = __name__.partition(".")[0]
WRITE_PAGE, EXPLORE = ("notebook.matrix_page", "write_matrix_page"), ("notebook.exploring", "explore")
HEIGHT = 640  # pixels of a page in a notebook


def call(function: tuple[str, str], *arguments: Any, **named: Any) -> Any:
    """Call a function of a package above this one, which is given by its module and its name."""
    module, name = function
    return getattr(import_module(f"{PARENT}.{module}"), name)(*arguments, **named)


class SavedPage:
    """A page in a file. A notebook shows it inline.

    Attributes
    ----------
    path
        The file.
    """

    def __init__(self, path: Path) -> None:
        self.path = path

    def __repr__(self) -> str:
        return f"<page in {str(self.path)!r}>"

    def _repr_html_(self) -> str:
        document = html.escape(self.path.read_text(encoding="utf-8"))
        return f'<iframe srcdoc="{document}" width="100%" height="{HEIGHT}" style="border: 0"></iframe>'


class ServedPage:
    """A page that this process serves to this machine, until `close`, a ``with`` block or the interpreter ends.

    Attributes
    ----------
    address
        What a browser opens. It has a token that changes with each start.
    """

    def __init__(self, address: str, end: Callable[[], None]) -> None:
        self.address, self._end, self._ended = address, end, threading.Event()

    @property
    def is_open(self) -> bool:
        """Whether the page is still served."""
        return not self._ended.is_set()

    def wait(self) -> None:
        """Serve until interrupted, as by Ctrl-C, and then close."""
        try:
            self._ended.wait()
        finally:
            self.close()

    def close(self) -> None:
        """End the server and its engine processes. Closing twice is allowed."""
        if self.is_open:
            self._ended.set()
            self._end()

    def __enter__(self) -> "ServedPage":
        return self

    def __exit__(
        self, kind: type[BaseException] | None, error: BaseException | None, traceback: TracebackType | None
    ) -> None:
        self.close()

    def __repr__(self) -> str:
        return f"<page at {self.address}>" if self.is_open else "<page that is no longer served>"

    def _repr_html_(self) -> str:
        link = html.escape(self.address)
        return f'<a href="{link}" target="_blank">{link}</a>' if self.is_open else f"<p>{html.escape(repr(self))}</p>"
