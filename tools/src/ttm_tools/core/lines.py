"""Lines of long tables, put together from fields that are formatted once each.

For millions of lines this takes a third of the time of `pandas.DataFrame.to_csv`, and gives the same bytes.
"""

from typing import Any, Callable, Iterable, Sequence

import numpy as np
import numpy.typing as npt

Texts = npt.NDArray[np.object_]  # of bytes


def field(text: object) -> bytes:
    """Return a field as `ttm` writes it: in quotes if it contains a comma, a quote, CR or LF."""
    quoted = str(text)
    if any(letter in quoted for letter in ',"\r\n'):
        quoted = '"' + quoted.replace('"', '""') + '"'
    return quoted.encode("utf-8", "surrogateescape")


def fields_as_texts(values: Iterable[object], before: bytes = b"", after: bytes = b"") -> Texts:
    """Return an array of fields, each between `before` and `after`."""
    return texts_of([before + field(value) + after for value in values])


def join_lines(pieces: Sequence[bytes | Texts], count: int) -> bytes:
    """Return the text of some lines.

    Parameters
    ----------
    pieces
        The parts of a line, in order: bytes that all lines share, or an array with one entry for each line.
    count
        The number of lines.
    """
    texts = np.empty((count, len(pieces)), dtype=object)
    for place, piece in enumerate(pieces):
        texts[:, place] = piece
    return b"".join(texts.ravel())


class Numerals:
    """Formats arrays of integers from 0 on; the texts of small numbers are stored and reused.

    Parameters
    ----------
    form
        Formats one number.
    gap
        The text for NaN.
    """

    KEPT = 1 << 20  # numbers whose texts are stored

    def __init__(self, form: Callable[[int], bytes], gap: bytes = b"") -> None:
        self.form, self.gap = form, gap
        self.texts: Texts = np.empty(0, dtype=object)

    def of(self, numbers: npt.NDArray[Any]) -> Texts:
        """Return the text of each number."""
        gaps = np.isnan(numbers)
        whole = np.where(gaps, 0, numbers).astype(np.int64)
        most = int(whole.max(initial=0))
        if most >= self.KEPT:
            found, places = np.unique(whole, return_inverse=True)
            texts = texts_of([self.form(number) for number in found.tolist()])[places]
        else:
            if most >= len(self.texts):
                self.texts = texts_of([self.form(number) for number in range(max(most + 1, 2 * len(self.texts)))])
            texts = self.texts[whole]
        texts[gaps] = self.gap
        return texts


def texts_of(encoded: Sequence[bytes]) -> Texts:
    """Return an object array of the given texts."""
    texts = np.empty(len(encoded), dtype=object)
    texts[:] = encoded
    return texts
