"""File names made of names that people chose: short, portable, and distinct."""

import hashlib
import itertools
import re
from typing import Sequence

from .text import display_text

LONGEST = 80  # bytes of a name that appear in a file name
CHECKSUM_DIGITS = 8


def file_name(name: str) -> str:
    """Return a name as a file name. A long name is cut, and ends with digits of its checksum."""
    name_in_file = re.sub(r"[^\w.-]", "_", display_text(name)).lstrip(".") or "_"
    written = name_in_file.encode("utf-8", "replace")
    if len(written) <= LONGEST:
        return name_in_file
    return f"{written[:LONGEST].decode('utf-8', 'ignore')}_{sum_of_name(name)}"


def sum_of_name(name: str) -> str:
    """Return the first digits of a name's checksum."""
    return hashlib.sha256(name.encode("utf-8", "surrogateescape")).hexdigest()[:CHECKSUM_DIGITS]


def file_names(names: Sequence[str], ends: Sequence[str] = ("",)) -> dict[str, str]:
    """Return a file name for each name.

    The file names stay distinct if any of `ends` is appended, also on a disk that ignores case.
    """
    used, called = set[str](), dict[str, str]()
    for name in names:
        plain = file_name(name)
        tries = itertools.chain(
            [plain, f"{plain}_{sum_of_name(name)}"], (f"{plain}_{number}" for number in itertools.count(2))
        )
        called[name] = next(one for one in tries if used.isdisjoint(f"{one}{end}".casefold() for end in ends))
        used.update(f"{called[name]}{end}".casefold() for end in ends)
    return called


def sentences_on_names(names: dict[str, str]) -> list[str]:
    """Return a sentence for each name that its file does not carry unchanged."""
    return [
        f"files of {display_text(name)} are named {file}" for name, file in names.items() if display_text(name) != file
    ]
