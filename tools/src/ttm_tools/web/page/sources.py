"""Where a page comes from and what its numbers mean, in words."""

import os
import shlex
from dataclasses import dataclass
from pathlib import Path
from typing import Mapping, Sequence

from ... import __version__
from ...core.errors import ArgumentError
from ...core.files import sha256_of_file
from ...core.text import display_text
from ...matrices import Share

FEED = "stops routes trips stop_times calendar calendar_dates frequencies transfers shapes".split()


@dataclass(frozen=True)
class RunArguments:
    """The arguments of the run that are reported."""

    text: str = ""

    def value(self, name: str) -> str | None:
        """The value of an option, or None."""
        try:
            texts = shlex.split(self.text)
        except ValueError as fault:
            raise ArgumentError(f"--words {self.text!r}: {fault}") from None
        for place, word in enumerate(texts):
            if word.startswith(f"{name}="):
                return word.partition("=")[2]
            if word == name and place + 1 < len(texts):
                return texts[place + 1]
        return None

    @property
    def date(self) -> str | None:
        text = self.value("--date")
        return f"{text[:4]}-{text[4:6]}-{text[6:]}" if text and text.isdigit() and len(text) == 8 else text

    @property
    def window(self) -> str | None:
        ends = [self.value(name) for name in ("--from", "--to")]
        return f"{ends[0]} to {ends[1]}" if all(ends) else None


def meaning(share: Share, arguments: RunArguments) -> str:
    """What a travel time says, in one sentence."""
    window = f" of the window {arguments.window}" if arguments.window else " of the window"
    often = "the percentile" if share is None else f"at least {share} percent"
    return (
        f"A travel time of 30 minutes means: with {often} of the departures{window}, one each minute, you arrive within"
        " 30 minutes of the departure, including all waiting, walking and changing (rounded up to whole minutes); "
        "'not reached' means that too few departures arrive."
    )


def table(names: Mapping[str, Sequence[str]], feed: str, arguments: RunArguments) -> list[tuple[str, str]]:
    """Where the page comes from, as lines of a table: feed, day, words of the run, and the sums of all files."""
    rows = [
        ("Feed", display_text(os.path.basename(os.path.abspath(feed)))),
        ("Date", arguments.date or "not stated"),
        ("Departures", arguments.window or "not stated"),
        ("Arguments of the run", arguments.text or "not stated"),
        ("Written by", f"ttm-tools {__version__}"),
    ]
    of_feed = [str(path) for path in (Path(feed) / f"{name}.txt" for name in FEED) if path.is_file()]
    for kind, paths in [*names.items(), ("Feed", of_feed)]:
        rows += [
            (f"{kind}: {display_text(os.path.basename(path))}", f"SHA-256 {sha256_of_file(path)}") for path in paths
        ]
    return rows
