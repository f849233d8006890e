"""The tables of winners and losers, by pair of stops and by origin."""

from dataclasses import dataclass
from typing import BinaryIO, Sequence

import numpy as np
import numpy.typing as npt

from ..core.columns import compared
from ..core.lines import Numerals, Texts, field, fields_as_texts, join_lines, texts_of
from ..core.tables import write_rows
from ..core.text import decimal, display_text, quantity, rounded
from ..gtfs.stops import Stops
from ..matrices import Pair, Sums
from ..measures.comparison import (
    Changes,
    Comparison,
    KINDS,
    least_change,
    order_of,
    order_of_origins,
    sides_of,
    sorted_origins,
)

LINES_AT_ONCE = 200_000


def ends_as_texts(names: Sequence[str], stops: Stops | None) -> Texts:
    """The ends of pairs as texts of a line: the identifier, and the name if there is a feed."""
    names_of_stops = stops.of(names).names if stops is not None else None
    if names_of_stops is None:
        return fields_as_texts(names, after=b",")
    return texts_of([field(name) + b"," + field(other) + b"," for name, other in zip(names, names_of_stops)])


BOTH, OF_TIMES, OF_ACCESS = "both", "times", "access"  # why an origin is listed


@dataclass(frozen=True)
class OriginChoice:
    """Which lines a table has, and in which order."""

    sort: str | None = None  # losers first, and then winners, each by the size of the change
    top: int | None = None  # maximum number of lines
    listed: str = BOTH
    least: float | None = None  # by which access differs; without it, however little


ALL = OriginChoice()


def write_pairs(out: BinaryIO, pair: Pair, changes: Changes, stops: Stops | None, choice: OriginChoice = ALL) -> None:
    """A line for each pair that differs, losers first."""
    write_rows(out, compared(by_pair=True, has_names=stops is not None), [])
    origins, destinations = ends_as_texts(pair.origins, stops), ends_as_texts(pair.matrix.stops, stops)
    kinds = fields_as_texts(KINDS, after=b",")
    seconds, change = Numerals(b"%d,".__mod__, b","), Numerals(b"%d\n".__mod__, b"\n")
    order = order_of(changes, choice.sort)[: choice.top]
    for begin in range(0, len(order), LINES_AT_ONCE):
        chosen = order[begin : begin + LINES_AT_ONCE]
        before, after = changes.before[chosen], changes.after[chosen]
        sign = texts_of([b"", b"-"])[(after < before).astype(np.intp)]
        ends = [origins[changes.origin[chosen]], destinations[changes.destination[chosen]], kinds[changes.kind[chosen]]]
        numbers = [seconds.of(before), seconds.of(after), sign, change.of(np.abs(after - before))]
        out.write(join_lines([*ends, *numbers], len(chosen)))


def chosen_origins(first: Sums, second: Sums, counts: npt.NDArray[np.int64], choice: OriginChoice) -> list[int]:
    """The origins that are listed, by a pair that differs, by their access, or by either, in their order."""
    change, least = second - first, least_change(first, second) if choice.least is None else choice.least
    order = order_of_origins(change, counts)
    if choice.sort is not None:
        order = sorted_origins(first, second, choice.sort)
    of_times, of_access = counts.any(axis=1), np.abs(change) >= least
    wanted = {BOTH: of_times | of_access, OF_TIMES: of_times, OF_ACCESS: of_access}[choice.listed]
    origins: list[int] = order[wanted[order]][: choice.top].tolist()
    return origins


def write_origins(
    out: BinaryIO, pair: Pair, place: int, comparison: Comparison, stops: Stops | None, choice: OriginChoice = ALL
) -> None:
    """A line for each origin with a pair that differs or with other access, losers first."""
    (first, second), counts = pair.access(place), comparison.counts
    names = stops.of(pair.origins).names if stops is not None else None
    lines = []
    for row in chosen_origins(first, second, counts, choice):
        before, after = first[row].item(), second[row].item()
        percent = rounded(100 * (after - before) / before, 1).replace(",", "") if before > 0 else ""
        name, access = [names[row]] if names else [], map(decimal, (before, after, after - before))
        lines.append([pair.origins[row], *name, *access, percent, *counts[row]])
    write_rows(out, compared(by_pair=False, has_names=names is not None), lines)


def access_stated(pair: Pair, place: int) -> str:
    """What the matrix says of its access, such as `access within 30 minutes, percentile 50`."""
    limit, share = pair.matrix.layout.limits[place], pair.share
    within = f" within {limit / 60:g} minutes" if limit is not None else ""
    return f"access{within}{f', percentile {share}' if share is not None else ''}"


def signed(number: float) -> str:
    """A sum with its sign and at most six decimals: `+1,200`, `-0.45`."""
    text = f"{number:+,.6f}"
    return text.rstrip("0").rstrip(".")


def summary(
    pair: Pair, comparison: Comparison, limit: float, place: int | None, least: float | None = None
) -> list[str]:
    """A line on all pairs, and one on access where the table is that of origins; both say by how much they differ."""
    pairs = len(pair.origins) * len(pair.matrix.stops)
    totals = comparison.counts.sum(axis=0)
    counts = ", ".join(f"{count:,} {kind}" for kind, count in zip(KINDS, totals.tolist()))
    names, end = f"{display_text(pair.other)} compared with {display_text(pair.base)}", pair.matrix.greatest_stated
    sentences = [
        f"{names}: of {quantity(pairs, 'pair')} {counts} (by more than {limit:g} seconds{'; ' * bool(end)}{end})"
    ]
    if place is not None:
        first, second = pair.access(place)
        change = second - first
        sides, by_how_much = sides_of(first, second, least).sentence(), f" (by {least:,} or more)" if least else ""
        of = f"of {quantity(len(change), 'origin')} {sides}{by_how_much}; in all {signed(change.sum())}"
        sentences.append(f"{access_stated(pair, place)}: {of}")
    return sentences
