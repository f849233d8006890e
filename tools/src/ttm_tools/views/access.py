"""Tables of access: a line for each number, as r5r has it, or a column for each."""

import itertools
from dataclasses import dataclass, replace
from typing import BinaryIO, Callable, Iterator, Sequence

import numpy as np

from ..core.arrays import Floats
from ..core.columns import ENDS, names_of
from ..core.errors import InputError
from ..core.tables import write_rows
from ..core.text import decimal, display_text
from ..matrices import Matrix, Share
from .nearest_ends import DestinationNames, Ends, divided

LONG, WIDE = "long", "wide"
ACCESS = ("cutoff", "accessibility")  # the last columns of the long form
NEAREST = ("nearest", "seconds", *names_of(ENDS))


@dataclass(frozen=True)
class Form:
    heads: tuple[str, ...]  # ACCESS or NEAREST
    shape: str = LONG  # or WIDE
    with_scenario: bool = True


@dataclass(frozen=True)
class Measured:
    """What was measured of a scenario."""

    scenario: str
    origins: list[str]
    shares: list[Share]
    numbers: Floats  # by share, origin, opportunity, and cutoff (or count of the nearest)
    decimals: int = 6  # with which they are written
    ends: Ends | None = None  # of the nearest: the destinations, by the same axes


def origins_of(matrix: Matrix, scenario: str) -> list[str]:
    """The origins of a scenario, which each of its shares has."""
    first = matrix.origins(scenario, matrix.shares[0])
    for share in matrix.shares:
        if matrix.origins(scenario, share) != first:
            message = f"{display_text(scenario)} has other origins for the percentile {share}: is it truncated?"
            raise InputError(matrix.path, message)
    return first


def measured(
    matrix: Matrix, scenario: str, shares: Sequence[Share], measure: Callable[[str, Share], Floats]
) -> Measured:
    origins = origins_of(matrix, scenario)
    return Measured(scenario, origins, list(shares), np.stack([measure(scenario, share) for share in shares]))


def measured_nearest(
    matrix: Matrix,
    scenario: str,
    shares: Sequence[Share],
    measure: Callable[[str, Share], Floats],
    destinations: DestinationNames,
) -> Measured:
    """The times to the nearest with their destinations; `measure` applies `nearest_with_ends`."""
    found = measured(matrix, scenario, shares, measure)
    seconds, ends = divided(found.numbers, destinations)
    return replace(found, numbers=seconds, ends=ends)


def write_access(
    out: BinaryIO, found: Sequence[Measured], opportunities: Sequence[str], limits: Sequence[float | str], form: Form
) -> None:
    """Writes what was measured of some scenarios, one after the other."""
    named, middle = ["scenario"] * form.with_scenario + ["id"], "_nearest_" if form.heads == NEAREST else "_"
    texts = [limit if isinstance(limit, str) else decimal(limit) for limit in limits]
    cells = list(itertools.product(opportunities, texts))
    if form.shape == WIDE:
        header = [*named, "percentile", *[f"{name}{middle}{limit}" for name, limit in cells]]
        write_rows(out, header, wide_rows(found, form.with_scenario))
    else:
        header = [*named, "opportunity", "percentile", *form.heads]
        write_rows(out, header, long_rows(found, opportunities, texts, form.with_scenario))


def wide_rows(found: Sequence[Measured], with_scenario: bool) -> Iterator[list[object]]:
    for of in found:
        for row, origin in enumerate(of.origins):
            for place, share in enumerate(of.shares):
                texts = [decimal(number, of.decimals) for number in of.numbers[place, row].ravel().tolist()]
                yield [*[of.scenario] * with_scenario, origin, "" if share is None else share, *texts]


def long_rows(
    found: Sequence[Measured], opportunities: Sequence[str], limits: Sequence[str], with_scenario: bool
) -> Iterator[list[object]]:
    for of in found:
        for row, origin in enumerate(of.origins):
            numbers = of.numbers[:, row].tolist()
            for column, name in enumerate(opportunities):
                for place, share in enumerate(of.shares):
                    for rank, (limit, number) in enumerate(zip(limits, numbers[place][column])):
                        head = [*[of.scenario] * with_scenario, origin, name, "" if share is None else share]
                        end = of.ends.fields((place, row, column, rank)) if of.ends else []
                        yield [*head, limit, decimal(number, of.decimals), *end]
