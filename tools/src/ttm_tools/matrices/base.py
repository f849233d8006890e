"""A matrix by blocks of rows: what all kinds of files give, and what is chosen of them."""

from abc import ABC, abstractmethod
from dataclasses import dataclass
from functools import cached_property
from typing import Callable, Iterator, Sequence

import numpy as np

from ..core.arrays import Floats, Places, Seconds, Sums
from ..core.errors import InputError
from ..core.progress import track
from ..core.scenarios import BASE, TODAY, base_of
from ..core.text import display_text, first_few, quantity, sentences_on_lacking
from ..core.toml_values import near, nearest_name
from .layout import MatrixLayout

CELLS_AT_ONCE = 2_000_000
Share = int | None  # percent; None where the matrix names none


@dataclass(frozen=True)
class Block:
    """Some origins of a scenario and a share, and their travel times to each stop in seconds, NaN where one isn't
    reached.
    """

    origins: list[str]
    seconds: Seconds


class Matrix(ABC):
    """A matrix on the disk: its layout, its scenarios and shares, and for each of these its origins, their access, and
    their travel times.
    """

    path: str
    layout: MatrixLayout
    scenarios: list[str]  # in the file's order
    shares: list[Share]  # ascending
    named_base: str | None = None  # if it is of another file
    greatest: float | None = None  # seconds above which a pair counts as not reached
    heading: str = ""  # the heading if it is two files, side by side
    files: tuple[str, ...] = ()  # those in addition to its own

    @abstractmethod
    def origins(self, scenario: str, share: Share) -> list[str]:
        """The origins of a scenario and a share, in the file's order."""

    @abstractmethod
    def access(self, scenario: str, share: Share) -> Sums:
        """The access of these origins, a row for each and a column for each limit."""

    @abstractmethod
    def rows(self, scenario: str, share: Share, begin: int, end: int) -> Seconds:
        """The travel times of some of these origins, a row for each and a column for each stop."""

    @property
    def stops(self) -> list[str]:
        return self.layout.stops

    @cached_property
    def places(self) -> dict[str, int]:
        """Where each stop's column stands."""
        return {name: place for place, name in enumerate(self.stops)}

    def stops_and_origins(self) -> list[str]:
        """All stops of the columns, and behind them those origins that aren't among them."""
        origins = (
            name for scenario in self.scenarios for share in self.shares for name in self.origins(scenario, share)
        )
        return list(dict.fromkeys([*self.stops, *origins]))

    @property
    def base(self) -> str:
        """The scenario that others are compared with where none is named: of those of a plan, today."""
        return self.named_base or base_of(self.scenarios)

    @property
    def compared(self) -> list[str]:
        """The scenarios that are taken where none is named: all but the one that has the trips of all scenarios of a
        plan at once.
        """
        leaves_base = self.named_base is None and TODAY in self.scenarios
        return [name for name in self.scenarios if name != BASE or not leaves_base]

    def rows_at_once(self) -> int:
        return max(1, CELLS_AT_ONCE // max(1, len(self.stops)))

    def rows_at(self, scenario: str, share: Share, places: Places) -> Seconds:
        """The rows at some places: at one go where they follow one another."""
        if len(places) and bool((np.diff(places) == 1).all()):
            return self.rows(scenario, share, int(places[0]), int(places[-1]) + 1)
        none = np.zeros((0, len(self.stops)), np.float32)
        return np.concatenate([none, *[self.rows(scenario, share, place, place + 1) for place in places.tolist()]])

    def blocks(self, scenario: str, share: Share) -> Iterator[Block]:
        """All rows of a scenario and a share, some at a time."""
        names, step = self.origins(scenario, share), self.rows_at_once()
        for begin in range(0, len(names), step):
            end = min(begin + step, len(names))
            yield Block(names[begin:end], self.rows(scenario, share, begin, end))

    def tracked(self, scenario: str, share: Share) -> Iterator[Block]:
        """Yields the same blocks, and shows their progress."""
        count = -(-len(self.origins(scenario, share)) // self.rows_at_once())
        return track(self.blocks(scenario, share), count, f"{scenario} {share or ''}", "blocks")

    def measure(self, scenario: str, share: Share, function: Callable[[Seconds], Floats]) -> Floats:
        """Applies a function of the travel times of some origins to all of them, block by block.

        Parameters
        ----------
        function
            Returns an array with an entry for each row that it gets.
        """
        found: Floats | None = None
        begin = 0
        for block in self.tracked(scenario, share):
            piece = function(block.seconds)
            if found is None:
                found = np.zeros((len(self.origins(scenario, share)), *piece.shape[1:]))
            found[begin : begin + len(piece)] = piece
            begin += len(piece)
        return function(np.zeros((0, len(self.stops)), np.float32)) if found is None else found

    def seconds(self, scenario: str, share: Share, origin: str) -> Seconds:
        """The travel times of one origin, which the scenario has."""
        names = self.origins(scenario, share)
        if origin not in names:
            what = f"the scenario {display_text(scenario)} has no origin {display_text(origin)}"
            shown = list(map(display_text, names))
            fault = InputError(self.path, f"{what}{near(display_text(origin), shown)}")
            raise fault.noting(column="origin", value=origin, nearest=nearest_name(display_text(origin), shown))
        place = names.index(origin)
        row: Seconds = self.rows(scenario, share, place, place + 1)[0]
        return row

    def share(self, percent: int | None) -> Share:
        """The chosen percentile, which needs to be named only if there are several."""
        percentiles = ", ".join(map(str, self.shares))
        if percent is not None and not self.layout.names_share:
            raise InputError(self.path, "it has no percentiles: leave out --share")
        if percent is not None and percent not in self.shares:
            raise InputError(self.path, f"no rows for the percentile {percent}; it has {percentiles}")
        if percent is None and self.layout.names_share and len(self.shares) > 1:
            raise InputError(self.path, f"it has rows for the percentiles {percentiles}: choose one with --share")
        return self.shares[0] if percent is None else percent

    def limit(self, seconds: int | None) -> tuple[int, int | None]:
        """The place of a limit among the columns of access, and the limit in seconds: the chosen one, or the only
        one.
        """
        limits = self.layout.limits
        if limits == (None,):
            return 0, seconds
        seconds_stated = ", ".join(map(str, limits))
        if seconds is None and len(limits) > 1:
            raise InputError(self.path, f"it has access within {seconds_stated} seconds: choose one with --within")
        if seconds is not None and seconds not in limits:
            raise InputError(self.path, f"no access within {seconds} seconds, but within {seconds_stated}")
        place = 0 if seconds is None else limits.index(seconds)
        return place, limits[place]

    def scenario(self, name: str) -> str:
        """A scenario by its name."""
        if name not in self.scenarios:
            raise InputError(
                self.path, f"no scenario {display_text(name)}; it has {', '.join(map(display_text, self.scenarios))}"
            )
        return name

    @property
    def greatest_stated(self) -> str:
        """What is reported with the percentile if travel times have a maximum."""
        return "" if self.greatest is None else f"pairs beyond {self.greatest / 60:g} minutes count as not reached"

    @property
    def left_out(self) -> str:
        """What is reported where a scenario is left out; nothing where none is."""
        sentence = f"{self.path}: {BASE}, which has the trips of all scenarios at once, is left out"
        return "" if self.compared == self.scenarios else sentence

    def other(self, base: str, wanted: str | None) -> str:
        """The scenario other than the base, which needs to be named only if there are several."""
        self.scenario(base)
        if wanted is not None:
            return self.scenario(wanted)
        others = [name for name in (self.scenarios if base == BASE else self.compared) if name != base]
        if len(others) > 1:
            names = f"{display_text(others[0])} and {display_text(others[1])}"
            raise InputError(
                self.path, f"it has the scenarios {names} besides {display_text(base)}: choose one with --scenario"
            )
        if not others:
            there = ", ".join(map(display_text, self.scenarios))
            raise InputError(self.path, f"no scenario other than {display_text(base)}; it has {there}")
        return others[0]


@dataclass(frozen=True)
class Pair:
    """Two scenarios of a matrix, and the origins that both have, in the first one's order."""

    matrix: Matrix
    base: str
    other: str
    share: Share
    origins: list[str]
    before: Places  # the places of these origins in the one scenario
    after: Places  # and in the other
    lacking: str | None  # which origins only one of the two has

    def access(self, place: int) -> tuple[Sums, Sums]:
        """The access of each origin within the limit at a place, before and after."""
        first, second = (self.matrix.access(name, self.share)[:, place] for name in (self.base, self.other))
        return first[self.before], second[self.after]

    def blocks(self) -> Iterator[tuple[int, Seconds, Seconds]]:
        """The travel times of the origins before and after, some at a time, with the place of the first of them."""
        step = self.matrix.rows_at_once()
        begins = range(0, len(self.origins), step)
        for begin in track(begins, len(begins), "comparing", "blocks"):
            before, after = (places[begin : begin + step] for places in (self.before, self.after))
            first = self.matrix.rows_at(self.base, self.share, before)
            yield begin, first, self.matrix.rows_at(self.other, self.share, after)


def pair_of(matrix: Matrix, base: str | None, compared: str | None, share: int | None) -> Pair:
    """Two scenarios of a matrix, of one percentile; compared with its own base if none is named."""
    base = base or matrix.base
    other, chosen = matrix.other(base, compared), matrix.share(share)
    first, second = (matrix.origins(name, chosen) for name in (base, other))
    places = {name: place for place, name in enumerate(second)}
    both = [(place, places[name]) for place, name in enumerate(first) if name in places]
    before, after = np.array(both, dtype=np.intp).reshape(-1, 2).T
    origins = [first[place] for place in before.tolist()]
    return Pair(matrix, base, other, chosen, origins, before, after, lacking((base, first), (other, second)))


def has_all(matrix: Matrix, origins: Sequence[str], file: str) -> None:
    """Reports where a matrix lacks rows of the origins that a study has, as one that ends too early does."""
    for scenario in matrix.scenarios:
        for share in matrix.shares:
            found = matrix.origins(scenario, share)
            if found != list(origins):
                there = set(found)
                lost = [display_text(origin) for origin in origins if origin not in there]
                what = (
                    f"scenario {display_text(scenario)}"
                    if share is None
                    else f"scenario {display_text(scenario)}, share {share}"
                )
                of = f"{len(lost):,} of {quantity(len(origins), 'origin')} of {file}"
                message = f"lacks {of}: {first_few(lost)}" if lost else None
                raise InputError(matrix.path, f"{what}: {message or f'other origins than {file}'}")


def lacking(one: tuple[str, Sequence[str]], other: tuple[str, Sequence[str]]) -> str | None:
    """Which origins one scenario has and the other hasn't, as a line says it."""
    (name, origins), (another, others) = one, other
    kept = {*origins} & {*others}
    return "; ".join(sentences_on_lacking((display_text(name), origins), (display_text(another), others), kept)) or None
