"""Two matrices on the disk as one: the base of another file with the scenarios of this one, matched by
identifiers.
"""

from dataclasses import dataclass, replace
from pathlib import Path

import numpy as np

from ..core.arrays import Places, Seconds, Sums
from ..core.errors import InputError
from ..core.text import LEFT_OUT, display_text, sentences_on_lacking
from .base import Matrix, Share
from .origin import describe_origin


@dataclass(frozen=True)
class MatrixSource:
    """A scenario of one of the two, and which of its rows, columns and limits the whole has."""

    matrix: Matrix
    scenario: str
    shares: dict[Share, Share]  # of the whole to its own
    origins: list[str]  # that both have
    columns: Places
    limits: Places

    def rows_of(self, share: Share) -> Places:
        """The places of the origins among its own."""
        names = self.matrix.origins(self.scenario, self.shares[share])
        places = {name: place for place, name in enumerate(names)}
        return np.array([places[name] for name in self.origins], dtype=np.intp)


class JoinedMatrix(Matrix):
    """The scenarios of a matrix, and as their base one of another: the origins, stops, shares and limits that both
    have.
    """

    def __init__(self, own: Matrix, other: Matrix, scenario: str | None = None) -> None:
        self.path, self.greatest = own.path, own.greatest
        self.own, self.other_matrix = own, other
        first, second = labels_of(own.path, other.path)
        chosen = other.scenario(scenario or other.base)
        shares = shares_of(own, other)
        self.shares = list(shares)
        both = [limit for limit in own.layout.limits if limit in other.layout.limits]
        stops = [name for name in own.stops if name in other.places]
        self.layout = replace(own.layout, limits=tuple(both), stops=stops)
        at = [np.array([table.layout.limits.index(limit) for limit in both], dtype=np.intp) for table in (own, other)]
        columns = [np.array([table.places[name] for name in stops], dtype=np.intp) for table in (own, other)]
        origins = self.common(chosen, shares)
        self.sources = {second: MatrixSource(other, chosen, shares, origins, columns[1], at[1])}
        same: dict[Share, Share] = {share: share for share in shares}
        self.renamed = {own.base: first}
        for name in own.compared:
            self.sources[self.renamed.get(name, name)] = MatrixSource(own, name, same, origins, columns[0], at[0])
        self.scenarios, self.named_base = list(self.sources), second
        self.heading, self.files = self.heading_of(), (other.path,)
        if not stops or not origins:
            raise InputError(other.path, f"has no {'stop' if not stops else 'origin'} in common with {own.path}")

    def common(self, chosen: str, shares: dict[Share, Share]) -> list[str]:
        """The origins that all scenarios and shares of both have, in the order of the first."""
        lists = [self.own.origins(name, share) for name in self.own.compared for share in shares]
        lists += [self.other_matrix.origins(chosen, share) for share in shares.values()]
        among = set(lists[0]).intersection(*lists[1:])
        return [name for name in lists[0] if name in among]

    @property
    def left_out(self) -> str:
        return self.own.left_out

    def scenario(self, name: str) -> str:
        return super().scenario(name if name in self.scenarios else self.renamed.get(name, name))

    def other(self, base: str, name: str | None) -> str:
        return self.scenarios[1] if name is None and base == self.base else super().other(base, name)

    def origins(self, scenario: str, share: Share) -> list[str]:
        return self.sources[scenario].origins

    def access(self, scenario: str, share: Share) -> Sums:
        of = self.sources[scenario]
        counts: Sums = of.matrix.access(of.scenario, of.shares[share])[of.rows_of(share)][:, of.limits]
        return counts

    def rows(self, scenario: str, share: Share, begin: int, end: int) -> Seconds:
        of = self.sources[scenario]
        found = of.matrix.rows_at(of.scenario, of.shares[share], of.rows_of(share)[begin:end])
        seconds: Seconds = found[:, of.columns]
        return seconds

    def sentences(self) -> list[str]:
        """What is only in one of the two, and from where each comes."""
        share, names = self.shares[0], list[list[str]]()
        mine, base = list(self.sources.values())[1], self.sources[self.base]
        for source in (mine, base):
            names += [source.matrix.origins(source.scenario, source.shares[share]), source.matrix.stops]
        lines, (own, other) = list[str](), (self.own.path, self.other_matrix.path)
        for place, (what, kept) in enumerate((("origins", mine.origins), ("stops", self.stops))):
            lines += sentences_on_lacking((own, names[place]), (other, names[place + 2]), set(kept), what, LEFT_OUT)
        return [*lines, self.heading]

    def heading_of(self) -> str:
        """Which two are compared: file, scenario, day and departures where a study says them, and percentiles where
        these differ.
        """
        texts, others = [], self.sources[self.base].shares
        for label, of in list(self.sources.items())[1::-1]:
            differs = [f"percentile {of.shares[share]}" for share in self.shares if others[share] != share]
            texts_of_scenario = [f"scenario {display_text(of.scenario)}", *describe_origin(of.matrix.path), *differs]
            texts.append(f"{display_text(label)} is {of.matrix.path} ({', '.join(texts_of_scenario)})")
        return "; ".join(texts)


def labels_of(own: str, other: str) -> tuple[str, str]:
    """What the two are called: by their files, or folders where these are called alike."""
    paths = [Path(own).absolute(), Path(other).absolute()]
    for names in ([path.stem for path in paths], [path.parent.name for path in paths]):
        if names[0] != names[1]:
            return names[0], names[1]
    return own, other if other != own else f"{other} (base)"


def shares_of(own: Matrix, other: Matrix) -> dict[Share, Share]:
    """The percentiles that both have; or the only ones, side by side."""
    both: dict[Share, Share] = {share: share for share in own.shares if share in other.shares}
    if both:
        return both
    if len(own.shares) == 1 and len(other.shares) == 1:
        return {own.shares[0]: other.shares[0]}
    percentiles = ", ".join(map(str, own.shares))
    raise InputError(other.path, f"no percentile in common with {own.path}, which has {percentiles}")
