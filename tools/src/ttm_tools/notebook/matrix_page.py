"""A matrix as an interactive page: one file that needs no network."""

from collections.abc import Sequence
from dataclasses import dataclass
from functools import cached_property
from os import PathLike
from pathlib import Path

import numpy as np

from .. import __version__
from ..api.asking import walking_of
from ..api.chosen import MatrixPart
from ..api.opportunities import numbers_in
from ..api.pages import SavedPage
from ..core.errors import needs
from ..core.files import output
from ..core.question import Question, travel_seconds, window_of
from ..core.shipped import LEAFLET
from ..core.text import display_text
from ..core.times import as_duration
from ..core.walking import Walking
from ..matrices import Matrix as Store, Seconds, Share, Sums
from ..matrices.layout import MatrixLayout
from ..measures.opportunities import Counts
from ..places.read import Points
from ..views.drawn_lines import NONE, LineChange
from ..web.page import sources
from ..web.page.content import MOST_CELLS, Content, PageOptions, content_with, ground_of
from ..web.page.document import Frame, leaflet_files, write_page
from ..web.page.lines import Lines
from ..web.page.make import MINUTES, rows_stated
from ..web.page.settings import PageSettings
from .frame_points import joined, points_of, renamed

CUTOFFS = [15.0, 30.0, 45.0, 60.0]  # minutes of access
SAME = 1e-6  # degrees, of places that are the same
SEED = 1  # of the origins that are drawn if there is not room for all
TITLE = "Travel times"


class PartStore(Store):
    """The chosen part of a matrix, by the identifiers of the page. It has no access of its own."""

    def __init__(self, part: MatrixPart, origins: list[str], destinations: list[str]) -> None:
        self.part, self.path, self.origin_names = part, "matrix", origins
        self.layout = MatrixLayout(True, (), destinations)
        self.scenarios = list(part.chosen.scenarios)
        names_share = part.store.layout.names_share
        self.shares: list[Share] = list(part.chosen.percentiles) if names_share else [None]
        self.named_base = part.store.base if part.store.base in self.scenarios else self.scenarios[0]

    def origins(self, scenario: str, share: Share) -> list[str]:
        return self.origin_names

    def access(self, scenario: str, share: Share) -> Sums:
        return np.zeros((len(self.origin_names), 0), np.int64)

    def rows(self, scenario: str, share: Share, begin: int, end: int) -> Seconds:
        percentile = self.part.chosen.percentiles[0] if share is None else share
        return self.part.seconds(scenario, percentile, slice(begin, end))


@dataclass(frozen=True)
class PagePlaces:
    """Origins and destinations by the identifiers of the page, with what is counted at the destinations."""

    origins: Points
    destinations: Points

    @classmethod
    def of(cls, part: MatrixPart, opportunities: Sequence[str]) -> "PagePlaces":
        """Return the places of a matrix; an origin that has the identifier of another place is called `.. (origin)`."""
        names, numbers = numbers_in("destinations", part.destinations, opportunities)
        ends = points_of("destinations", part.destinations, list(map(display_text, names)), numbers)
        begins = points_of("origins", part.origins, [], np.zeros((len(part.origins), 0)))
        there, own = places_by_name(ends), places_by_name(begins)
        shared = [name for name in own if name in there]
        first, second = (np.array([places[name] for name in shared]) for places in (own, there))
        if not np.allclose(first, second, rtol=0, atol=SAME, equal_nan=True):
            begins = renamed(begins, [f"{name} (origin)" for name in begins.identifiers])
        return cls(begins, ends)

    @cached_property
    def all(self) -> Points:
        """All places: the destinations, and those origins that are none."""
        known = set(self.destinations.identifiers)
        is_new = np.array([name not in known for name in self.origins.identifiers], dtype=np.bool_)
        return joined(self.destinations, self.origins, is_new)

    @property
    def counts(self) -> Counts:
        """Return what is at each of all places; nothing at those that are origins alone."""
        ends = self.destinations
        numbers = np.zeros((len(self.all.identifiers), len(ends.columns)))
        numbers[: len(ends.identifiers)] = ends.numbers
        return Counts(list(ends.columns), numbers)


def places_by_name(points: Points) -> dict[str, tuple[float, float]]:
    """Return where each point is, in degrees."""
    return dict(zip(points.identifiers, zip(points.latitudes.tolist(), points.longitudes.tolist())))


def write_matrix_page(
    part: MatrixPart, path: str | PathLike[str], title: str = "", opportunities: Sequence[str] = ()
) -> SavedPage:
    """Write a matrix as a page: see `Matrix.to_html`."""
    needs("jinja2")
    leaflet_files(LEAFLET)
    places = PagePlaces.of(part, opportunities)
    store = PartStore(part, places.origins.identifiers, places.destinations.identifiers)
    scenarios = [store.base, *(name for name in store.scenarios if name != store.base)]
    options = PageOptions(settings_of(title, store.base), "destinations", scenarios, store.shares, MOST_CELLS)
    ground = ground_of(store, places.all.as_stops(), options)
    content = content_with(store, ground, places.counts, 0, options)
    unchanged = LineChange(NONE, NONE, NONE)
    with output(str(path)) as file:
        write_page(file, content, Lines(NONE, [unchanged] * len(scenarios), ""), frame_of(part, content, options))
    return SavedPage(Path(path))


def settings_of(title: str, base: str) -> PageSettings:
    """Return the settings of a page that is made of frames, not of files."""
    return PageSettings(
        feed="",
        points=None,
        edits=[],
        opportunities=[],
        people=[],
        base=base,
        cutoffs=CUTOFFS,
        seed=SEED,
        unit="destinations",
        title=title or None,
        note=None,
        arguments=None,
    )


def frame_of(part: MatrixPart, content: Content, options: PageOptions) -> Frame:
    """Return what stands around the numbers."""
    question = part.context.question
    arguments = sources.RunArguments("" if question is None else "--from {} --to {}".format(*window_of(question)))
    most = None if question is None else travel_seconds(question)
    end = "" if most is None else f" Pairs beyond {as_duration(most)} count as not reached."
    notes = [display_text(note.text) for note in part.context.notes]
    walking = Walking() if question is None else walking_of(question)
    return Frame(
        options.settings.title or TITLE,
        "",
        options.scenarios,
        options.shares,
        [sources.meaning(share, arguments) + end for share in options.shares],
        [*asked(question), ("Written by", f"ttm_tools {__version__}")],
        [*rows_stated(content, options), *dict.fromkeys(notes)],
        MINUTES,
        walking,
    )


def asked(question: Question | None) -> list[tuple[str, str]]:
    """Return the settings of a question as lines of a table."""
    if question is None:
        return [("Question", "not stated")]
    settings = {name.replace("_", " "): value for name, value in question.to_dict().items() if value is not None}
    texts = {name: ", ".join(map(str, value)) if isinstance(value, list) else value for name, value in settings.items()}
    return [(name[0].upper() + name[1:], str(value)) for name, value in texts.items()]
