"""The settings of a page."""

from dataclasses import dataclass, field

from ...core.shipped import LEAFLET
from ...core.walking import Walking
from ...streets.walks import NEAR


@dataclass(frozen=True, kw_only=True)
class PageSettings:
    """The settings of a page, as arguments and names of files."""

    feed: str
    points: str | None
    edits: list[str]
    opportunities: list[str]
    people: list[str]
    scenarios: list[str] = field(default_factory=list)  # in addition to the base; none for all
    base: str
    share: int | None = None
    cutoffs: list[float]  # minutes
    origins: str | None = None
    seed: int
    unit: str
    title: str | None
    note: str | None
    arguments: str | None
    ground: str | None = None  # a file of `ttm-tools ground`
    tiles: str | None = None
    attribution: str | None = None
    leaflet: str = LEAFLET
    within: int | None = None  # seconds, the limit with which the page opens; without it, the first of the matrix
    nearest: list[float] = field(default_factory=list)  # how many of the nearest opportunities are looked for
    walking: Walking = Walking()  # on from a stop
    streets: str | None = None  # an OpenStreetMap file with the ways for these walks
    near: float = NEAR  # the greatest distance of a stop from a way, metres
