"""The options that an exploration begins with."""

import datetime
from dataclasses import dataclass, field

from ..core.limits import DETOUR, WALKING_KMH
from ..core.question import DAYS_AFTER, DAYS_BEFORE, MAX_RIDES, MAX_WALK
from ..core.shipped import LEAFLET

SHARES = (10, 25, 50, 75, 90)  # percent, between which the page's slider chooses
# fields that no option has the name of
OF_NO_OPTION = ("window", "shares", "date", "name", "generated", "copied", "most_walk", "kmh", "detour")


@dataclass(frozen=True)
class ExploreOptions:
    """The options of the command, and what is made of them."""

    feed: str  # the folder of an unpacked feed
    date: datetime.date
    window: tuple[str, str]  # the first and the last departure at first, HH:MM
    out: str  # the folder into which a study is saved
    trips: int = int(MAX_RIDES.default)  # at first
    walk: int = int(MAX_WALK.default)  # at first, seconds
    shares: tuple[int, ...] = SHARES
    plan: str | None = None
    opportunities: list[str] = field(default_factory=list)
    footpaths: str | None = None
    streets: str | None = None  # a file of OpenStreetMap, along whose streets walks go
    grid: float | None = None  # metres, the side of generated cells
    back: int = int(DAYS_BEFORE.default)
    ahead: int = int(DAYS_AFTER.default)
    ground: str | None = None  # a file of `ttm-tools ground`
    tiles: str | None = None  # the address of a background map
    attribution: str | None = None  # whom the page names for it
    title: str | None = None
    program: str | None = None
    leaflet: str = LEAFLET
    name: str | None = None  # of the feed, where the one that is explored was made of it
    generated: bool = False  # whether feed and walks are in a folder that goes with the exploration
    copied: bool = False  # whether a saved study has copies of feed and opportunities, too
    most_walk: int = 1800  # seconds, at the end of the page's slider
    kmh: float = WALKING_KMH  # the walking speed in kilometres an hour
    detour: float = DETOUR  # metres of way for a metre of straight line
