"""A network served as an interactive map, by a thread of this process."""

import atexit
import contextlib
import datetime
import threading
import webbrowser
from dataclasses import replace
from pathlib import Path
from typing import TYPE_CHECKING, Any

import numpy as np
import pandas

from ..api.asking import walking_of
from ..api.frames import read_places
from ..api.opportunities import numbers_in
from ..api.pages import ServedPage
from ..core.errors import ArgumentError, needs
from ..core.folders import scratch
from ..core.notes import TtmWarning, warn
from ..core.question import Question, not_allowed, walk_seconds, window_of
from ..core.settings import settings
from ..core.shipped import LEAFLET
from ..core.tables import write_rows
from ..gtfs.stops import read_stops
from ..places.doors import NEAR, WalkNetwork, folder_of
from ..places.folder import FEED, FOOTPATHS, PointsOptions, folder_of as folder_of_points
from ..web.guard import Guard
from ..web.options import SHARES, ExploreOptions
from ..web.page.document import leaflet_files
from ..web.session import ExploreSession, called_at
from .frame_points import points_of

if TYPE_CHECKING:
    from ..api.network import Network

COUNTS, PLACES, SAVED = "counts.csv", "places", "explored"
LOCATIONS = ("lat", "lon", "width", "height")  # columns that say where a place is


def explore(network: "Network", question: Question, places: Any, open_browser: bool) -> ServedPage:
    """Serve a network: see `Network.explore`."""
    needs("flask", "jinja2")
    leaflet_files(LEAFLET)
    refuse_unserved(question)
    from ..web.server import application
    from ..web.serving import bound, server_of

    with contextlib.ExitStack() as parts:
        room = parts.enter_context(scratch("explore"))
        session = ExploreSession(options_for(network, question, places, room), room)
        parts.callback(session.close)
        if network._state.streets is not None:
            session.streets = network._state.streets[0]
        own = parts.enter_context(bound(0))
        guard = Guard(int(own.getsockname()[1]))
        server = server_of(application(session, guard), own)
        parts.callback(server.server_close)
        thread = threading.Thread(target=server.serve_forever, kwargs={"poll_interval": 0.1}, daemon=True)
        thread.start()
        parts.callback(thread.join)
        parts.callback(server.shutdown)
        session.read_ahead()
        if open_browser:
            webbrowser.open(guard.write_redirect(room / "explore.html"))
        page = ServedPage(guard.address, parts.pop_all().close)
    atexit.register(page.close)
    return page


def refuse_unserved(question: Question) -> None:
    """Refuse settings that the page has no control for."""
    if not isinstance(question, Question):
        raise not_allowed("question", question, "a Question")
    if question.max_rides == 0:
        raise ArgumentError("max_rides is 0; explore shows journeys of 1 to 8 rides")
    if question.max_travel is not None:
        raise ArgumentError("max_travel is not for explore: its slider says how much time a journey may take")


def options_for(network: "Network", question: Question, places: Any, room: Path) -> ExploreOptions:
    """Return what is explored: the feed without scenarios, and these as a plan."""
    base = network._base._state
    found, key = base.streets or (None, "")
    walking = walking_of(question)
    percentiles = tuple(int(percentile) for percentile in question.percentiles)
    options = ExploreOptions(
        feed=str(base.feed.folder),
        date=datetime.date.fromisoformat(str(question.date)),
        window=window_of(question),
        out=SAVED,
        trips=question.max_rides,
        walk=walk_seconds(question),
        shares=percentiles if len(percentiles) > 1 else tuple(sorted({*SHARES, *percentiles})),
        plan=None if network is network._base else str(network._state.feed.folder.parent / "plan.toml"),
        streets=None if found is None else found.path,
        back=question.days_before,
        ahead=question.days_after,
        program=None if settings.engine is None else str(settings.engine),
        name=base.feed.name or None,
        generated=True,
        copied=True,
        most_walk=walk_seconds(question),
        kmh=walking.kmh,
        detour=walking.detour,
    )
    on_foot = WalkNetwork(found, key, walking)
    return with_walks(options, network, on_foot) if places is None else with_places(options, places, on_foot, room)


def with_walks(options: ExploreOptions, network: "Network", walking: WalkNetwork) -> ExploreOptions:
    """Return the options with walks between all stops, which are kept in the cache."""
    base = network._base
    stops = read_places("stops", called_at(read_stops(options.feed)), base._stops)
    return replace(options, footpaths=str(folder_of(base._state.feed, walking, [stops]).footpaths))


def with_places(options: ExploreOptions, places: Any, walking: WalkNetwork, room: Path) -> ExploreOptions:
    """Return the options with a feed that has the places as stops, walks between all, and what is at the places."""
    given = read_places("places", places, pandas.DataFrame())
    names = counted(given.frame)
    points = points_of("places", given.frame, *numbers_in("places", given.frame, names))
    limit = int(walking.walking.max_seconds)
    made = PointsOptions(options.feed, str(room / PLACES), [points], [True], [True], limit, False, NEAR)
    study = folder_of_points(made, walking.walks).study
    feed, footpaths = room / PLACES / FEED, room / PLACES / FOOTPATHS
    found = replace(options, feed=str(feed), footpaths=str(footpaths))
    if not names:
        return found
    with open(room / COUNTS, "wb") as file:
        rows = zip(study.points.identifiers, study.points.numbers.tolist())
        write_rows(file, ["stop_id", *names], ([name, *numbers] for name, numbers in rows))
    return replace(found, opportunities=[str(room / COUNTS)])


def counted(frame: Any) -> list[str]:
    """Return the columns whose numbers the page sums; warns of columns of numbers that it leaves out."""
    others = [name for name in frame.columns if name not in ("id", frame.geometry.name, *LOCATIONS)]
    numeric = [name for name in others if pandas.api.types.is_numeric_dtype(frame[name])]
    numbers = frame[numeric].to_numpy(np.float64)
    right = (np.isfinite(numbers) & (numbers >= 0)).all(axis=0)
    for name in np.array(numeric, dtype=object)[~right]:
        text = f"places: the column {name} is left out, since some of its numbers are missing, infinite or negative"
        warn(text, TtmWarning)
    return [str(name) for name in np.array(numeric, dtype=object)[right]]
