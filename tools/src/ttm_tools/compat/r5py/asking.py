"""Questions of r5py's classes, which the library answers; walks alone are found along streets."""

import contextlib
import datetime
from typing import Iterable, Iterator

import geopandas
import numpy as np

from ...api.asking import Request, answer
from ...api.frames import DEGREES, GivenPlaces
from ...api.network import Network
from ...core.limits import MOST_FOOTPATHS
from ...core.notes import Note, warn_of
from ...places.doors import Seconds
from ...places.folder import TooManyPlaces, UNREACHED
from ...places.frames import GRID, FramePlaces
from ...streets.counting import TooManyWalks
from ...streets.router import Router
from ...streets.walks import points_of
from .network import TODAY, TransportNetwork
from .refusals import NotAvailable
from .task import NEAR, RegionalTask


def seconds_between(
    network: TransportNetwork, task: RegionalTask, origins: FramePlaces, destinations: FramePlaces
) -> dict[int, Seconds]:
    """The travel times of each percentile, a row for each origin and a column for each destination."""
    shape = len(origins.identifiers), len(destinations.identifiers)
    feed = network.feed_with(task.vehicles)
    if not len(origins.placed) or not len(destinations.placed):
        return dict.fromkeys(task.percentiles, np.full(shape, np.nan))
    if feed is None:
        found = dict.fromkeys(task.percentiles, walked(network, task, origins, destinations))
    else:
        found = ridden(feed, task, origins, destinations)
    whole = {}
    for percentile, seconds in found.items():
        whole[percentile] = np.full(shape, np.nan)
        whole[percentile][np.ix_(origins.placed, destinations.placed)] = seconds
    return whole


def walked(network: TransportNetwork, task: RegionalTask, origins: FramePlaces, destinations: FramePlaces) -> Seconds:
    """Walks along streets between the places that lie anywhere."""
    begins, ends = (
        points_of(places.latitudes[places.placed], places.longitudes[places.placed])
        for places in (origins, destinations)
    )
    found = Router(network.streets, np.concatenate([begins, ends]), task.walking(), NEAR).seconds(len(begins))
    if origins is destinations:
        np.fill_diagonal(found, 0)
    return found


def ridden(feed: Network, task: RegionalTask, origins: FramePlaces, destinations: FramePlaces) -> dict[int, Seconds]:
    """Travel times between the places that lie anywhere."""
    request = request_of(task, origins, destinations, task.max_time)
    with named_limits(task, destinations):
        reply = answer(feed._state, request)
    warn_of_notes(reply.notes)
    return {percentile: reply.arrays[TODAY, percentile].astype(np.float64) for percentile in task.percentiles}


def request_of(task: RegionalTask, origins: FramePlaces, destinations: FramePlaces, most: int) -> Request:
    """The question of a task about the places that lie anywhere; slower journeys count as not reached."""
    same = origins is destinations
    begins = given(origins)
    return Request(begins, begins if same else given(destinations), task.question(most), (TODAY,), same)


def given(places: FramePlaces) -> GivenPlaces:
    """The places that lie anywhere, as the library has them."""
    east, north = places.longitudes[places.placed], places.latitudes[places.placed]
    identifiers = [places.identifiers[place] for place in places.placed.tolist()]
    points = geopandas.points_from_xy(east, north)
    return GivenPlaces(
        places.name, geopandas.GeoDataFrame({"id": identifiers}, geometry=points, crs=DEGREES), east, north
    )


def warn_of_notes(notes: Iterable[Note]) -> None:
    """Warns of what the library notes, with r5py's names of arguments."""
    for note in notes:
        text = note.text.replace("without a stop within max_walk", UNREACHED).replace("max_walk", "max_time_walking")
        warn_of(note._replace(text=text))


@contextlib.contextmanager
def named_limits(task: RegionalTask, places: FramePlaces) -> Iterator[None]:
    """Names the argument where there are more walks or places than `ttm` takes."""
    try:
        yield
    except TooManyWalks:
        limit = datetime.timedelta(seconds=task.walking().max_seconds)
        what = f"{limit} gives more than the {MOST_FOOTPATHS:,} walks that ttm takes"
        raise NotAvailable("max_time_walking", what, "use less, such as 20 minutes, or fewer places") from None
    except TooManyPlaces as fault:
        argument = "point_grid_resolution" if places.name == GRID else places.name
        instead = "use a larger one" if places.name == GRID else "use some of them at a time"
        raise NotAvailable(argument, fault.what.partition(":")[0], instead) from None
