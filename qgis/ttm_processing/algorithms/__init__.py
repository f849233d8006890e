"""The algorithms of the provider, one module each."""

from .access import Access
from .compare import Compare
from .feedlayers import FeedLayers
from .isochrones import Isochrones
from .preparefeed import PrepareFeed
from .traveltimes import TravelTimes
from .whocanreach import WhoCanReach

ALGORITHMS = (PrepareFeed, FeedLayers, TravelTimes, Access, WhoCanReach, Isochrones, Compare)
