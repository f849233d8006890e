"""The arguments of a task, by r5py's names: departure, window, percentiles, modes, limits and speeds."""

import datetime
from dataclasses import dataclass
from typing import Any, Iterable, Sequence

from ...core.limits import DETOUR, MOST_RIDES, MOST_SHARES
from ...core.question import PERCENTILES, Question
from ...core.times import as_duration, as_minute
from ...core.walking import Walking
from .modes import TransportMode, modes_of, only_walks, vehicles_of
from .refusals import NotAvailable

MINUTE = datetime.timedelta(minutes=1)
HOURS = datetime.timedelta(hours=2)
TEN_MINUTES = datetime.timedelta(minutes=10)
NO_RIDES = "; transport_modes=[TransportMode.WALK] takes none"
NEAR = 1600.0  # metres to a street that are walked as they are: R5's radius of links


@dataclass(frozen=True)
class DepartureTimes:
    """When journeys begin."""

    date: datetime.date
    first: int  # minutes since midnight
    count: int  # departures, one a minute

    @property
    def window(self) -> tuple[str, str]:
        """The first and the last departure."""
        return as_minute(self.first), as_minute(self.first + self.count - 1)

    def at(self, minute: int) -> datetime.datetime:
        """One of the departures."""
        midnight = datetime.datetime.combine(self.date, datetime.time())
        return midnight + (self.first + minute) * MINUTE


class RegionalTask:
    """All that r5py's class of this name takes, checked; what `ttm` can't serve raises `NotAvailable`."""

    def __init__(
        self,
        transport_network: Any,
        origin: Any = None,
        destinations: Any = None,
        departure: datetime.datetime | None = None,
        departure_time_window: datetime.timedelta = TEN_MINUTES,
        percentiles: Sequence[int] = (50,),
        transport_modes: Iterable[TransportMode] = (TransportMode.TRANSIT,),
        access_modes: Iterable[TransportMode] = (TransportMode.WALK,),
        egress_modes: Iterable[TransportMode] | None = None,
        max_time: datetime.timedelta = HOURS,
        max_time_walking: datetime.timedelta = HOURS,
        max_time_cycling: datetime.timedelta = HOURS,
        max_time_driving: datetime.timedelta = HOURS,
        speed_cycling: float = 12.0,
        speed_walking: float = 3.6,
        max_public_transport_rides: int = 8,
        max_bicycle_traffic_stress: int = 3,
        breakdown: bool = False,
    ) -> None:
        self.transport_network, self.origin, self.destinations = transport_network, origin, destinations
        self.times = times_of(departure, departure_time_window)
        self.percentiles = percentiles_of(percentiles)
        self.transport_modes = modes_of("transport_modes", transport_modes)
        self.vehicles = vehicles_of(self.transport_modes)
        only_walks("access_modes", access_modes)
        only_walks("egress_modes", [] if egress_modes is None else egress_modes)
        self.max_time = seconds_of("max_time", max_time, 24 * HOURS)
        self.max_time_walking = seconds_of("max_time_walking", max_time_walking, HOURS)
        refuse_outside("speed_walking", speed_walking, 0.1, 50, " kilometres an hour")
        refuse_outside("max_public_transport_rides", max_public_transport_rides, 1, MOST_RIDES, NO_RIDES)
        self.speed_walking, self.rides = float(speed_walking), int(max_public_transport_rides)
        refuse_unusual(
            max_time_cycling=(max_time_cycling, HOURS),
            max_time_driving=(max_time_driving, HOURS),
            speed_cycling=(speed_cycling, 12.0),
            max_bicycle_traffic_stress=(max_bicycle_traffic_stress, 3),
            breakdown=(breakdown, False),
        )

    def question(self, most: int) -> Question:
        """The question that the library answers; journeys that take more seconds count as not reached."""
        first, last = self.times.window
        return Question(
            self.times.date,
            first,
            last,
            percentiles=sorted(set(self.percentiles)),
            max_walk=as_duration(min(self.max_time_walking, self.max_time)),
            max_rides=self.rides,
            max_travel=as_duration(most),
            walking_kmh=self.speed_walking,
            detour=DETOUR,
        )

    def walking(self) -> Walking:
        """How one walks, as long as a walk may last."""
        return Walking(self.speed_walking, DETOUR, float(min(self.max_time_walking, self.max_time)))


def refuse_unusual(**arguments: tuple[object, object]) -> None:
    """Refuses an argument that isn't as r5py has it where it is left out: each has its value, and the usual one."""
    for name, (value, usual) in arguments.items():
        if value != usual:
            raise NotAvailable(name, f"{value!r} isn't supported", "leave it out")


def times_of(departure: datetime.datetime | None, window: datetime.timedelta) -> DepartureTimes:
    """The departures, one at each minute of the window, whose end isn't one. Without a departure they begin now."""
    first = datetime.datetime.now().replace(second=0, microsecond=0) if departure is None else departure
    if not isinstance(first, datetime.datetime):
        raise NotAvailable("departure", f"{first!r} is not a datetime", "datetime.datetime(2026, 5, 4, 8, 30)")
    if first.tzinfo is not None:
        raise NotAvailable("departure", "a time zone isn't supported", "the clock of the feed: .replace(tzinfo=None)")
    if first.second or first.microsecond:
        raise NotAvailable("departure", f"{first} is not a whole minute", "departures are at whole minutes")
    refuse_number("departure_time_window", window)
    if window < MINUTE or window % MINUTE:
        raise NotAvailable("departure_time_window", f"{window} isn't supported", "a minute or more, in whole minutes")
    minute, count = first.hour * 60 + first.minute, window // MINUTE
    if minute + count > 24 * 60:
        raise NotAvailable("departure_time_window", f"{window} goes past midnight", "use a window for each day")
    return DepartureTimes(first.date(), minute, count)


def percentiles_of(given: Sequence[int]) -> list[int]:
    percentiles = [int(number) for number in given]
    if not 1 <= len(set(percentiles)) <= MOST_SHARES or percentiles != list(given):
        allowed = f"one to {MOST_SHARES} whole numbers"
        raise NotAvailable("percentiles", f"{list(given)!r} isn't supported", allowed)
    if not all(number in PERCENTILES.allowed for number in percentiles):
        raise NotAvailable("percentiles", f"{percentiles} isn't supported", "each is from 1 to 100")
    return percentiles


def seconds_of(argument: str, given: datetime.timedelta, most: datetime.timedelta) -> int:
    """A limit in whole seconds."""
    refuse_number(argument, given)
    if not datetime.timedelta() < given <= most:
        raise NotAvailable(argument, f"{given} isn't supported", f"more than 0, at most {most}")
    return int(given.total_seconds())


def refuse_number(argument: str, given: object) -> None:
    """Refuses a number instead of a duration, since r5r's are minutes."""
    if not isinstance(given, datetime.timedelta):
        what = f"{given!r} is not a timedelta"
        raise NotAvailable(argument, what, "such as datetime.timedelta(minutes=60)")


def refuse_outside(argument: str, given: float, least: float, most: float, more: str) -> None:
    """Refuses a number that isn't from the least to the most."""
    if not least <= given <= most:
        raise NotAvailable(argument, f"{given!r} isn't supported", f"{least:g} to {most:g}{more}")
