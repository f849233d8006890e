"""Ask many questions about one feed without reading it again.

`Network` starts `ttm --ask` processes, which read a feed and build its networks once.
"""

import datetime
import warnings
from typing import Iterable, Mapping, Sequence

from ..core.question import DAYS_AFTER, DAYS_BEFORE, MAX_RIDES, MAX_WALK, PERCENTILES
from ..engine.arguments import Pathlike
from ..engine.network import EngineNetwork, NetworkFiles
from ..matrices import open_matrix
from ..matrices.result import Result, result_of


class Network:
    """The network of a feed on one date, kept in memory to answer many questions.

    Use it as a context manager, or call `close`; otherwise its processes end with the interpreter. Several threads may
    share it.

    Parameters
    ----------
    feed
        The folder of an unpacked GTFS feed.
    date
        The service date, as `YYYYMMDD`, `YYYY-MM-DD` or a `datetime.date`.
    walk
        The longest walk, in seconds, from 0 to 7,200.
    scenarios
        Scenario files. Each becomes a scenario of the matrix, next to `base`.
    footpaths
        Walking links in addition to those of `transfers.txt`: a CSV file, or triples of two stop identifiers and
        seconds. Fractions of a second are rounded up. Without it, travellers walk only along `transfers.txt`.
    back, ahead
        The number of service days before and after `date` whose trips run, from 0 to 6 each.
    workers
        The number of processes, and so of questions that can be answered at the same time. Each reads the feed and
        keeps a network of its own.
    program
        The `ttm` executable; see `engine.program_at` for the default.

    Raises
    ------
    ArgumentError
        `workers` is below 1.
    InputError
        The seconds of a footpath are negative or too large.
    MissingDependencyError
        There is no `ttm` executable.

    Notes
    -----
    The constructor does not wait for the feed to be read, so an error in the feed is raised by the first question.

    Examples
    --------
    >>> with Network("town", "2026-05-04") as network:  # doctest: +SKIP
    ...     morning = network.matrix(("07:30", "08:29"))
    ...     evening = network.matrix(("17:00", "17:59"), shares=(50, 90))
    """

    def __init__(
        self,
        feed: Pathlike,
        date: str | datetime.date,
        *,
        walk: int = int(MAX_WALK.default),
        scenarios: Sequence[Pathlike] = (),
        footpaths: Pathlike | Iterable[tuple[str, str, float]] | None = None,
        back: int = int(DAYS_BEFORE.default),
        ahead: int = int(DAYS_AFTER.default),
        workers: int = 1,
        program: Pathlike | None = None,
    ) -> None:
        files = NetworkFiles(feed, date, walk, scenarios, footpaths, (back, ahead))
        self.engine = EngineNetwork(files, workers, program)

    def matrix(
        self,
        window: tuple[str, str],
        *,
        trips: int = int(MAX_RIDES.default),
        shares: Sequence[int] = (int(PERCENTILES.default),),
        limits: Sequence[int] = (1800,),
        origins: Pathlike | Sequence[str] | None = None,
        opportunities: Pathlike | Mapping[str, float] | None = None,
        destinations: Pathlike | Sequence[str] | None = None,
        workers: int = 1,
        tries: int = 1,
    ) -> Result:
        """Compute a travel time matrix on this network.

        The result equals that of `ttm_tools.matrix` with the same arguments.

        Parameters
        ----------
        window
            The first and the last departure, as `HH:MM`. There is one departure each minute.
        trips
            The maximum number of rides of a journey, from 1 to 8.
        shares
            Percentiles of the travel time over the departures: 1 to 8 ascending integers from 1 to 100.
        limits
            Travel time limits for access, in seconds: 1 to 8 ascending integers.
        origins, destinations
            Stop identifiers, or a CSV file of them; all stops by default.
        opportunities
            The opportunities at each stop: a mapping from stop identifiers, or a CSV file. Stops that it does not name
            have none. Without the argument each stop counts 1. Access has the decimals of the numbers.
        workers
            The number of threads that compute this matrix, from 1 to 64.
        tries
            How many times a row is attempted, from 1 to 8.

        Returns
        -------
        Result
            Travel times in seconds as float32 arrays of shape (origins, destinations), NaN if not reached, and access
            of shape (origins, limits), for each scenario and percentile.

        Raises
        ------
        EngineError
            `ttm` refused the feed or the question. The exception has file, record and value if `ttm` names them.
        ArgumentError
            The network is closed.
        InputError
            An opportunity is negative or too large.
        """
        options: dict[str, object] = {"from": window[0], "to": window[1], "trips": trips}
        options |= {"workers": workers, "tries": tries}
        options |= {"share": ",".join(map(str, shares)), "within": ",".join(map(str, limits))}
        files = {"origins": origins, "opportunities": opportunities, "destinations": destinations}
        with self.engine.ask(options, files) as answered:
            for line in answered.warnings:
                warnings.warn(line, stacklevel=2)
            rounded = self.engine.rounded.count + answered.rounded.count
            return result_of(open_matrix(str(answered.matrix)), rounded, answered.rounded.scale)

    def close(self) -> None:
        """End the processes and remove the temporary files. Closing twice is allowed."""
        self.engine.close()

    def __enter__(self) -> "Network":
        return self

    def __exit__(self, *_: object) -> None:
        self.close()
