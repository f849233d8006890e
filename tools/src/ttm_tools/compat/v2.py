"""`ttm_tools.matrix`: one run of `ttm` on the folder of a feed."""

import datetime
import warnings
from dataclasses import replace
from typing import Iterable, Mapping, Sequence

from ..core.files import output
from ..core.folders import scratch
from ..core.tables import RoundingCounter
from ..core.question import DAYS_AFTER, DAYS_BEFORE, MAX_RIDES, MAX_WALK, PERCENTILES
from ..engine.arguments import EngineArguments, Pathlike
from ..engine.inputs import write_inputs
from ..engine.process import EngineProcess
from ..engine.refusals import warnings_in
from ..matrices import open_matrix
from ..matrices.result import Result, result_of
from ..plans.nearness import nearer_by_plan, new_stops_in


def run(task: EngineArguments, out: Pathlike, program: Pathlike | None = None) -> None:
    """Run `ttm` and write the matrix to a file, which appears only when it is complete.

    Warnings of the engine become warnings of Python, such as that no trip runs on the date. So does the fact that walks
    to a plan's new stops bring old stops nearer to each other.
    """
    new_stops_in(str(task.feed))  # raises an error in these before anything is written
    command = [*replace(task, program=program or task.program).command(), "--report"]
    with output(str(out)) as file, EngineProcess(command, file) as process:
        report = process.check()
    nearer = nearer_by_plan(task.feed, task.files.get("footpaths"), task.walk)
    for line in [*warnings_in(report), *nearer]:
        warnings.warn(line, stacklevel=2)


def matrix(
    feed: Pathlike,
    date: str | datetime.date,
    window: tuple[str, str],
    *,
    trips: int = int(MAX_RIDES.default),
    walk: int = int(MAX_WALK.default),
    shares: Sequence[int] = (int(PERCENTILES.default),),
    limits: Sequence[int] = (1800,),
    scenarios: Sequence[Pathlike] = (),
    origins: Pathlike | Sequence[str] | None = None,
    opportunities: Pathlike | Mapping[str, float] | None = None,
    destinations: Pathlike | Sequence[str] | None = None,
    footpaths: Pathlike | Iterable[tuple[str, str, float]] | None = None,
    workers: int = 1,
    tries: int = 1,
    back: int = int(DAYS_BEFORE.default),
    ahead: int = int(DAYS_AFTER.default),
    program: Pathlike | None = None,
) -> Result:
    """Run `ttm` on the folder of a feed, and return its matrix.

    `ttm_tools.Network` answers many questions about the same feed; its documentation describes the parameters.

    Raises
    ------
    EngineError
        `ttm` refused the feed or an argument. The exception has file, record and value if `ttm` names them.
    """
    rounded = RoundingCounter()
    with scratch("matrix") as folder:
        named = {"origins": origins, "opportunities": opportunities, "destinations": destinations}
        files = write_inputs(folder, rounded, **named, footpaths=footpaths)
        task = EngineArguments(
            feed, date, window, trips, walk, shares, limits, scenarios, workers, tries, back, ahead, files
        )
        run(task, folder / "matrix.csv", program)
        return result_of(open_matrix(str(folder / "matrix.csv")), rounded.count, rounded.scale)
