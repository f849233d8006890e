"""Travel times by public transport and on foot, computed by the proved engine `ttm`: frames in, frames out.

Ten steps in a notebook; `sample` reads a small town that the package carries.

>>> import ttm_tools as ttm
>>> town = ttm.sample()

1. Open a network. `print(net.notes)` says what was repaired.

>>> net = ttm.open_network(town.gtfs, town.streets)
>>> first_day, last_day = net.dates

2. A first matrix: sixty departures, three percentiles.

>>> peak = ttm.Question("2026-05-04", "08:00", "08:59", percentiles=(25, 50, 75), max_walk="15 min")
>>> times = net.matrix(town.homes, town.clinics, peak)
>>> list(times.long().columns)
['scenario', 'percentile', 'from_id', 'to_id', 'seconds']

3. Any GeoDataFrame will do, points or polygons, in any projection. Results come back in that of the origins.

>>> cells = ttm.allocate(town.jobs, ttm.grid(town.jobs, cell_m=250), columns=["jobs"])
>>> median = peak.replace(percentiles=(50,))
>>> to_jobs = net.matrix(town.homes, cells, median)

4. Access to jobs, within limits and with weights that fall gradually.

>>> access = to_jobs.access("jobs", minutes=[30, 45])
>>> gravity = to_jobs.access("jobs", minutes=[30], decay=ttm.Decay.logistic(sd=10))

5. Equity by income group: groups are the values of a column of the origins.

>>> spread = ttm.equity(access, town.homes, people="people", by="income_group")

6. A scenario: no route 13, route 10 every five minutes, a new tram. Nothing changes until a network takes it.

>>> tram = ["B00232N", "B00144N", "B00060N", "B00000N"]
>>> change = (
...     ttm.Scenario("change")
...     .remove_routes("L0013")
...     .set_headway("L0010", every="5 min", start="06:00", end="20:00")
...     .add_line("T1", tram, departures=[("05:30", "23:30", "10 min")], kmh=24, dwell="20 s", mode="tram")
... )
>>> planned = net.with_scenarios(change)
>>> planned.scenarios
('today', 'change')

7. The difference, by origin, with the index of the origins: so it can be joined, mapped and saved at once.

>>> both = planned.matrix(town.homes, cells, median)
>>> change_by_home = both.difference("change", tolerance="1 min")
>>> homes = town.homes.assign(cut_off=change_by_home["cut_off"])

8. Who can reach this place? A column of the matrix: all homes with their seconds to one clinic.

>>> catchment = times.reaching("north", percentile=50).query("seconds <= 30 * 60")

9. Isochrones.

>>> areas = net.isochrones(town.clinics, median, minutes=[15, 30])
>>> areas.to_file("areas.gpkg")

10. Save and load all of a matrix, and export it. OMX files open in AequilibraE, Emme, TransCAD and Visum.

>>> both.to_omx("both.omx")
>>> ttm.open_matrix("both.omx").scenarios
('today', 'change')
>>> both.to_csv("both.csv")
>>> planned.close()
>>> net.close()

Rules that hold everywhere
--------------------------
Time in
    A duration is a `timedelta` or a text with its unit, such as ``"15 min"``. A bare number is refused: r5r would read
    15 as minutes, the engine as seconds. Only arguments called `minutes` take numbers. ``first`` and ``last`` are
    included; ``start`` is included and ``end`` is not.
Time out
    Whole seconds, float64, NaN if not reached; only `long` offers minutes. No nullable integers and no timedeltas:
    with geopandas 0.12 `to_file` refuses both, and `plot` refuses timedeltas. Arrays are float32, which is exact up to
    16,777,216.
Percentiles
    By nearest rank, never interpolated: the 50th is the least time that at least half of the departures achieve.
Identifiers
    Those of the column `id`, else of the index; unique, and of the same type in results (`from_id`, `to_id`).
Index
    A frame with one row for each origin has the origins' index. Other frames count from 0.
Projections
    A frame without a CRS is refused. Results are in the CRS of the origins; areas are measured in their UTM zone.
Now or later
    What is called open reads cells later, when they are needed; everything else computes now. Prepared feeds, streets
    and walks are kept in `settings.cache` under the checksum of all they depend on; results aren't.
Threads and processes
    All objects may be used by several threads and pickled. A pickled network is opened again where it arrives.
Progress and interruption
    A callback gets the number done and the total. Ctrl-C, or an exception in a callback, ends the work and leaves the
    network usable. The logger is called ``ttm_tools``.
Nothing is dropped silently
    Whatever is repaired, rounded or not reached at all is a warning of its own class, and stays in `notes`.
"""

from importlib import import_module
from typing import TYPE_CHECKING

if TYPE_CHECKING:
    from .api.cells import allocate, grid
    from .api.decay import Decay
    from .api.feeds import check_feed, prepare_feed
    from .api.gains import who_gains
    from .api.matrix import Matrix
    from .api.matrix_files import open_matrix
    from .api.measures import access_change, equity, people_by_band
    from .api.network import Network
    from .api.opening import open_network
    from .api.sample import Sample, sample
    from .api.scenario import Scenario, read_plan, write_plan
    from .compat.v2 import matrix as matrix  # noqa: F401
    from .core.errors import ArgumentError, InputError, LimitError, MissingDependencyError, TtmError
    from .core.notes import NoServiceWarning, Note, RepairWarning, RoundingWarning, TtmWarning, UnreachableWarning
    from .core.question import Question
    from .core.settings import settings
    from .engine.arguments import EngineArguments as EngineArguments  # noqa: F401
    from .engine.refusals import EngineError
    from .engine.version import engine_version
    from .matrices.result import Result as Result  # noqa: F401
    from .study.from_python import run_study

__version__ = "2.1.0"
MODULES = {
    "ArgumentError": "core.errors",
    "Decay": "api.decay",
    "EngineError": "engine.refusals",
    "InputError": "core.errors",
    "LimitError": "core.errors",
    "Matrix": "api.matrix",
    "MissingDependencyError": "core.errors",
    "Network": "api.network",
    "NoServiceWarning": "core.notes",
    "Note": "core.notes",
    "Question": "core.question",
    "RepairWarning": "core.notes",
    "RoundingWarning": "core.notes",
    "Sample": "api.sample",
    "Scenario": "api.scenario",
    "TtmError": "core.errors",
    "TtmWarning": "core.notes",
    "UnreachableWarning": "core.notes",
    "access_change": "api.measures",
    "allocate": "api.cells",
    "check_feed": "api.feeds",
    "engine_version": "engine.version",
    "equity": "api.measures",
    "grid": "api.cells",
    "open_matrix": "api.matrix_files",
    "open_network": "api.opening",
    "people_by_band": "api.measures",
    "prepare_feed": "api.feeds",
    "read_plan": "api.scenario",
    "run_study": "study.from_python",
    "sample": "api.sample",
    "settings": "core.settings",
    "who_gains": "api.gains",
    "write_plan": "api.scenario",
}
OF_VERSION_2 = {"EngineArguments": "engine.arguments", "Result": "matrices.result", "matrix": "compat.v2"}
RENAMED = {  # removed in the next version
    "BadInput": "InputError",
    "EngineFault": "EngineError",
    "Run": "EngineArguments",
    "WrongWords": "ArgumentError",
}
__all__ = [
    "ArgumentError",
    "Decay",
    "EngineError",
    "InputError",
    "LimitError",
    "Matrix",
    "MissingDependencyError",
    "Network",
    "NoServiceWarning",
    "Note",
    "Question",
    "RepairWarning",
    "RoundingWarning",
    "Sample",
    "Scenario",
    "TtmError",
    "TtmWarning",
    "UnreachableWarning",
    "access_change",
    "allocate",
    "check_feed",
    "engine_version",
    "equity",
    "grid",
    "open_matrix",
    "open_network",
    "people_by_band",
    "prepare_feed",
    "read_plan",
    "run_study",
    "sample",
    "settings",
    "who_gains",
    "write_plan",
]


def __getattr__(name: str) -> object:
    """Import a public name when it is first used, so that `import ttm_tools` stays quick."""
    if name in RENAMED:
        from .core.deprecation import warn_renamed

        warn_renamed(f"ttm_tools.{name}", f"ttm_tools.{RENAMED[name]}")
    new = RENAMED.get(name, name)
    where = {**MODULES, **OF_VERSION_2}
    if new in where:
        found = getattr(import_module(f".{where[new]}", __name__), new)
        if new == "Network":
            found._of_folder = network_of_folder
        return found
    raise AttributeError(f"module {__name__!r} has no attribute {name!r}")


def network_of_folder(*arguments: object, **named: object) -> object:
    """Return a `Network` of version 2, which was made from the folder of a feed."""
    from .compat.network import Network as NetworkOfFolder
    from .core.deprecation import warn_renamed

    warn_renamed("ttm_tools.Network(folder, date)", "ttm_tools.open_network(feed)", stacklevel=4)
    return NetworkOfFolder(*arguments, **named)  # type: ignore[arg-type]


def __dir__() -> list[str]:
    """List the public names."""
    return list(__all__)
