"""One run of an algorithm: its working folder, its programs, and the steps that algorithms share."""

from __future__ import annotations

import csv
import datetime
import shutil
import tempfile
from dataclasses import dataclass
from pathlib import Path
from typing import Any, Sequence

from qgis.core import QgsProcessingException, QgsProcessingUtils

from . import provider
from .cache import cache_folder, cached, checksum
from .engine import Engine, Matrix, Network, Question, matrix_of
from .places import Places, read_places
from .programs import MissingProgram, version_of
from .tools import Progress, Tools
from .values import Times, Values

BASE, ON_FOOT = "base", "on_foot"  # scenarios


@dataclass(frozen=True)
class Joined:
    """A feed with places as its stops, and the walks between them."""

    feed: str
    footpaths: str
    origins: Places
    destinations: str  # a file with the column stop_id
    unreached_origins: int
    unreached_destinations: int


class Run:
    """What a run has. Leaving its context removes the working folder, unless the run failed and the user keeps these.

    Parameters
    ----------
    algorithm, parameters, context, feedback
        As QGIS passes them.
    """

    def __init__(self, algorithm: Any, parameters: Any, context: Any, feedback: Any) -> None:
        self.algorithm, self.parameters, self.context, self.feedback = algorithm, parameters, context, feedback
        self.values = Values(algorithm, parameters, context)
        try:
            self.programs = provider.programs()
        except MissingProgram as error:
            raise QgsProcessingException(str(error)) from None
        self.tools = Tools(self.programs, feedback)
        self.folder = Path(tempfile.mkdtemp(prefix="ttm-", dir=QgsProcessingUtils.tempFolder()))

    def __enter__(self) -> "Run":
        return self

    def __exit__(self, kind: Any, *_: object) -> None:
        if kind is not None and provider.setting(provider.KEEP):
            self.feedback.pushInfo(f"The working folder was kept: {self.folder}")
            return
        shutil.rmtree(self.folder, ignore_errors=True)

    def progress(self, low: float, high: float) -> Progress:
        """Return a part of the progress bar."""
        return Progress(self.feedback, low, high)

    def new_folder(self, name: str) -> Path:
        """Return the path of a folder that does not exist yet."""
        return self.folder / name

    def places(self, name: str, prefix: str) -> Places:
        """Read the layer of a parameter."""
        source = self.algorithm.parameterAsSource(self.parameters, name, self.context)
        if source is None:
            raise QgsProcessingException(self.algorithm.invalidSourceError(self.parameters, name))
        label, id_field = self.values.label(name), self.values.text(f"{name[:-1]}_ID")
        return read_places(source, label, id_field, prefix, self.context, self.feedback)

    def ends(self) -> tuple[Places, Places]:
        """Read origins and destinations. The same layer for both is a warning, since dialogs begin with that."""
        origins, destinations = self.places("ORIGINS", "~o"), self.places("DESTINATIONS", "~d")
        if self.parameters["ORIGINS"] == self.parameters["DESTINATIONS"]:
            self.feedback.pushWarning("Origins and destinations are the same layer, so each origin reaches itself")
        return origins, destinations

    def prepare(self, path: str, progress: Progress) -> tuple[Path, dict[str, Any]]:
        """Return the folder of a prepared feed, from the cache if it is there, and what was reported of it."""
        self.feedback.setProgressText("Preparing the feed")
        repairs, loss = self.values.is_on("REPAIR"), self.values.is_on("ALLOW_LOSS")
        options = [word for word, is_on in (("--repair", repairs), ("--allow-loss", loss)) if is_on]
        version = version_of(self.programs.tools, Path(self.programs.tools).stat().st_mtime_ns)
        key = checksum(path, version, options)

        made: list[dict[str, Any]] = []

        def make(folder: Path) -> dict[str, Any]:
            made.append(self.prepared(progress, [path], options, folder))
            return made[0]

        folder, result = cached(cache_folder(str(provider.setting(provider.CACHE) or "")), key, make)
        progress.at(1, 1)
        if not made:  # the warnings of the run that prepared the feed are this run's, too
            self.tools.warn(result)
        repaired = {rule: count for rule, count in (result.get("repairs") or {}).items() if count}
        if repaired:
            listed = ", ".join(f"{rule} {count}" for rule, count in repaired.items())
            self.feedback.pushWarning(f"The feed was repaired ({listed}); {folder / 'prepared.csv'} lists each record")
        return folder, result

    def prepared(
        self, progress: Progress, feeds: Sequence[str], options: Sequence[object], folder: Path
    ) -> dict[str, Any]:
        """Write a prepared feed, and return what was reported. An error says so if a repair could help."""
        try:
            return self.tools.run(progress, "prepare", *feeds, *options, "--out", folder)
        except QgsProcessingException as error:
            if self.values.is_on("REPAIR"):
                raise
            raise QgsProcessingException(f"{str(error).rstrip('.')}. Turn on *Repair the feed*.") from None

    def warn_of_date(self, date: str, result: dict[str, Any], label: str = "Date") -> None:
        """Warn if no trip runs on a date, with the nearest date on which one does."""
        running = {day for day, trips in (result.get("trips_by_date") or {}).items() if trips}
        if not running or date in running:
            return
        number = ordinal(date)
        nearest = min(sorted(running), key=lambda day: abs(ordinal(day) - number))
        self.feedback.pushWarning(f"{label}: no trip runs on {date}; the nearest date with trips is {nearest}")

    def join(
        self, feed: Path | str, times: Times, origins: Places, to: Places | float, progress: Progress, name: str = "p"
    ) -> Joined:
        """Join places to the stops of a feed by walks.

        Parameters
        ----------
        to
            The destinations, or the side of square cells around the stops, in metres.
        name
            The name of the folder; another one for each call.
        """
        self.feedback.setProgressText("Making walks along streets" if times.streets else "Making walks")
        folder, begins = self.new_folder(name), self.folder / f"{name}-origins.csv"
        origins.write(begins)
        words: list[object] = ["--origins", begins, *walking_options(times)]
        if isinstance(to, Places):
            ends = self.folder / f"{name}-destinations.csv"
            to.write(ends)
            words += ["--destinations", ends]
        else:
            words += ["--grid", f"{to:g}"]
        result = self.tools.run(progress, "points", feed, *words, "--out", folder)
        lost = result.get("unreachable") or {}
        begin = self.warn_of_unreached(origins, lost.get("origins") or [])
        end = self.warn_of_unreached(to, lost.get("destinations") or []) if isinstance(to, Places) else 0
        destinations = str(folder / "destinations.csv")
        return Joined(result["feed"], result["footpaths_file"], origins, destinations, begin, end)

    def warn_of_unreached(self, places: Places, names: Sequence[str]) -> int:
        """Warn of places without a stop within the walk; returns their number."""
        if names:
            listed = ", ".join(str(places.identifiers[places.position_of(name)]) for name in names)
            self.feedback.pushWarning(f"{places.label}: {len(names)} without a stop within the longest walk: {listed}")
        return len(names)

    def ask(self, joined: Joined, times: Times, scenarios: Sequence[str], progress: Progress) -> Matrix:
        """Return the matrix of travel times from the origins of a joined feed to its destinations."""
        self.feedback.setProgressText("Computing travel times")
        folder = Path(joined.feed).parent / "matrix"
        folder.mkdir()
        files = list(scenarios)
        if times.rides == 0:
            files.append(str(without_routes(Path(joined.feed), folder)))
        day = times.date.replace("-", "")
        network = Network(joined.feed, joined.footpaths, day, times.walk, times.back, times.ahead, files)
        window = (times.first, times.last, max(1, times.rides), times.percentiles)
        question = Question(*window, provider.threads(), joined.destinations)
        with Engine(self.programs, network, self.feedback) as engine:
            return matrix_of(engine, question, joined.origins.names, folder, progress)


def walking_options(times: Times) -> list[object]:
    """Return how people walk, as options of `ttm-tools`."""
    speed = ["--speed", repr(times.metres_a_second), "--detour", f"{times.detour:g}"]
    along = ["--streets", times.streets] if times.streets else []
    return ["--limit", max(1, times.walk), *speed, *along]


def scenario_of(times: Times) -> str:
    """Return the scenario that has the answer: that without any route if no vehicle is wanted."""
    return BASE if times.rides else ON_FOOT


def without_routes(feed: Path, folder: Path) -> Path:
    """Write the scenario that removes all routes, and return its file."""
    path = folder / f"{ON_FOOT}.csv"
    with (feed / "routes.txt").open(newline="", encoding="utf-8-sig") as routes, path.open("w", newline="") as file:
        writer = csv.writer(file)
        writer.writerow(["action", "id", "seconds"])
        for row in csv.DictReader(routes):
            writer.writerow(["remove_route", row["route_id"], ""])
    return path


def ordinal(date: str) -> int:
    """Return the number of a day."""
    return datetime.date.fromisoformat(date).toordinal()
