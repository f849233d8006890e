"""A network that answers, of the feed as it is or of a plan's scenarios, until another takes its place."""

from dataclasses import dataclass, field
from pathlib import Path
from typing import Any, Sequence

import numpy as np
import numpy.typing as npt

from ..compat.network import Network
from ..compat.v2 import matrix
from ..core.files import remove
from ..core.scenarios import BASE, TODAY, scenario_name
from ..gtfs.timetable import Timetable
from ..matrices.result import Result
from ..views.drawn_lines import LineChange
from .lines import UNCHANGED
from .options import ExploreOptions
from .point import Point, Walk, laid_out
from .question import Question

Seconds = npt.NDArray[np.int32]
NEVER = -1  # instead of seconds: not reached


@dataclass(frozen=True)
class Plan:
    """Of what a network is."""

    folder: str  # the feed
    files: list[str]  # of its scenarios; today has none if it is the feed as it is
    walk: int  # seconds, the longest walk
    actions: list[dict[str, Any]]  # a person's changes, as the page sends them
    text: str  # of the plan of its scenarios; empty without a plan
    sentences: list[str]  # what the plan's actions did
    own: Path | None  # a folder that goes with it
    trips: Timetable | None = None  # those that the scenarios add; None where they add none
    changes: list[LineChange] = field(default_factory=lambda: [UNCHANGED])  # of the lines, by scenario

    @property
    def scenarios(self) -> list[str]:
        """Those that are shown, the one first with which others are compared."""
        names = [scenario_name(path) for path in self.files]
        return [TODAY, *(name for name in names if name != TODAY)] if names else [BASE]

    def name_of(self, scenario: str) -> str:
        """What the program calls a scenario."""
        is_feed = scenario == TODAY and not any(Path(path).name == f"{TODAY}.csv" for path in self.files)
        return BASE if is_feed else scenario


class LiveNetwork:
    """A process that keeps the network of a plan."""

    def __init__(self, version: int, plan: Plan, options: ExploreOptions) -> None:
        self.version, self.plan, self.options = version, plan, options
        self.scenarios = plan.scenarios
        self.order: npt.NDArray[np.intp] | None = None  # where the column of each place is, by the first answer
        self.own: dict[str, Any] = {name: getattr(options, name) for name in ("back", "ahead", "program")}
        self.own |= {"walk": plan.walk, "scenarios": plan.files}
        self.network = Network(plan.folder, options.date, footpaths=options.footpaths, **self.own)

    def ask(self, origin: str, window: tuple[str, str], trips: int, shares: Sequence[int]) -> Result:
        return self.network.matrix(window, trips=trips, shares=shares, origins=[origin])

    def ask_from(self, point: Point, walks: list[Walk], folder: Path, question: Question) -> Result:
        """Travel times from a point that is no stop, by a run with it as one more stop, whose files are in a folder."""
        name, feed, footpaths = laid_out(folder, self.plan.folder, self.options.footpaths, point, walks)
        own: dict[str, Any] = {"trips": question.trips, "shares": self.options.shares, "footpaths": footpaths}
        return matrix(feed, self.options.date, question.window, origins=[name], **own, **self.own)

    def seconds(self, result: Result, columns: Sequence[str]) -> Seconds:
        """The cells of some stops by scenario and share, in whole seconds."""
        if self.order is None:
            places = {name: place for place, name in enumerate(result.stops)}
            self.order = np.array([places[name] for name in columns], dtype=np.intp)
        names = map(self.plan.name_of, self.scenarios)
        rows = [result.seconds[name, share][0] for name in names for share in result.shares]
        found = np.stack(rows)[:, self.order]
        seconds: Seconds = np.where(np.isnan(found), NEVER, found).astype("<i4")
        return seconds

    def close(self) -> None:
        self.network.close()
        if self.plan.own is not None:
            remove(self.plan.own)
