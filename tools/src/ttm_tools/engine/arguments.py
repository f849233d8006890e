"""The arguments of a run of `ttm`, and where its program is."""

import datetime
import os
import shutil
import sysconfig
from dataclasses import dataclass, field
from pathlib import Path
from typing import Mapping, Sequence

from ..core.errors import MissingDependencyError
from ..core.question import DAYS_AFTER, DAYS_BEFORE, MAX_RIDES, MAX_WALK, PERCENTILES
from ..core.times import as_ttm_reads

PACKAGES = Path(__file__).resolve().parents[2]
IS_OF_USER = PACKAGES == Path(sysconfig.get_path("purelib", "posix_user")).resolve()  # by pip install --user
SCHEME = "posix_user" if IS_OF_USER else sysconfig.get_default_scheme()
INSTALLED = Path(sysconfig.get_path("scripts", SCHEME)) / "ttm"  # where pip installs the wheel's program
BUILT = Path(__file__).resolve().parents[4] / "crates" / "ttm" / "out" / "ttm"  # in a clone
Pathlike = str | os.PathLike[str]


@dataclass(frozen=True)
class EngineArguments:
    """The arguments of a run; docs/reference/options.md describes each option."""

    feed: Pathlike  # the folder of an unpacked feed
    date: str | datetime.date  # as a text YYYYMMDD or YYYY-MM-DD
    window: tuple[str, str]  # the first and the last departure, HH:MM
    trips: int = int(MAX_RIDES.default)
    walk: int = int(MAX_WALK.default)  # seconds
    shares: Sequence[int] = (int(PERCENTILES.default),)  # percent, ascending
    limits: Sequence[int] = (1800,)  # seconds, ascending
    scenarios: Sequence[Pathlike] = ()  # scenario files
    workers: int = 1  # threads, 1 to 64
    tries: int = 1  # 1 to 8
    back: int = int(DAYS_BEFORE.default)  # service days before the date
    ahead: int = int(DAYS_AFTER.default)  # and after it
    files: Mapping[str, Pathlike] = field(default_factory=dict)  # origins, opportunities, destinations, footpaths
    program: Pathlike | None = None  # see `program_at`

    def command(self) -> list[str]:
        """Return the program and its arguments."""
        return [program_at(self.program), *self.arguments()]

    def arguments(self) -> list[str]:
        """Return the arguments without the program."""
        numbers = {"trips": self.trips, "walk": self.walk, "workers": self.workers, "tries": self.tries}
        lists = {"share": ",".join(map(str, self.shares)), "within": ",".join(map(str, self.limits))}
        first, last = self.window
        named: dict[str, object] = {"feed": self.feed, "date": as_ttm_reads(self.date), "from": first, "to": last}
        days = {"back": self.back, "ahead": self.ahead}
        every = {**named, **numbers, **lists, **days, **self.files}
        arguments = [word for name, value in every.items() for word in (f"--{name}", str(value))]
        return arguments + [str(path) for path in self.scenarios]


def program_at(path: Pathlike | None) -> str:
    """Return the program `ttm`.

    The first of these: `path`, TTM_PROGRAM, the one that pip installed with this package, the one on the PATH, the one
    that a clone built.
    """
    installed = str(INSTALLED) if INSTALLED.is_file() else None
    named = path or os.environ.get("TTM_PROGRAM") or installed or shutil.which("ttm")
    if named is None and BUILT.is_file():
        named = BUILT
    if named is None or shutil.which(str(named)) is None:
        raise MissingDependencyError(
            f"no program ttm {named or ''}: put it on the PATH, name it with TTM_PROGRAM, or with program=".strip()
        )
    return str(named)
